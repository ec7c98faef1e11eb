//! "Record N isn't matched": each sentence names a record that the second checker finds unmatched,
//! and gives a reason that is true of it.

use checker::bytes::{Link, Record, StateKind, SIDES};
use checker::joined::{enabling, Enabling};
use checker::judge::record_matched;

use super::{add, demand, listed, number, Case, Checked, Seen};

const SIDE_NAMES: [&str; SIDES] = ["the kernel", "the host", "the third side"];
/// So many records are told at the most.
const MOST_TOLD: usize = 10;

/// The records that aren't matched.
pub fn unmatched(case: &Case) -> Vec<usize> {
    let (design, converter) = (&case.page.design, &case.converter);
    let fits = |at: &usize| {
        let record = &converter[*at];
        record_matched(design, converter, record) && (*at > 0 || record.states == [0; SIDES])
    };
    (0..converter.len()).filter(|at| !fits(at)).collect()
}

/// Checks what `judge` prints of a converter that isn't matched.
pub fn check(case: &Case, text: &str) -> Checked<Seen> {
    let lines: Vec<&str> = text.lines().collect();
    let [verdict, "", told @ ..] = &lines[..] else {
        return Err("no record is told".to_string());
    };
    demand(verdict.contains("(14)"), || format!("'{verdict}' isn't about 14"))?;
    let unmatched = unmatched(case);
    let (mut records, mut seen) = (Vec::new(), Seen::new());
    let mut rest = told;
    while let [line, behind @ ..] = rest {
        let Some(sentence) = line.strip_prefix("Record ") else { break };
        let (head, reason) = sentence.split_once(" isn't matched: ").ok_or("no reason")?;
        let (record, named) = head.split_once(" (").ok_or("no names")?;
        let record = number(record)?;
        let of = case.converter.get(record).ok_or_else(|| format!("no record {record}"))?;
        let names = format!("{})", case.page.named(of.states));
        demand(named == names, || format!("record {record} names ({names}, and not ({named}"))?;
        demand(unmatched.contains(&record), || format!("record {record} is matched"))?;
        let reason = reason.strip_suffix('.').ok_or("a sentence has no end")?;
        let kind = because(case, record, of, reason)
            .map_err(|wrong| format!("record {record}: {wrong}, in '{reason}'"))?;
        add(&mut seen, Seen::from([(kind, 1)]));
        records.push(record);
        rest = behind;
    }
    let mut first = unmatched.clone();
    first.truncate(MOST_TOLD);
    let mut once = records.clone();
    once.dedup();
    demand(once == first, || format!("{first:?} aren't matched first, and not {once:?}"))?;
    let more = unmatched.len() - first.len();
    let told: Vec<&str> = rest.iter().flat_map(|line| line.split(' ')).collect();
    match told[..] {
        [] => demand(more == 0, || format!("{more} more aren't told")),
        ["And", count, "more", ..] => {
            demand(count == more.to_string(), || format!("there are {more} more"))
        }
        _ => Err(format!("'{rest:?}' is nothing that is known")),
    }?;
    Ok(seen)
}

/// Checks the reason for which a record isn't matched, and answers its kind.
fn because(case: &Case, own: usize, record: &Record, reason: &str) -> Checked<&'static str> {
    if let Some(start) = reason.strip_prefix("record 0 names the start, ") {
        demand(start == format!("({})", case.page.named([0; SIDES])), || "the start".to_string())?;
        demand(own == 0 && record.states != [0; SIDES], || "it does".to_string())?;
        return Ok("start");
    }
    if let Some(rest) = reason.strip_prefix("where ") {
        return leads(case, record, rest);
    }
    if let Some((side, state)) = reason.split_once(" has no state ") {
        let (side, state) = (side_of(side)?, number(state)?);
        let named = usize::from(record.states[side]) == state;
        demand(named && state >= case.page.design.sides[side].len(), || "it has".to_string())?;
        return Ok("no state");
    }
    if let Some(rest) = reason.strip_prefix("there is no third side to ") {
        let event = event(case, rest)?;
        demand(case.page.sides() < SIDES && event != 0, || "there is one".to_string())?;
        demand(enabled(record, &[(2, event)]).count() > 0, || "it doesn't".to_string())?;
        return Ok("no third side");
    }
    if let Some((side, rest)) = reason.split_once(" can't ") {
        let (done, state) = rest.rsplit_once(" in ").ok_or("no 'in'")?;
        let (side, event) = (side_of(side)?, event(case, done)?);
        let named = record.states[side];
        demand(case.page.state(side, named) == state, || "another state".to_string())?;
        let can = case.page.design.sides[side][usize::from(named)].target(event).is_some();
        demand(!can, || "it can".to_string())?;
        demand(enabled(record, &[(side, event)]).count() > 0, || "it doesn't".to_string())?;
        return Ok("can't");
    }
    if let Some(rest) = reason.strip_prefix("there are ") {
        let (count, rest) = rest.split_once(" transitions where ").ok_or("no 'where'")?;
        let shows = rest.strip_suffix(", and there may be one only").ok_or("another end")?;
        let events = doing(case, shows)?;
        let found = enabled(record, &events).count();
        let words = ["no", "one", "two", "three", "four", "five", "six", "seven", "eight"];
        demand(words[found] == count && found > 1, || format!("there are {found}"))?;
        // Where one side may read, there is one transition for each choice of the delayed sides.
        let joint = record.states.map(usize::from);
        let Enabling::OneForEachChoice(delayed) = enabling(&case.page.design, joint) else {
            return Err("there may be more".to_string());
        };
        let told: [bool; SIDES] = std::array::from_fn(|side| events.iter().any(|at| at.0 == side));
        demand(told == delayed, || "these aren't the sides that choose".to_string())?;
        return Ok("too many");
    }
    let (shows, end) = reason.split_once(", and no transition lets ").ok_or("another reason")?;
    let (first, others) = shows.split_once(" while ").unwrap_or((shows, ""));
    let (side, done) = first.split_once(" may ").ok_or("no 'may'")?;
    let done = done.strip_suffix(" here").ok_or("no 'here'")?;
    let mut events = vec![(side_of(side)?, event(case, done)?)];
    if !others.is_empty() {
        events.extend(doing(case, others)?);
    }
    demand(end == if events.len() > 1 { "them" } else { "it" }, || "it or them".to_string())?;
    for &(side, event) in &events {
        let state = &case.page.design.sides[side][usize::from(record.states[side])];
        let chooses = state.kind() != Some(StateKind::Input) && state.target(event).is_some();
        demand(chooses, || format!("{} can't choose so", SIDE_NAMES[side]))?;
    }
    demand(enabled(record, &events).count() == 0, || "one does".to_string())?;
    Ok(if events.len() > 1 { "missing together" } else { "missing" })
}

/// "the kernel ticks and the host reads 'x' it leads to record M (names), which should name (others)".
fn leads(case: &Case, record: &Record, rest: &str) -> Checked<&'static str> {
    let (done, rest) = rest.split_once(" it leads to record ").ok_or("no 'it leads'")?;
    if let Some((next, state)) = rest.split_once(", and the third side has no state ") {
        let (next, state) = (number(next)?, number(state)?);
        let link = enabled(record, &doing(case, done)?).find(|link| usize::from(link.next) == next);
        demand(link.is_some(), || "it doesn't lead there".to_string())?;
        let to = case.converter.get(next).ok_or("there is no such record")?;
        let named = usize::from(to.states[2]);
        demand(case.page.sides() < SIDES && named == state && state > 0, || "it has".to_string())?;
        return Ok("no state");
    }
    let (next, should) = rest.split_once(", which should name ").ok_or("no 'should'")?;
    let (next, named) = next.split_once(" (").ok_or("no names")?;
    let events = doing(case, done)?;
    demand(events.len() == case.page.sides(), || "not every side is told".to_string())?;
    let next = number(next)?;
    let to = case.converter.get(next).ok_or("there is no such record")?;
    demand(named == format!("{})", case.page.named(to.states)), || "other names".to_string())?;
    demand(enabled(record, &events).any(|link| usize::from(link.next) == next), || {
        "there is no such transition".to_string()
    })?;
    let mut targets = [0; SIDES];
    for &(side, event) in &events {
        let state = &case.page.design.sides[side][usize::from(record.states[side])];
        targets[side] = state.target(event).ok_or("a side can't do so")? as u8;
    }
    demand(should == format!("({})", case.page.named(targets)), || "it shouldn't".to_string())?;
    demand(targets != to.states, || "so it does".to_string())?;
    Ok("leads")
}

fn side_of(name: &str) -> Checked<usize> {
    let side = SIDE_NAMES.iter().position(|known| *known == name);
    side.ok_or_else(|| format!("'{name}' is no side"))
}

/// The event of "tick", "read 'x'" or "send 'x'", with an `s` behind the verb or without.
fn event(case: &Case, words: &str) -> Checked<i8> {
    let (verb, signal) = words.split_once(' ').unwrap_or((words, ""));
    let signal = signal.strip_prefix('\'').and_then(|signal| signal.strip_suffix('\''));
    match (verb.strip_suffix('s').unwrap_or(verb), signal) {
        ("tick", None) => Ok(0),
        ("read", Some(signal)) => case.page.signal(signal),
        ("send", Some(signal)) => Ok(-case.page.signal(signal)?),
        _ => Err(format!("'{words}' is nothing that a side does")),
    }
}

/// The events of "the kernel ticks, the host reads 'x' and the third side sends 'y'".
fn doing(case: &Case, words: &str) -> Checked<Vec<(usize, i8)>> {
    let each = listed(words).into_iter().map(|words| {
        let names = (0..SIDES).find(|&side| words.starts_with(SIDE_NAMES[side]));
        let side = names.ok_or_else(|| format!("'{words}' is of no side"))?;
        Ok((side, event(case, words[SIDE_NAMES[side].len()..].trim_start())?))
    });
    each.collect()
}

/// The transitions of a record in which sides do this.
fn enabled<'a>(record: &'a Record, events: &[(usize, i8)]) -> impl Iterator<Item = &'a Link> {
    let events = events.to_vec();
    record
        .links
        .iter()
        .filter(move |link| events.iter().all(|&(side, event)| link.side_events()[side] == event))
}
