//! Notes: an input that is delivered more often than it was sent. The run is replayed and counted,
//! and no run is shorter; where there is no note there is no such run.

use std::collections::BTreeSet;

use checker::bytes::SIDES;

use super::runs::{self, Line};
use super::{demand, number, Case, Checked, Seen};

const SIDE_NAMES: [&str; SIDES] = ["the kernel", "the host", "the third side"];

/// How a transition changes the counts: what the others send, and what this side reads.
fn counted(events: [i8; SIDES], side: usize, signal: i8) -> (i64, i64) {
    let sent = (0..SIDES).filter(|&other| other != side && events[other] == -signal).count();
    (sent as i64, i64::from(events[side] == signal))
}

/// How many ticks a shortest run has after which a side has read a signal more often than the
/// others have sent it, if there is one.
///
/// For each record it is known how low sends less reads can be there after so many ticks at the
/// most, until one is below zero or none gets lower.
pub fn shortest(case: &Case, side: usize, signal: i8) -> Option<usize> {
    let mut least: Vec<Option<i64>> = vec![None; case.converter.len()];
    least[0] = Some(0);
    for ticks in 1.. {
        let mut next = least.clone();
        for (record, balance) in least.iter().enumerate() {
            let Some(balance) = balance else { continue };
            for link in &case.converter[record].links {
                let (sent, read) = counted(link.side_events(), side, signal);
                let (to, balance) = (&mut next[usize::from(link.next)], balance + sent - read);
                *to = Some(to.map_or(balance, |known| known.min(balance)));
            }
        }
        if next.iter().flatten().any(|&balance| balance < 0) {
            return Some(ticks);
        }
        if next == least {
            return None;
        }
        least = next;
    }
    None
}

/// Checks what `judge` prints behind a yes.
pub fn check(case: &Case, text: &str) -> Checked<Seen> {
    let lines: Vec<&str> = text.lines().collect();
    let mut noted = BTreeSet::new();
    let mut seen = Seen::new();
    for (at, line) in lines.iter().enumerate() {
        let Some(note) = line.strip_prefix("Note: '") else {
            let known = at == 0 || line.is_empty() || line.starts_with("      ");
            demand(known, || format!("'{line}' is nothing that is known"))?;
            continue;
        };
        let (signal, rest) = note.split_once("' can be delivered to ").ok_or("no delivery")?;
        let (side, rest) =
            rest.split_once(" more often than it was sent: here ").ok_or("no here")?;
        let counts = rest.split_once('.').ok_or("no end")?.0;
        let side = SIDE_NAMES.iter().position(|name| *name == side).ok_or("no such side")?;
        let signal = case.page.signal(signal)?;
        let run: Vec<&str> = lines[at + 1..]
            .iter()
            .copied()
            .skip_while(|line| line.is_empty())
            .take_while(|line| !line.is_empty())
            .collect();
        let ticks = run_of(case, &run, side, signal, counts)?;
        let least = shortest(case, side, signal);
        demand(least == Some(ticks), || format!("a shortest run has {least:?} ticks"))?;
        demand(noted.insert((side, signal)), || format!("'{line}' again"))?;
        *seen.entry("notes").or_default() += 1;
        if !counts.contains("after 0 sends") {
            *seen.entry("after sends").or_default() += 1;
        }
    }
    let mut all = BTreeSet::new();
    for side in 0..SIDES {
        let states = case.page.design.sides[side].iter();
        let reads: BTreeSet<i8> = states
            .flat_map(|state| &state.transitions)
            .map(|transition| transition.event)
            .filter(|&event| event > 0 && sent_by_another(case, side, event))
            .collect();
        all.extend(
            reads
                .into_iter()
                .filter(|&read| shortest(case, side, read).is_some())
                .map(|read| (side, read)),
        );
    }
    demand(noted == all, || format!("notes on {all:?} are due, and not on {noted:?}"))?;
    Ok(seen)
}

/// Replays the run of a note, and answers how many ticks it has.
fn run_of(case: &Case, run: &[&str], side: usize, signal: i8, counts: &str) -> Checked<usize> {
    let (mut record, mut ticks, mut sent, mut read) = (0, 0, 0, 0);
    let lines = runs::read(run, 6, case.page.sides())?;
    let mut begun = false;
    for line in &lines {
        let tick = match line {
            Line::Tick(tick) => tick,
            Line::Remark(words) => return Err(format!("'{words}' in a note")),
        };
        if !begun {
            case.begins(tick)?;
            begun = true;
            continue;
        }
        demand(read <= sent, || format!("it is so before tick {}", tick.tick))?;
        demand(tick.tick == ticks + 1, || format!("tick {} behind {ticks}", tick.tick))?;
        let (more_sent, more_read) = counted(case.follows(record, tick)?, side, signal);
        (record, ticks) = (tick.record, tick.tick);
        (sent, read) = (sent + more_sent, read + more_read);
    }
    demand(read > sent, || format!("{read} were read and {sent} sent"))?;
    let words: Vec<&str> = counts.split([' ', ',']).filter(|word| !word.is_empty()).collect();
    let [times, "time" | "times", "after", sends, "send" | "sends"] = words[..] else {
        return Err(format!("'{counts}' counts nothing"));
    };
    let told = (number(times)? as i64, number(sends)? as i64);
    demand(told == (read, sent), || format!("{read} were read and {sent} sent, and not {counts}"))?;
    Ok(ticks)
}

/// Whether another side can send a signal at all. One that no other side sends comes from outside,
/// and nothing is said of it.
fn sent_by_another(case: &Case, side: usize, signal: i8) -> bool {
    let others = case.page.design.sides.iter().enumerate().filter(|(other, _)| *other != side);
    let mut states = others.flat_map(|(_, states)| states);
    states.any(|state| state.target(-signal).is_some())
}
