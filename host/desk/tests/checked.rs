//! Each explanation of the built program is checked by something that didn't make it.

mod checking;
mod common;

use std::fs;

use checker::bytes::{
    converter_bytes, positions, read_converter_memory, Design, Link, Record, SIDES,
};
use checker::generate::{self, matched_converter, nearly_matched_converter, Random};
use checker::joined::steps;
use checker::judge::{failing_rules, matched};
use checker::page::read_converter;
use checker::search::find;
use checking::{add, notes, pages, rules, sets, unmatched, waits, Case, Checked, Page, Seen};
use common::{called, example, fed, root, Called, Folder};

/// Whether the page has names for all that a converter says.
fn has_names(case: &Case) -> bool {
    let (names, sides) = (case.page.names(), case.page.sides());
    case.converter.iter().all(|record| {
        let known = (0..sides).all(|at| usize::from(record.states[at]) < names.states[at].len());
        let events = |link: &Link| {
            let signals = link.events.iter().map(|event| usize::from(event.unsigned_abs()));
            signals.max() <= Some(names.signals.len())
                && link.events[sides..].iter().all(|&e| e == 0)
        };
        known
            && record.states[sides..].iter().all(|&state| state == 0)
            && record.links.iter().all(events)
    })
}

/// Has the program judge a converter, from a file or from the page.
fn judged(folder: &Folder, case: &Case, on_page: bool) -> Called {
    if on_page && has_names(case) {
        let table = pages::converter(case.page.names(), &case.converter);
        folder.write("a.md", format!("{}{table}", case.page.text));
        return called(&folder.0, &["judge", "a.md"]);
    }
    folder.write("a.md", &case.page.text);
    folder.write("a.converter", pages::file(&case.converter));
    called(&folder.0, &["judge", "a.md", "a.converter"])
}

/// Checks what `judge` prints behind a yes: how long rules wait, and the notes.
fn behind_a_yes(case: &Case, text: &str) -> Checked<Seen> {
    let (mut seen, left) = waits::check(case, text)?;
    add(&mut seen, notes::check(case, &left)?);
    Ok(seen)
}

/// Checks what the program says to a converter, against the verdict of the second checker.
fn check(case: &Case, called: &Called) -> Seen {
    let (design, converter) = (&case.page.design, &case.converter);
    let (status, kind, check): (_, _, fn(&Case, &str) -> Checked<Seen>) =
        match matched(design, converter) {
            false => (1, "14", unmatched::check),
            true if failing_rules(design, converter).is_empty() => (0, "yes", behind_a_yes),
            true => (1, "15", rules::check),
        };
    let (page, text) = (&case.page.text, &called.out);
    assert_eq!(called.status, status, "{page}\n{text}{}", called.errors);
    let mut seen = check(case, text)
        .unwrap_or_else(|complaint| panic!("{complaint}\n{page}\n{converter:?}\n{text}"));
    add(&mut seen, Seen::from([(kind, 1)]));
    seen
}

/// Each of these kinds was seen so often at least.
fn all_seen(seen: &Seen, kinds: &[(&str, usize)]) {
    println!("{seen:?}");
    for (kind, least) in kinds {
        assert!(seen.get(kind).unwrap_or(&0) >= least, "{kind} in {seen:?}");
    }
}

#[test]
fn rules_that_fail() {
    let folder = Folder::new();
    let mut seen = Seen::new();
    for seed in 0..1_000 {
        let random = &mut Random::new(seed);
        let page = pages::any_page(random, 3, 3);
        let spare = random.below(6);
        let converter = matched_converter(random, &page.design, spare);
        let case = Case::new(page, converter);
        let on_page = random.once_in(2);
        add(&mut seen, check(&case, &judged(&folder, &case, on_page)));
    }
    let once = ["loops", "before", "untils in always", "next", "disjunctions", "implications"];
    all_seen(&seen, &once.map(|kind| (kind, 30)));
    all_seen(&seen, &[("15", 500), ("back", 30), ("stars", 30), ("labels", 500), ("ticks", 700)]);
}

/// Converters that are nearly matched: those that name a state of a third side which the page
/// doesn't have, or the others.
fn nearly_matched(third_state: bool) -> Seen {
    let folder = Folder::new();
    let mut seen = Seen::new();
    for seed in 0..600 {
        let random = &mut Random::new(seed);
        let page = pages::any_page(random, 3, 1);
        let spare = random.below(4);
        let converter = nearly_matched_converter(random, &page.design, spare);
        let case = Case::new(page, converter);
        let sides = case.page.sides();
        let third = |record: &Record| record.states[sides..].iter().any(|&state| state != 0);
        let on_page = random.once_in(2);
        if case.converter.iter().any(third) == third_state {
            add(&mut seen, check(&case, &judged(&folder, &case, on_page)));
        }
    }
    seen
}

#[test]
fn records_that_are_not_matched() {
    let seen = nearly_matched(false);
    let reasons = ["start", "no state", "no third side", "can't", "leads", "too many", "missing"];
    all_seen(&seen, &reasons.map(|reason| (reason, 2)));
    all_seen(&seen, &[("14", 300), ("missing together", 2)]);
}

#[test]
fn states_of_a_third_side_that_is_not_there() {
    all_seen(&nearly_matched(true), &[("14", 10)]);
}

#[test]
fn pages_of_every_form() {
    let folder = Folder::new();
    let mut seen = Seen::new();
    for seed in 0..400 {
        let random = &mut Random::new(seed);
        let made = generate::page(random);
        let page = Page::new(String::from_utf8(made.page).expect("a page is text"));
        if page.design.sides.iter().map(Vec::len).product::<usize>() > 40 {
            continue;
        }
        let right =
            |converter: &Vec<Record>| read_converter_memory(&converter_bytes(converter)).is_ok();
        match made.converter {
            None => {
                let converter = matched_converter(random, &page.design, 3);
                let case = Case::new(page, converter);
                add(&mut seen, check(&case, &judged(&folder, &case, false)));
            }
            Some(converter) if right(&converter) => {
                folder.write("a.md", &page.text);
                let case = Case::new(page, converter);
                add(&mut seen, check(&case, &called(&folder.0, &["judge", "a.md"])));
            }
            // The same events twice in a record are a mistake of the page.
            Some(_) => {}
        }
    }
    all_seen(&seen, &[("15", 60), ("14", 30), ("yes", 20)]);
}

/// A converter with one transition changed: it leads to another record that names the same states,
/// or is left out, or is another one.
fn edited(random: &mut Random, design: &Design, converter: &[Record]) -> Vec<Record> {
    let mut edited = converter.to_vec();
    let at = random.below(edited.len());
    let joint = edited[at].states;
    let place = random.below(edited[at].links.len());
    let to = |states: [u8; SIDES], random: &mut Random| {
        let records = (0..converter.len()).filter(|&record| converter[record].states == states);
        let records: Vec<usize> = records.collect();
        (!records.is_empty()).then(|| *random.pick(&records) as u16)
    };
    let links = &mut edited[at].links;
    match random.below(3) {
        0 => {
            let named = converter[usize::from(links[place].next)].states;
            links[place].next = to(named, random).expect("it is one of them");
        }
        1 if links.len() > 1 => {
            links.remove(place);
        }
        _ => {
            let step = *random.pick(&steps(design, joint.map(usize::from)));
            let events = step.events.map(|event| -event);
            let next = to(step.to.map(|state| state as u8), random);
            if let (Some(next), true) = (next, links.iter().all(|link| link.events != events)) {
                links[place] = Link { events, next };
            }
        }
    }
    edited
}

#[test]
fn examples_with_edited_converters() {
    let folder = Folder::new();
    let mut seen = Seen::new();
    for entry in fs::read_dir(root().join("examples")).expect("the examples are there") {
        let path = entry.expect("it is read").path();
        let name = path.file_stem().expect("it has a name").to_string_lossy().to_string();
        if path.extension().is_none_or(|ending| ending != "md") || name == "README" {
            continue;
        }
        let page = example(&name);
        let names = Page::new(page.clone()).read.names;
        let read = read_converter(page.as_bytes(), &names).expect("the table has no mistakes");
        let Some(converter) = read else { continue };
        let random = &mut Random::new(converter.len() as u64);
        for edits in 0..30 {
            let page = Page::new(page.clone());
            let mut changed = converter.clone();
            for _ in 0..edits % 4 {
                changed = edited(random, &page.design, &changed);
            }
            // What is matched to the tables may break any rule.
            if edits > 20 {
                changed = matched_converter(random, &page.design, 2);
            }
            let case = Case::new(page, changed);
            add(&mut seen, check(&case, &judged(&folder, &case, false)));
        }
    }
    all_seen(&seen, &[("15", 50), ("14", 50), ("yes", 20), ("notes", 20)]);
}

/// The waits of what the search finds, on the page, by `judge` and by `show`; then of the same page with other converters: the one found with some transitions
/// changed, and others that are matched.
#[test]
fn how_long_rules_wait() {
    let folder = Folder::new();
    let mut seen = Seen::new();
    for seed in 0..400 {
        let random = &mut Random::new(seed);
        let page = pages::waiting_page(random, 4, 3);
        if positions(&page.design) > 8_192 {
            continue;
        }
        let written = fed(&folder.0, &["search", "--write"], page.text.as_bytes());
        assert_eq!(written.status, i32::from(find(&page.design).is_none()), "{}", page.text);
        if written.status == 1 {
            assert!(!written.out.contains(waits::HEAD), "{}", written.out);
            continue;
        }
        let found = Page::new(written.out.clone());
        assert_eq!(found.read.design, page.read.design);
        let read = read_converter(found.text.as_bytes(), found.names());
        let converter = read.expect("no mistakes").expect("one was found");
        let case = Case::new(found, converter.clone());
        folder.write("a.md", &case.page.text);
        for text in [written.out, called(&folder.0, &["show", "a.md"]).out] {
            let checked = waits::check_page(&case, &text);
            add(&mut seen, checked.unwrap_or_else(|complaint| panic!("{complaint}\n{text}")));
        }
        add(&mut seen, check(&case, &called(&folder.0, &["judge", "a.md"])));
        for edits in 1..6 {
            let mut changed = converter.clone();
            for _ in 0..edits {
                changed = edited(random, &page.design, &changed);
            }
            if edits > 3 {
                changed = matched_converter(random, &page.design, 4);
            }
            let case = Case::new(Page::new(page.text.clone()), changed);
            add(&mut seen, check(&case, &judged(&folder, &case, true)));
        }
    }
    let waits = ["waits of none", "waits of one", "waits of two", "longer waits"];
    all_seen(&seen, &waits.map(|kind| (kind, 30)));
}

#[test]
fn inputs_that_nobody_sent() {
    let folder = Folder::new();
    let mut seen = Seen::new();
    for seed in 0..500 {
        let random = &mut Random::new(seed);
        let page = pages::usual_page(random, 3, 0);
        let converter = matched_converter(random, &page.design, 3);
        let case = Case::new(page, converter);
        add(&mut seen, check(&case, &judged(&folder, &case, false)));
    }
    all_seen(&seen, &[("yes", 500), ("notes", 150), ("after sends", 30)]);
}

#[test]
fn rules_that_cannot_be_kept_together() {
    let folder = Folder::new();
    let mut seen = Seen::new();
    for seed in 0..8_000 {
        let random = &mut Random::new(seed);
        let count = random.from_to(2, 5);
        let page = pages::usual_page(random, 3, count);
        // Mostly each rule can be kept alone.
        let alone = |&rule: &u8| find(&Design { rules: vec![rule], ..page.design.clone() });
        let torn = page.design.rules.iter().all(|rule| alone(rule).is_some());
        let small = positions(&page.design) <= 8_192;
        if !small || !(torn || random.once_in(12)) || find(&page.design).is_some() {
            continue;
        }
        folder.write("a.md", &page.text);
        let called = called(&folder.0, &["why", "a.md"]);
        assert_eq!(called.status, 1, "{}", page.text);
        let checked = sets::check(&page, &called.out);
        let complaint = |complaint| panic!("{complaint}\n{}\n{}", page.text, called.out);
        add(&mut seen, checked.unwrap_or_else(complaint));
    }
    all_seen(
        &seen,
        &[("whys", 200), ("alone", 100), ("together", 100), ("three and more", 1), ("changes", 20)],
    );
}

/// A kernel and a host by hand, with one rule.
fn by_hand(rule: &str, converter: &[(&str, &[&str])]) -> Case {
    let mut text = String::from(
        "## Kernel

| state | holds | transitions |
|---|---|---|
| idle | | tick to idle; read go to busy |
| busy | busy | send done to idle |

## Host

| state | holds | transitions |
|---|---|---|
| calm | | tick to calm; send ask to asks |
| asks | asks | tick to asks; read done to calm |

## Rules

1. It is so.

",
    );
    text += &format!("       {rule}\n");
    if !converter.is_empty() {
        text +=
            "\n## Converter\n\n| record | names | kernel | host | next |\n|---|---|---|---|---|\n";
    }
    for (record, (names, lines)) in converter.iter().enumerate() {
        for (at, line) in lines.iter().enumerate() {
            let first = if at == 0 { format!("{record} | {names}") } else { " | ".to_string() };
            text += &format!("| {first} | {line} |\n");
        }
    }
    let page = Page::new(text);
    let read = read_converter(page.text.as_bytes(), page.names()).expect("no mistakes");
    Case::new(page, read.unwrap_or_default())
}

/// A text is right, and each change of it brings a complaint with these words.
fn complains(check: impl Fn(&str) -> Checked<Seen>, text: &str, changes: &[(&str, &str, &str)]) {
    check(text).unwrap_or_else(|complaint| panic!("{complaint}\n{text}"));
    for (from, to, words) in changes {
        assert_eq!(text.matches(from).count(), 1, "'{from}' stands once in\n{text}");
        let changed = text.replace(from, to);
        let complaint = check(&changed).expect_err(&changed);
        assert!(complaint.contains(words), "'{complaint}' has no '{words}'\n{changed}");
    }
}

const ASKED_FOR_EVER: &[(&str, &[&str])] = &[
    ("idle, calm", &["tick | tick | 0", "tick | send ask | 1"]),
    ("idle, asks", &["tick | tick | 1", "read go | tick | 2"]),
    ("busy, asks", &["send done | read done | 0"]),
];

#[test]
fn a_wrong_run_is_noticed() {
    let case = by_hand("AG (asks -> AF busy)", ASKED_FOR_EVER);
    let text = "No (15).

Rule 1 fails: It is so.
    AG (asks -> AF busy)
  tick  kernel        host            record  holds
     0  idle          calm            0
     1  idle    tick  asks  send ask  1       asks
        asks holds here, and AF busy fails:
     2  idle    tick  asks  tick      1       asks
        record 1 again, as at tick 1: tick 2 repeats for ever, and busy never holds
";
    let last =
        "        record 1 again, as at tick 1: tick 2 repeats for ever, and busy never holds\n";
    let changes = [
        ("     2  idle", "     3  idle", "doesn't follow"),
        ("send ask  1 ", "send ask  2 ", "names"),
        ("send ask  1 ", "send ask  0 ", "names"),
        ("send ask  1 ", "send ask  7 ", "no record"),
        ("send ask  1 ", "send ask  1*", "stars"),
        ("send ask  1       asks", "send ask  1       busy", "hold"),
        ("idle    tick  asks  send ask", "busy    tick  asks  send ask", "names"),
        ("tick  asks  send ask", "tick  asks  tick    ", "the library's tick"),
        ("asks  tick      1", "asks  read done 1", "no transition"),
        ("asks holds here", "busy holds here", "busy doesn't hold at record 1"),
        ("asks holds here", "TRUE holds here", "needn't be shown"),
        ("and AF busy fails", "and AF asks fails", "AF asks holds at record 1"),
        ("record 1 again", "record 2 again", "another record"),
        ("as at tick 1: tick 2 repeats", "as at tick 0: ticks 1 to 2 repeat", "isn't on the way"),
        ("tick 2 repeats", "tick 1 repeats", "tick 2 repeats"),
        ("busy never holds", "asks never holds", "asks holds at record 1"),
        ("busy never holds", "FALSE never holds", "no until"),
        (last, "", "isn't shown"),
        (last, "        busy doesn't hold here\n", "needn't be shown"),
        ("    AG (asks -> AF busy)", "    AG (asks -> AF asks)", "isn't rule 1"),
        ("Rule 1 fails", "Rule 2 fails", "isn't 'Rule 1 fails"),
    ];
    complains(|text| rules::check(&case, text), text, &changes);
}

#[test]
fn a_wrong_reason_is_noticed() {
    let records: &[(&str, &[&str])] =
        &[("idle, calm", &["tick | tick | 0"]), ("idle, asks", &["tick | tick | 1"])];
    let case = by_hand("TRUE", records);
    let sentence = "the host may send 'ask' here, and no transition lets it";
    let text = format!("No (14).\n\nRecord 0 (idle, calm) isn't matched: {sentence}.\n");
    let changes = [
        ("Record 0 (idle, calm)", "Record 1 (idle, asks)", "record 1 is matched"),
        ("Record 0 (idle, calm)", "Record 0 (idle, asks)", "names"),
        ("send 'ask'", "tick", "one does"),
        ("send 'ask'", "send 'done'", "can't choose so"),
        ("the host may send 'ask' here", "the kernel may tick here", "can't choose so"),
        (sentence, "the host can't tick in calm", "it can"),
        (sentence, "record 0 names the start, (idle, calm)", "it does"),
        (sentence, "the host has no state 1", "it has"),
        (&text[10..], "", "aren't matched first"),
    ];
    complains(|text| unmatched::check(&case, text), &text, &changes);
}

#[test]
fn a_wrong_set_or_change_is_noticed() {
    let case = by_hand("AF asks", &[]);
    let set = "Rule 1 can't be kept, even alone.\n    1. It is so.\n       AF asks\n";
    let change = "A converter exists if one thing is changed:
    Host, calm: without its tick (it then sends 'ask' at once)
";
    let text = format!("None (16).\n{set}{change}");
    let changes = [
        (set, "", "smallest sets"),
        ("Rule 1 can't", "Rule 2 can't", "there aren't"),
        ("AF asks", "AF busy", "another formula"),
        (change, "No change of one state helps.\n", "these changes help"),
        ("Host, calm", "Host, asks", "it doesn't"),
        (
            "Host, calm: without its tick (it then sends 'ask' at once)",
            "Kernel, busy: with a tick",
            "these changes help",
        ),
        ("sends 'ask'", "sends 'done'", "it doesn't"),
    ];
    complains(|text| sets::check(&case.page, text), &text, &changes);
}

#[test]
fn a_wrong_note_is_noticed() {
    let records: &[(&str, &[&str])] = &[
        ("idle, calm", &["tick | tick | 0", "tick | send ask | 1"]),
        ("idle, asks", &["tick | read done | 0", "tick | tick | 1"]),
    ];
    let case = by_hand("AG !busy", records);
    let note = "Note: 'done' can be delivered to the host more often than it was sent: \
                here 1 time, after 0 sends.\n";
    let text = format!(
        "Yes.\n\n{note}
      tick  kernel        host             record  holds
         0  idle          calm             0
         1  idle    tick  asks  send ask   1       asks
         2  idle    tick  calm  read done  0
"
    );
    let longer = "         2  idle    tick  asks  tick       1*      asks
         3  idle    tick  calm  read done  0
            * by a later transition for the same shows
";
    let last = "         2  idle    tick  calm  read done  0\n";
    let changes = [
        ("Note: 'done'", "Note: 'ask'", "0 were read and 0 sent"),
        ("to the host", "to the kernel", "0 were read"),
        ("here 1 time", "here 2 times", "1 were read"),
        ("after 0 sends", "after 1 send", "0 sent"),
        (last, longer, "a shortest run has Some(2)"),
        (last, "", "0 were read"),
        ("read done  0", "read done  1", "names"),
        ("send ask   1", "tick       1", "the library's tick"),
        (&text[6..], "", "are due"),
    ];
    complains(|text| notes::check(&case, text), &text, &changes);
}

/// The kernel is busy after one tick, and again after every second.
#[test]
fn a_wrong_wait_is_noticed() {
    let records: &[(&str, &[&str])] = &[
        ("idle, calm", &["read go | tick | 1", "read go | send ask | 2"]),
        ("busy, calm", &["send done | tick | 0", "send done | send ask | 3"]),
        ("busy, asks", &["send done | tick | 3"]),
        ("idle, asks", &["read go | tick | 2"]),
    ];
    let formula = "A [ !busy U busy ]";
    let case = by_hand(formula, records);
    let text = format!("Yes.\n\n{}\n\n- rule 1, `A [ !busy U busy ]`: 1 tick\n", waits::HEAD);
    let changes = [
        ("1 tick", "2 ticks", "[(0, 2)] are told"),
        ("1 tick", "1 ticks", "tells no wait"),
        ("1 tick", "0 ticks", "tells no wait"),
        ("1 tick", "0 ticks, since `busy` holds at the start", "doesn't hold there"),
        ("1 tick", "0 ticks, since `!busy` holds at the start", "doesn't wait for"),
        ("rule 1", "rule 2", "no rule"),
        ("rule 1", "rule 0", "tells no wait"),
        (formula, "AF busy", "isn't its rule"),
        (formula, "busy busy", "is no formula"),
        (&text[6..], "", "are due"),
        ("- rule", "-  rule", "tells no wait"),
    ];
    complains(|text| behind_a_yes(&case, text), &text, &changes);
    // A rule with an until inside has none.
    let case = by_hand("AG AF busy", records);
    complains(|text| behind_a_yes(&case, text), "Yes.\n", &[]);
    let complaint = behind_a_yes(&case, &text.replace(formula, "AG AF busy"));
    assert_eq!(complaint, Err("[(0, 1)] are told, and [] are due".to_string()));
}

/// In the run of a rule that fails no line may be missing, and no record may be another.
#[test]
fn every_line_of_a_run_counts() {
    let folder = Folder::new();
    let mut changed = 0;
    for seed in 0..200 {
        let random = &mut Random::new(seed);
        let page = pages::any_page(random, 3, 2);
        let converter = matched_converter(random, &page.design, 3);
        let case = Case::new(page, converter);
        if failing_rules(&case.page.design, &case.converter).is_empty() {
            continue;
        }
        let text = judged(&folder, &case, false).out;
        let lines: Vec<&str> = text.lines().collect();
        for at in 5..lines.len() {
            if lines[at].is_empty() {
                continue;
            }
            let without = [&lines[..at], &lines[at + 1..]].concat().join("\n");
            // A formula that is named again before it is shown may be left out.
            let named = lines[at].ends_with("fails here:");
            assert!(named || rules::check(&case, &without).is_err(), "{without}\nof\n{text}");
            changed += usize::from(!named);
        }
    }
    assert!(changed > 300, "{changed}");
}
