//! Explanations of a "no", on designs and converters made by hand: every form of formula, and every
//! line of what a converter may do.

mod made;

use desk::design::{from_bytes, Design};
use desk::explain::{first_failing, holds_at, rule_fails};
use desk::records::Record;
use desk::unmatched::unmatched;
use made::{
    always, and, converter, design, finally, implies, label, link, next, not, or, until, Made, Rows,
};

/// The kernel of examples/lock.md.
const LOCK: Rows = &[
    ["free", "", "tick to free; read lock to held; read thumbnail to job"],
    ["held", "held", "tick to held; read release to free"],
    ["job", "thumb", "send done to free"],
];

/// The host of examples/lock.md.
const DRAG: Rows = &[
    ["idle", "", "tick to idle; send press to waiting"],
    ["waiting", "waits", "tick to waiting; read go to dragging"],
    ["dragging", "drags", "tick to dragging; send drop to idle"],
];

/// The lock with some rules, and a converter that begins a thumbnail job while a drag waits.
fn lock(rules: Vec<(&str, Made)>) -> (Design, Vec<Record>) {
    let design = design(&[LOCK, DRAG], rules);
    let records = converter(
        &design,
        &[
            ("free, idle", &["tick, tick to 1", "tick, send press to 2"]),
            ("free, idle", &["read thumbnail, tick to 5", "tick, send press to 2"]),
            ("free, waiting", &["read thumbnail, tick to 3"]),
            ("job, waiting", &["send done, tick to 4"]),
            ("free, waiting", &["read lock, read go to 6"]),
            ("job, idle", &["send done, tick to 0", "send done, send press to 4"]),
            ("held, dragging", &["tick, tick to 6", "read release, send drop to 0"]),
        ],
    );
    (design, records)
}

/// A kernel whose states are called by numbers, each with what holds there and its targets, beside a
/// host that only ticks. Record n names state n and goes to all of its targets.
fn wheel(states: &[(&str, &[usize])], rule: Made) -> (Design, Vec<Record>) {
    let numbers = || 0..states.len();
    let names: Vec<String> = numbers().map(|number| format!("n{number}")).collect();
    let goes = |begin: &str, number: usize| -> Vec<String> {
        let targets = states[number].1.iter();
        targets.map(|to| format!("read to{to}{begin}{to}")).collect()
    };
    let transitions: Vec<String> =
        numbers().map(|number| goes(" to n", number).join("; ")).collect();
    let rows: Vec<[&str; 3]> = numbers()
        .map(|number| [&names[number][..], states[number].0, &transitions[number]])
        .collect();
    let design = design(&[&rows, &[["still", "", "tick to still"]]], vec![("It holds.", rule)]);
    let records = numbers().map(|number| Record {
        states: [number as u8, 0, 0],
        links: goes(", tick to ", number).iter().map(|text| link(&design, text)).collect(),
    });
    let records = records.collect();
    (design, records)
}

/// The lines of the explanation of rule 1, which fails, without their columns: a tick as its number
/// and its record, a remark as it is.
fn told((design, records): (Design, Vec<Record>)) -> Vec<String> {
    assert_eq!(first_failing(&design, &records), Some(0));
    let text = rule_fails(&design, &records, 0);
    assert!(text.starts_with("Rule 1 fails: It holds.\n    "), "{text}");
    let line = |line: &str| match line.strip_prefix("        ") {
        Some(remark) => remark.to_string(),
        None => {
            let words: Vec<&str> = line.split_whitespace().collect();
            let record = words[if words[0] == "0" { 3 } else { 6 }];
            format!("{}: {}", words[0], record.trim_end_matches('*'))
        }
    };
    let lines = text.lines().skip(3).map(line);
    lines.filter(|line| !line.starts_with("* by a later")).collect()
}

#[test]
fn until_in_always() {
    let (design, records) = lock(vec![
        (
            "The host drags only while the drag holds the lock.",
            always(implies(label("drags"), label("held"))),
        ),
        (
            "A drag that waits while no thumbnail job runs gets the lock before any thumbnail job.",
            always(implies(
                and(label("waits"), not(label("thumb"))),
                until(not(label("thumb")), label("drags")),
            )),
        ),
    ]);
    assert_eq!(first_failing(&design, &records), Some(1));
    let expected = "\
Rule 2 fails: A drag that waits while no thumbnail job runs gets the lock before any thumbnail job.
    AG (waits & !thumb -> A [ !thumb U drags ])
  tick  kernel                  host                 record  holds
     0  free                    idle                 0
     1  free    tick            waiting  send press  2       waits
        waits & !thumb holds here, and A [ !thumb U drags ] fails:
     2  job     read thumbnail  waiting  tick        3       thumb, waits
        thumb holds before drags does
";
    assert_eq!(rule_fails(&design, &records, 1), expected);
}

#[test]
fn always_of_a_proposition() {
    let rule = always(and(
        not(and(label("thumb"), label("held"))),
        implies(label("waits"), label("held")),
    ));
    let (design, records) = lock(vec![("Who waits has the lock.", rule)]);
    let expected = "\
Rule 1 fails: Who waits has the lock.
    AG (!(thumb & held) & (waits -> held))
  tick  kernel        host                 record  holds
     0  free          idle                 0
     1  free    tick  waiting  send press  2       waits
        waits -> held fails here: waits holds, held doesn't
";
    assert_eq!(rule_fails(&design, &records, 0), expected);
}

#[test]
fn finally_into_a_loop() {
    // A drag may last for ever. Records 1 and 5 are before 2 and 3 on the way to record 4.
    let rule = always(implies(label("drags"), finally(label("thumb"))));
    let (design, records) = lock(vec![("Behind a drag comes a thumbnail job.", rule)]);
    let expected = "\
Rule 1 fails: Behind a drag comes a thumbnail job.
    AG (drags -> AF thumb)
  tick  kernel                  host                  record  holds
     0  free                    idle                  0
     1  free    tick            idle      tick        1
     2  job     read thumbnail  idle      tick        5       thumb
     3  free    send done       waiting   send press  4       waits
     4  held    read lock       dragging  read go     6       held, drags
        drags holds here, and AF thumb fails:
     5  held    tick            dragging  tick        6       held, drags
        record 6 again, as at tick 4: tick 5 repeats for ever, and thumb never holds
";
    assert_eq!(rule_fails(&design, &records, 0), expected);
}

#[test]
fn two_ways_out() {
    // The converter lets both happen, so that neither is sure.
    let rule = or(next(label("p")), next(label("q")));
    let (design, records) = wheel(&[("", &[1, 2]), ("p", &[1]), ("q", &[2])], rule);
    let expected = "\
Rule 1 fails: It holds.
    AX p | AX q
  tick  kernel            host         record  holds
     0  n0                still        0
        AX p and AX q fail here
        AX p fails here:
     1  n2      read to2  still  tick  2*      q
        p doesn't hold here
        back at tick 0: AX q fails:
     1  n1      read to1  still  tick  1       p
        q doesn't hold here
        * by a later transition for the same shows: a path may take any, `run` takes the first
";
    assert_eq!(rule_fails(&design, &records, 0), expected);
}

#[test]
fn at_once() {
    let states: &[(&str, &[usize])] = &[("p", &[0]), ("q", &[1])];
    let both = || and(label("p"), label("q"));
    assert_eq!(told(wheel(states, both())), ["0: 0", "q doesn't hold here"]);
    assert_eq!(told(wheel(states, not(label("p")))), ["0: 0", "!p fails here: p holds"]);
    let neither = not(or(label("p"), label("q")));
    assert_eq!(
        told(wheel(states, always(neither))),
        ["0: 0", "!(p | q) fails here: p holds, q doesn't"]
    );
    // Where neither part of an until holds at once, there is no tick.
    let rule = until(label("q"), both());
    assert_eq!(told(wheel(states, rule)), ["0: 0", "q fails before p & q holds"]);
    let rule = until(or(label("q"), both()), label("q"));
    let because = "q | p & q fails before q holds: p holds, q doesn't";
    assert_eq!(told(wheel(states, rule)), ["0: 0", because]);
}

#[test]
fn next_in_next() {
    let states: &[(&str, &[usize])] = &[("", &[1]), ("p", &[2]), ("", &[2]), ("q", &[3])];
    assert_eq!(
        told(wheel(states, next(and(label("p"), next(label("q")))))),
        ["0: 0", "1: 1", "AX q fails here:", "2: 2", "q doesn't hold here"]
    );
    // `!p | AX q` reads as `p -> AX q` does.
    let states: &[(&str, &[usize])] = &[("p", &[1]), ("", &[1]), ("q", &[2])];
    let expected = ["0: 0", "p holds here, and AX q fails:", "1: 1", "q doesn't hold here"];
    assert_eq!(told(wheel(states, or(not(label("p")), next(label("q"))))), expected);
    assert_eq!(told(wheel(states, implies(label("p"), next(label("q"))))), expected);
}

#[test]
fn shortest_loop() {
    // By the first transition the loop has three ticks, by the second one.
    let states: &[(&str, &[usize])] =
        &[("", &[1, 4]), ("", &[2]), ("", &[3]), ("", &[1]), ("", &[4]), ("p", &[5])];
    let again = "record 4 again, as at tick 1: tick 2 repeats for ever, and p never holds";
    assert_eq!(told(wheel(states, finally(label("p")))), ["0: 0", "1: 4", "2: 4", again]);
}

#[test]
fn until_with_a_loop() {
    let states: &[(&str, &[usize])] =
        &[("", &[1]), ("", &[2]), ("", &[1]), ("p", &[3]), ("q", &[4])];
    let again = "record 1 again, as at tick 1: ticks 2 to 3 repeat for ever, and p never holds";
    let rule = until(not(label("q")), label("p"));
    assert_eq!(told(wheel(states, rule)), ["0: 0", "1: 1", "2: 2", "3: 1", again]);
}

#[test]
fn until_in_until() {
    let states: &[(&str, &[usize])] = &[("q", &[1]), ("p", &[2]), ("", &[2]), ("r", &[3])];
    let rule = until(until(label("p"), label("q")), label("r"));
    let expected = [
        "0: 0",
        "1: 1",
        "A [ p U q ] fails before r holds",
        "A [ p U q ] fails here:",
        "2: 2",
        "p fails before q holds",
    ];
    assert_eq!(told(wheel(states, rule)), expected);
}

#[test]
fn always_in_until() {
    let states: &[(&str, &[usize])] = &[("p q", &[1]), ("p", &[0])];
    let rule = until(label("p"), always(label("q")));
    let expected = [
        "0: 0",
        "1: 1",
        "2: 0",
        "record 0 again, as at tick 0: ticks 1 to 2 repeat for ever, and AG q never holds",
        "AG q fails here:",
        "3: 1",
        "q doesn't hold here",
    ];
    assert_eq!(told(wheel(states, rule)), expected);
    let states: &[(&str, &[usize])] = &[("q", &[1]), ("", &[1]), ("p", &[2])];
    let rule = until(next(label("p")), always(label("q")));
    let expected = [
        "0: 0",
        "AX p fails before AG q holds",
        "AX p fails here:",
        "1: 1",
        "p doesn't hold here",
        "back at tick 0: AG q fails:",
        "1: 1",
        "q doesn't hold here",
    ];
    assert_eq!(told(wheel(states, rule)), expected);
}

#[test]
fn always_in_implication() {
    // Behind p always q, and then never r: record 2 is the first without q.
    let states: &[(&str, &[usize])] = &[("", &[1]), ("p q", &[2, 0]), ("r", &[2])];
    let rule = always(implies(label("p"), or(label("r"), always(implies(label("r"), label("q"))))));
    let expected = [
        "0: 0",
        "1: 1",
        "p holds here, and r | AG (r -> q) fails:",
        "r fails here, and AG (r -> q) fails:",
        "2: 2",
        "r -> q fails here: r holds, q doesn't",
    ];
    assert_eq!(told(wheel(states, rule)), expected);
}

#[test]
fn parts_that_are_shared() {
    use checker::bytes::Formula::{And, Next, Or, Proposition};
    use checker::bytes::{Design, State, Transition};
    let still = |label| State { label, transitions: vec![Transition { event: 0, target: 0 }] };
    let sides = [vec![still(0)], vec![still(0)], vec![still(0)]];
    // Each formula of three is the one before behind one tick or two, and so in two ways.
    let mut formulas = vec![Proposition(0)];
    for _ in 0..20 {
        let last = formulas.len() - 1;
        formulas.extend([Next(last), Next(last + 1), Or(last + 1, last + 2)]);
    }
    let rule = formulas.len() as u8 - 1;
    let design =
        from_bytes(&Design { sides: sides.clone(), formulas, rules: vec![rule] }.to_bytes(), "");
    let still =
        [Record { states: [0; 3], links: vec![desk::records::Link { events: [0; 3], next: 0 }] }];
    assert_eq!(first_failing(&design, &still), Some(0));
    let text = rule_fails(&design, &still, 0);
    assert_eq!(text.matches("and so on").count(), 1, "{text}");
    assert_eq!(text.matches("back at tick").count(), 16, "{text}");
    // A chain of `&` in which each part is the one before, twice.
    let mut formulas = vec![Proposition(0)];
    formulas.extend((0..63).map(|last| And(last, last)));
    let design = from_bytes(&Design { sides, formulas, rules: vec![63] }.to_bytes(), "");
    let text = rule_fails(&design, &still, 0);
    assert!(text.ends_with("p0 doesn't hold here\n"), "{text}");
}

#[test]
fn holds_at_records() {
    let (design, records) = lock(vec![(
        "A drag that waits gets the lock.",
        always(implies(label("waits"), finally(label("drags")))),
    )]);
    // The parts are added from the left: waits, drags, AF drags, the implication, AG.
    let at = |formula: usize, record: usize| holds_at(&design, &records, formula, record);
    assert_eq!(design.text(2), "AF drags");
    let waits: Vec<_> = (0..7).map(|record| at(0, record)).collect();
    assert_eq!(waits, [false, false, true, true, true, false, false].map(Ok));
    let drags: Vec<_> = (0..7).map(|record| at(2, record)).collect();
    assert_eq!(drags, [false, false, true, true, true, false, true].map(Ok));
    assert_eq!(first_failing(&design, &records), None);
    assert!(rule_fails(&design, &records, 0).contains("doesn't confirm"));
}

/// What is told of the lock's converter after a change of it.
fn changed(change: impl FnOnce(&Design, &mut Vec<Record>)) -> Vec<(usize, String)> {
    let (design, mut records) = lock(vec![]);
    assert_eq!(unmatched(&design, &records), []);
    change(&design, &mut records);
    unmatched(&design, &records)
}

/// What is told of one record alone after a change.
fn one(record: usize, change: impl FnOnce(&Design, &mut Vec<Record>)) -> String {
    let mut told = changed(change);
    told.retain(|(number, _)| *number == record);
    told.pop().expect("the record is told of").1
}

#[test]
fn names_that_are_wrong() {
    let told = changed(|_, records| records[0].states = [1, 0, 0]);
    let expected = [
        (0, "Record 0 (held, idle) isn't matched: record 0 names the start, (free, idle)."),
        (
            5,
            "Record 5 (job, idle) isn't matched: where the kernel sends 'done' and the host ticks \
             it leads to record 0 (held, idle), which should name (free, idle).",
        ),
        (
            6,
            "Record 6 (held, dragging) isn't matched: where the kernel reads 'release' and the \
             host sends 'drop' it leads to record 0 (held, idle), which should name (free, idle).",
        ),
    ];
    assert_eq!(told, expected.map(|(number, text)| (number, text.to_string())));
    assert_eq!(
        one(4, |_, records| records[4].states = [9, 1, 0]),
        "Record 4 (9, waiting) isn't matched: the kernel has no state 9."
    );
    // Records 3 and 5 lead there.
    let told = changed(|_, records| records[4].states = [0, 1, 2]);
    let expected = [
        (
            3,
            "Record 3 (job, waiting) isn't matched: where the kernel sends 'done' and the host \
             ticks it leads to record 4, and the third side has no state 2.",
        ),
        (4, "Record 4 (free, waiting) isn't matched: the third side has no state 2."),
        (
            5,
            "Record 5 (job, idle) isn't matched: where the kernel sends 'done' and the host sends \
             'press' it leads to record 4, and the third side has no state 2.",
        ),
    ];
    assert_eq!(told, expected.map(|(number, text)| (number, text.to_string())));
}

#[test]
fn transitions_that_are_wrong() {
    assert_eq!(
        one(2, |design, records| records[2].links[0] = link(design, "read release, tick to 3")),
        "Record 2 (free, waiting) isn't matched: the kernel can't read 'release' in free."
    );
    assert_eq!(
        one(3, |design, records| records[3].links[0] = link(design, "tick, tick to 4")),
        "Record 3 (job, waiting) isn't matched: the kernel can't tick in job."
    );
    assert_eq!(
        one(3, |_, records| records[3].links[0].events = [-4, -50, 0]),
        "Record 3 (job, waiting) isn't matched: the host can't send '50' in waiting."
    );
    assert_eq!(
        one(3, |_, records| records[3].links[0].events[2] = 1),
        "Record 3 (job, waiting) isn't matched: there is no third side to read 'lock'."
    );
    assert_eq!(
        one(3, |_, records| records[3].links[0].next = 7),
        "Record 3 (job, waiting) isn't matched: where the kernel sends 'done' and the host ticks \
         it leads to record 7, which isn't there."
    );
    assert_eq!(
        one(3, |_, records| records[3].links.clear()),
        "Record 3 (job, waiting) isn't matched: it has no transition."
    );
    assert_eq!(
        one(3, |_, records| {
            let link = records[3].links[0];
            records[3].links.push(link);
        }),
        "Record 3 (job, waiting) isn't matched: there are two transitions where the kernel sends \
         'done' and the host ticks, and there may be one only."
    );
}

#[test]
fn shows_that_are_missing_or_there_twice() {
    assert_eq!(
        changed(|_, records| records[6].links.truncate(1)),
        [(
            6,
            "Record 6 (held, dragging) isn't matched: the host may send 'drop' here, and no \
             transition lets it."
                .to_string()
        )]
    );
    assert_eq!(
        one(0, |_, records| _ = records[0].links.remove(0)),
        "Record 0 (free, idle) isn't matched: the host may tick here, and no transition lets it."
    );
    assert_eq!(
        one(1, |design, records| records[1].links.push(link(design, "tick, tick to 0"))),
        "Record 1 (free, idle) isn't matched: there are two transitions where the host ticks, and \
         there may be one only."
    );
}

#[test]
fn three_sides() {
    let waits: Rows = &[["a", "", "tick to a; send x to a"]];
    let waits_too: Rows = &[["b", "", "send y to b; tick to b"]];
    let sends: Rows = &[["c", "", "send z to c"]];
    let reads: Rows = &[["d", "", "tick to d; read x to d"]];
    let told = |sides: &[Rows], names: &str, links: &[&str]| {
        let design = design(sides, vec![]);
        let records = converter(&design, &[(names, links)]);
        unmatched(&design, &records).into_iter().map(|(_, told)| told).collect::<Vec<String>>()
    };
    // No side is input: every choice of the sides.
    let all = [
        "tick, send y, send z to 0",
        "tick, tick, send z to 0",
        "send x, send y, send z to 0",
        "send x, tick, send z to 0",
    ];
    assert_eq!(told(&[waits, waits_too, sends], "a, b, c", &all), [""; 0]);
    assert_eq!(
        told(&[waits, waits_too, sends], "a, b, c", &all[..3]),
        ["Record 0 (a, b, c) isn't matched: the kernel may send 'x' here while the host ticks, and \
          no transition lets them."]
    );
    // The host reads: one transition for each choice of the others.
    let four = [
        "tick, tick, send y to 0",
        "send x, read x, send y to 0",
        "tick, read x, tick to 0",
        "send x, tick, tick to 0",
    ];
    assert_eq!(told(&[waits, reads, waits_too], "a, d, b", &four), [""; 0]);
    let five = [&four[..], &["send x, read x, tick to 0"]].concat();
    assert_eq!(
        told(&[waits, reads, waits_too], "a, d, b", &five),
        ["Record 0 (a, d, b) isn't matched: there are two transitions where the kernel sends 'x' \
          and the third side ticks, and there may be one only."]
    );
    // No side is delayed: one is enough, and more are right.
    assert_eq!(told(&[sends, reads], "c, d", &["send z, tick to 0"]), [""; 0]);
    assert_eq!(
        told(&[sends, reads], "c, d", &["send z, tick to 0", "send z, read x to 0"]),
        [""; 0]
    );
    // All three are delayed.
    let seven = [
        "tick, send y, tick to 0",
        "tick, send y, send x to 0",
        "tick, tick, tick to 0",
        "send x, send y, tick to 0",
        "send x, send y, send x to 0",
        "send x, tick, tick to 0",
        "send x, tick, send x to 0",
    ];
    assert_eq!(
        told(&[waits, waits_too, waits], "a, b, a", &seven),
        ["Record 0 (a, b, a) isn't matched: the kernel may tick here while the host ticks and the \
          third side sends 'x', and no transition lets them."]
    );
}
