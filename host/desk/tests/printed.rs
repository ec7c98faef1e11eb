//! Designs printed as pages, and converters as tables.

mod made;

use std::fs;
use std::path::Path;

use desk::design::{self, Design, Rule};
use desk::formulas::Formula;
use desk::library;
use desk::print::{converter_table, page};
use desk::records::{Link, Record};
use made::titled as design;

fn example(name: &str) -> Vec<u8> {
    let path = Path::new(env!("CARGO_MANIFEST_DIR")).join("../../examples").join(name);
    fs::read(path).expect("the example is there")
}

fn rule(design: &mut Design, sentence: &str, formula: usize) {
    design.rules.push(Rule { sentence: sentence.to_string(), formula });
}

fn lock() -> Design {
    let kernel = [
        ["free", "", "tick to free; read lock to held; read thumbnail to job"],
        ["held", "held", "tick to held; read release to free"],
        ["job", "thumb", "send done to free"],
    ];
    let host = [
        ["idle", "", "tick to idle; send press to waiting"],
        ["waiting", "waits", "tick to waiting; read go to dragging"],
        ["dragging", "drags", "tick to dragging; send drop to idle"],
    ];
    let title = "The model lock: a drag before any thumbnail";
    design(title, &[("the model lock", &kernel), ("the user's drag", &host)])
}

#[test]
fn the_lock() {
    let mut design = lock();
    let mut add = |formula: Formula| design.formulas.add(formula);
    let [held, thumb, waits, drags] = [0, 1, 16, 17].map(|label| add(Formula::Label(label)));
    let owns = add(Formula::Implies(drags, held));
    let safe = add(Formula::Always(owns));
    let quiet = add(Formula::Not(thumb));
    let calls = add(Formula::And(waits, quiet));
    let until = add(Formula::Until(quiet, drags));
    let first = add(Formula::Implies(calls, until));
    let first = add(Formula::Always(first));
    rule(&mut design, "The host drags only while the drag holds the lock.", safe);
    rule(&mut design, "A drag that waits gets the lock before any thumbnail job.", first);
    let expected = "\
# The model lock: a drag before any thumbnail

## Kernel: the model lock

| state | holds | transitions                                            |
|-------|-------|--------------------------------------------------------|
| free  |       | tick to free; read lock to held; read thumbnail to job |
| held  | held  | tick to held; read release to free                     |
| job   | thumb | send done to free                                      |

## Host: the user's drag

| state    | holds | transitions                          |
|----------|-------|--------------------------------------|
| idle     |       | tick to idle; send press to waiting  |
| waiting  | waits | tick to waiting; read go to dragging |
| dragging | drags | tick to dragging; send drop to idle  |

## Rules

1. The host drags only while the drag holds the lock.

       AG (drags -> held)

2. A drag that waits gets the lock before any thumbnail job.

       AG (waits & !thumb -> A [ !thumb U drags ])
";
    assert_eq!(page(&design), Ok(expected.to_string()));
}

#[test]
fn no_titles_and_no_rules() {
    let lines = [["s", "a, b", "tick to s"]];
    let expected = "\
# A design

## Kernel

| state | holds | transitions |
|-------|-------|-------------|
| s     | a, b  | tick to s   |

## Host: C #

| state | holds | transitions |
|-------|-------|-------------|
| s     | a, b  | tick to s   |
";
    let plain = design("", &[("", &lines), ("C", &lines)]);
    assert_eq!(page(&plain), Ok(expected.replace("C #", "C")));
    // Signs at the end of a heading close it, unless others do.
    let sharp = design("", &[("", &lines), ("C #", &lines)]);
    assert_eq!(page(&sharp), Ok(expected.replace("C #", "C # #")));
}

#[test]
fn labels_of_two_sides_and_many_rules() {
    let lines = [["s", "busy", "tick to s"]];
    let mut design = design("T", &[("", &lines), ("", &lines), ("", &[["s", "", "tick to s"]])]);
    let busy = design.formulas.add(Formula::Label(16));
    let nobody = design.formulas.add(Formula::Label(47));
    let either = design.formulas.add(Formula::Or(busy, nobody));
    for number in 1..=10 {
        rule(&mut design, &format!("Rule {number}."), either);
    }
    let text = page(&design).expect("no rule is long");
    assert!(text.contains("| s     | busy  | tick to s   |\n"), "{text}");
    assert!(text.contains("\n## Third\n\n"), "{text}");
    assert!(text.contains("\n\n9. Rule 9.\n\n       host.busy | p47\n\n10. Rule 10."), "{text}");
    assert!(text.ends_with("\n\n10. Rule 10.\n\n        host.busy | p47\n"), "{text}");
}

#[test]
fn a_rule_that_is_too_long() {
    let mut design = lock();
    let mut formula = design.formulas.add(Formula::Label(0));
    rule(&mut design, "Short.", formula);
    for _ in 0..9 {
        formula = design.formulas.add(Formula::And(formula, formula));
    }
    rule(&mut design, "Of 1023 formulas.", formula);
    assert_eq!(page(&design), Err(2));
}

#[test]
fn a_file_by_its_numbers() {
    let text = page(&design::from_bytes(&example("lock.design"), "lock")).expect("no rule is long");
    let beginning = "\
# lock

## Kernel

| state | holds | transitions                              |
|-------|-------|------------------------------------------|
| s0    |       | tick to s0; read x1 to s1; read x2 to s2 |
| s1    | l0    | tick to s1; read x3 to s0                |
| s2    | l1    | send x4 to s0                            |

## Host
";
    assert!(text.starts_with(beginning), "{text}");
}

#[test]
fn the_converter_of_the_lock() {
    let records = library::read(&example("lock.converter")).expect("the example is a converter");
    let expected = "\
| record | names          | kernel         | host       | next |
|--------|----------------|----------------|------------|------|
| 0      | free, idle     | tick           | tick       | 1    |
|        |                | tick           | send press | 2    |
| 1      | free, idle     | read thumbnail | tick       | 3    |
|        |                | tick           | send press | 2    |
| 2      | free, waiting  | tick           | tick       | 4    |
| 3      | job, idle      | send done      | tick       | 0    |
|        |                | send done      | send press | 4    |
| 4      | free, waiting  | read lock      | read go    | 5    |
| 5      | held, dragging | tick           | tick       | 5    |
|        |                | read release   | send drop  | 0    |
";
    assert_eq!(converter_table(&lock(), &records), expected);
}

#[test]
fn a_converter_of_three_sides_that_names_what_is_not_there() {
    let lines = [["s", "", "tick to s; read x to s"]];
    let design = design("", &[("", &lines), ("", &lines), ("", &lines)]);
    let links = vec![Link { events: [1, 0, -63], next: 12 }];
    let expected = "\
| record | names   | kernel | host | third   | next |
|--------|---------|--------|------|---------|------|
| 0      | s, 3, s | read x | tick | send 63 | 12   |
";
    assert_eq!(converter_table(&design, &[Record { states: [0, 3, 0], links }]), expected);
}
