//! Pages: rows by hand with their bytes or the places of their mistakes, and random pages.

use std::collections::BTreeMap;

use checker::bytes::{read_design, Link, Record};
use checker::generate::{any_text, damaged_page, page, token_text, Random};
use checker::page::{read, read_converter, Names, Place, Read};
use checker::rules::{read_rule, spelled, tokens, Token, TOKENS};

/// A page with everything that two sides need.
const LOCK: &str = "\
# The model lock: a drag before any thumbnail

Words, as many as one likes, here and between the sections.

## Kernel: the model lock

| state | holds | transitions |
|---|---|---|
| free | | tick to free; read lock to held; read thumbnail to job |
| held | held | tick to held; read release to free |
| job | thumb | send done to free |

## Host: the user's drag

| state | holds | transitions |
|---|---|---|
| idle | | tick to idle; send press to waiting |
| waiting | waits | tick to waiting; read go to dragging |
| dragging | drags | tick to dragging; send drop to idle |

## Rules

1. The host drags only while the drag holds the lock.

       AG (drags -> held)

2. A drag that waits while no thumbnail job runs gets the lock before any thumbnail job.

       AG (waits & !thumb -> A [ !thumb U drags ])
";

/// A page of eight lines, whose labels are `x` of the kernel and `y` of the host.
const BARE: &str = "\
## Kernel
| state | holds | transitions |
|---|---|---|
| a | x | tick to a |
## Host
| state | holds | transitions |
|---|---|---|
| b | y | tick to b |
";

/// A third side of four lines, whose labels are `y` and `z`.
const THIRD: &str = "\
## Third
| state | holds | transitions |
|---|---|---|
| c | y z | tick to c |
";

/// A block of 512 bytes: its first bytes, and its check.
fn block(start: &[u8], check: [u8; 2]) -> Vec<u8> {
    let mut block = start.to_vec();
    block.resize(510, 0);
    block.extend(check);
    block
}

/// A state record: label word, count, and the events and targets.
fn state(label: u8, places: &[u8]) -> Vec<u8> {
    let mut record = vec![label, 0, places.len() as u8 / 2, 0];
    record.extend(places);
    record.resize(20, 0);
    record
}

/// Words as strings.
fn strings<const N: usize>(words: [&str; N]) -> Vec<String> {
    words.map(str::to_string).to_vec()
}

/// A sound page, read.
fn sound(page: &str) -> Read {
    read(page.as_bytes()).unwrap_or_else(|places| panic!("{places:?} in\n{page}"))
}

/// The places of a page's mistakes, line and column of each; a page without mistakes has none.
fn places(page: impl AsRef<[u8]>) -> Vec<(usize, usize)> {
    let mistakes = read(page.as_ref()).err().unwrap_or_default();
    mistakes.into_iter().map(|place| (place.line, place.column)).collect()
}

/// A page in which a piece that stands there once is another one.
fn with(page: &str, old: &str, new: &str) -> String {
    assert_eq!(page.matches(old).count(), 1, "{old:?}");
    page.replace(old, new)
}

/// The bare page with more behind it, which begins in line 9.
fn bare(more: &str) -> String {
    format!("{BARE}{more}")
}

/// The bare page with a rule whose formula begins at column 8 of line 12.
fn ruled(formula: &str) -> String {
    bare(&format!("## Rules\n1. So it is.\n\n       {formula}\n"))
}

#[test]
fn every_byte_of_the_lock() {
    // Signals: lock 1, thumbnail 2, release 3, done 4; press 5, go 6, drop 7.
    let kernel = [
        vec![1, 3, 0, 0],
        state(0, &[0, 0, 1, 1, 2, 2]),
        state(1, &[0, 1, 3, 0]),
        state(2, &[252, 0]),
    ];
    let host = [
        vec![2, 3, 0, 0],
        state(0, &[0, 0, 251, 1]),
        state(1, &[0, 1, 6, 2]),
        state(2, &[0, 2, 249, 0]),
    ];
    // AG (p17 -> p0), then AG (p16 & !p1 -> A [ !p1 U p17 ]).
    let formulas: [[u8; 4]; 12] = [
        [4, 17, 0, 0],
        [3, 0, 0, 0],
        [6, 0, 1, 0],
        [9, 2, 0, 0],
        [4, 16, 0, 0],
        [3, 1, 0, 0],
        [6, 4, 5, 0],
        [4, 1, 0, 0],
        [3, 17, 0, 0],
        [8, 7, 8, 0],
        [6, 6, 9, 0],
        [9, 10, 0, 0],
    ];
    let formulas = [vec![3, 12, 0, 0], formulas.concat()].concat();
    // The sums are 4 + 9 + 7 + 255 = 275, 5 + 254 + 12 + 255 = 526, 15 + 169 and 20.
    let blocks = [
        block(&kernel.concat(), [19, 1]),
        block(&host.concat(), [14, 2]),
        block(&formulas, [184, 0]),
        block(&[4, 2, 0, 0, 3, 11], [20, 0]),
    ];
    let names = Names {
        states: vec![strings(["free", "held", "job"]), strings(["idle", "waiting", "dragging"])],
        labels: vec![strings(["held", "thumb"]), strings(["waits", "drags"])],
        signals: strings(["lock", "thumbnail", "release", "done", "press", "go", "drop"]),
    };
    let typed = "AG (p17 -> p0)\nAG (p16 & !p1 -> A [ !p1 U p17 ])\n".to_string();
    let sentences = strings([
        "The host drags only while the drag holds the lock.",
        "A drag that waits while no thumbnail job runs gets the lock before any thumbnail job.",
    ]);
    let expected = Read { design: blocks.concat(), names, typed, sentences };
    assert_eq!(sound(LOCK), expected);
    // Lines may end otherwise, a mark may stand in front, and the last line needs no end.
    let crlf = LOCK.replace('\n', "\r\n");
    let marked = format!("\u{feff}{LOCK}");
    for page in [&crlf, &marked, LOCK.trim_end()] {
        assert_eq!(sound(page), expected);
    }
}

#[test]
fn a_third_side_gives_five_blocks() {
    let page = format!("{THIRD}{BARE}## Rules\n1. So.\n\n       z | host.y & x | third.y\n");
    let read = sound(&page);
    assert_eq!(read.typed, "p33 | p16 & p0 | p32\n");
    let blocks = [
        block(&[&[1, 1, 0, 0], &state(1, &[0, 0])[..]].concat(), [4, 0]),
        block(&[&[2, 1, 0, 0], &state(1, &[0, 0])[..]].concat(), [5, 0]),
        block(&[&[6, 1, 0, 0], &state(3, &[0, 0])[..]].concat(), [11, 0]),
        block(
            &[
                [3, 7, 0, 0],
                [3, 33, 0, 0],
                [3, 16, 0, 0],
                [3, 0, 0, 0],
                [5, 1, 2, 0],
                [6, 0, 3, 0],
                [3, 32, 0, 0],
                [6, 4, 5, 0],
            ]
            .concat(),
            // 10 + 36 + 19 + 3 + 8 + 9 + 35 + 15.
            [135, 0],
        ),
        block(&[4, 1, 0, 0, 6], [11, 0]),
    ];
    assert_eq!(read.design, blocks.concat());
    // One ticking state without labels still has its block.
    let idle = format!("{BARE}{}", THIRD.replace("y z", ""));
    assert_eq!(sound(&idle).design.len(), 2_560);
    assert_eq!(sound(BARE).design.len(), 2_048);
    // Without its side `y` is of two sides.
    assert_eq!(places(page.replace("host.y", "y")), [(16, 12)]);
}

#[test]
fn sections() {
    for (more, expected) in [
        ("", vec![]),
        ("## Thrid\n", vec![(9, 4)]),
        ("## Third side\n", vec![(9, 4)]),
        ("##  third: title\n", vec![(9, 5)]),
        ("# Third\n", vec![(9, 3)]),
        ("#### Third ####\n", vec![(9, 6)]),
        ("## Thirty-first\n", vec![]),
        ("## Rulse\n", vec![(9, 4)]),
        ("### Rules\n", vec![(9, 5)]),
        ("## Rule: one\n", vec![(9, 4)]),
        ("## Ruled out\n", vec![]),
        ("##Rule\n", vec![]),
        (" ## Rule\n", vec![]),
        ("```\n## Rule\n```\n## Rulers\n", vec![(12, 4)]),
        ("````\n## Rule\n```\n## Rulers\n", vec![(9, 1)]),
        ("~~~ text\n## Rule\n```\n## Rulers\n~~~~  \n### Rulers\n", vec![(14, 5)]),
        ("    ```\n## Rule\n", vec![(10, 4)]),
        ("   ```\n## Rule\n", vec![(9, 4)]),
        ("## Kernel\n", vec![(9, 4)]),
        ("## Host: again ##\n## Host\n", vec![(9, 4), (10, 4)]),
        ("### Kernel\n# Host\n", vec![]),
        ("## Verdict\n## Converter\n## Verdict\n", vec![(11, 4)]),
        ("## Notes\n## Notes\n", vec![]),
        ("## Rules\n## Rules ##\n", vec![(10, 4)]),
        ("## Third\n", vec![(9, 4)]),
        ("## Third\n|\n", vec![(9, 4), (10, 1)]),
        ("## Third\n### Deeper\n| state\n# No more\n", vec![(9, 4), (11, 1)]),
        ("## Third\n# No more\n| state | holds | transitions |\n", vec![(9, 4), (11, 1)]),
        // The word in a name.
        ("## The rules\n", vec![(9, 4)]),
        ("# Notes\n### 2. RULE_3: more\n", vec![(10, 5)]),
        ("## Notes: of rules\n## Misrule, ruled, rülé, rulés\n", vec![]),
        ("## Rules\n## The rules\n### A rule\n", vec![]),
        // Names that are underlined.
        ("Rules\n=====\n", vec![(9, 1)]),
        ("Words\n\t rULES \n  - \n", vec![(10, 3)]),
        ("rules : of the lock: two\n---\n", vec![(9, 1)]),
        ("THIRD:\n-\n", vec![(9, 1)]),
        ("Third\n=-=\n", vec![]),
        ("Third\n- -\n", vec![]),
        ("Third\n\n---\n", vec![]),
        ("Third", vec![]),
        ("Third side\n---\nThe rules\n---\nRule\n---\n", vec![]),
        ("Kernel\n---\nVerdict\n---\n", vec![]),
        ("```\nRules\n---\n```\n", vec![]),
        ("```\nRules\n```\n---\n", vec![]),
        ("## Rules\n\nRules\n---\n", vec![]),
        // The first of all is told.
        ("Rules\n---\n## Rule\n", vec![(9, 1)]),
        ("## My rules\nRules\n---\n## Rule\n", vec![(9, 4)]),
        ("rules\n---\nthird\n===\n", vec![(9, 1), (11, 1)]),
        // Fences that are open at the end.
        ("  ~~~~ text\n~~~\n", vec![(9, 3)]),
        ("```\n```\n\n```", vec![(12, 1)]),
        ("```\n``` text\n    ```\n", vec![(9, 1)]),
        ("    ```\n", vec![]),
        ("```\n   ````  \n", vec![]),
    ] {
        assert_eq!(places(bare(more)), expected, "{more:?}");
    }
    let renamed = |kernel: &str, host: &str| {
        let page = with(BARE, "## Kernel", kernel);
        places(with(&page, "## Host", host))
    };
    assert_eq!(renamed("## Kernel: title", "## Host ##"), []);
    assert_eq!(renamed("## Kernel :", "##\tHost"), []);
    // A table that is no longer that of a side is told too.
    assert_eq!(renamed("## Kernal", "## Host"), [(1, 4), (2, 1)]);
    assert_eq!(renamed("## KERNELS", "# Host"), [(1, 4), (2, 1), (5, 3), (6, 1)]);
    assert_eq!(renamed("## Karnak", "## Ghosts"), [(1, 1), (2, 1), (5, 4), (6, 1)]);
    assert_eq!(renamed("## Machine", "## People"), [(1, 1), (1, 1), (2, 1), (6, 1)]);
    assert_eq!(renamed("## People", "###### Kernel: a ####"), [(1, 1), (2, 1), (5, 8), (6, 1)]);
    let tables = |kernel: &str| with(BARE, "## Kernel\n", kernel);
    assert_eq!(places(tables(" Kernel\n==\n")), [(1, 2), (3, 1)]);
    assert_eq!(places(tables("host\n==\n## kernel\n")), [(3, 4), (4, 1)]);
    assert_eq!(places(tables("kernel\n==\n## kernel\n")), [(1, 1), (4, 1)]);
    assert_eq!(places(""), [(1, 1), (1, 1)]);
}

#[test]
fn bytes_that_are_no_text() {
    assert_eq!(places(b"# \xc3\xa9 \xff\n## Kernel\n"), [(1, 5)]);
    assert_eq!(places(b"\xef\xbb\xbf# \xc3\xa9\xff\n## Kernel\n"), [(1, 4)]);
    assert_eq!(places([LOCK.as_bytes(), b"\r\n \xe2\x82"].concat()), [(31, 2)]);
}

/// Pages that are the lock but for one piece, and where its mistakes are.
#[test]
fn sides() {
    let free = "| free | | tick to free; read lock to held; read thumbnail to job |";
    let job = "| job | thumb | send done to free |";
    let header = "## Kernel: the model lock\n\n| state | holds | transitions |\n|---|---|---|\n";
    let headed = |lines: &str| format!("## Kernel: the model lock\n\n{lines}");
    // Where the table ends before its lines, the rules' labels are unknown.
    let lost = vec![(5, 4), (7, 1), (25, 21), (29, 21), (29, 35)];
    for (old, new, expected) in [
        (header, headed("| state | transitions | holds |\n|---|---|---|\n"), vec![(7, 1)]),
        (header, headed("| State | holds | transitions |\n|---|---|---|\n"), vec![(7, 1)]),
        (header, headed("| state | holds |\n|---|---|---|\n"), vec![(7, 1)]),
        (header, headed("  | state | holds | transitions\n| --- |:-:| -: |\n"), vec![]),
        (header, headed("| state | holds | transitions |\n|---|---|\n"), vec![(7, 1)]),
        (header, headed("| state | holds | transitions |\n|---|-x-|---|\n"), vec![(7, 1)]),
        (header, headed("| state | holds | transitions |\n"), vec![(7, 1)]),
        (header, headed("|---|---|---|\n"), vec![(7, 1)]),
        (header, headed("| state | holds | transitions |\n\n"), lost),
        (header, headed("| state | holds | transitions |\n|---|---|---|\n|\n"), vec![(9, 1)]),
    ] {
        assert_eq!(places(with(LOCK, old, &new)), expected, "{new:?}");
    }
    for (old, new, expected) in [
        // Cells.
        (job, "| job | thumb send done to free |", vec![(11, 1), (29, 21), (29, 35)]),
        (job, "| job | thumb | send done to free | |", vec![(11, 1), (29, 21), (29, 35)]),
        (job, "   |job|thumb|send done to free", vec![]),
        (job, "|\tjob\t|\tthumb |\tsend\tdone to   free ;;", vec![]),
        // Names of states.
        (job, "| | thumb | send done to free |", vec![(9, 63), (11, 1)]),
        (job, "| j-b | thumb | send done to free |", vec![(9, 63), (11, 3)]),
        (job, "| 1job | thumb | send done to free |", vec![(9, 63), (11, 3)]),
        (job, "| held | thumb | send done to free |", vec![(9, 63), (11, 3)]),
        (job, "| Job | thumb | send done to free |", vec![(9, 63)]),
        // Labels.
        (job, "| job | thumb 2 | send done to free |", vec![(11, 15)]),
        (
            job,
            "| job | thumb,AX , p47 p48, é| send done to free |",
            vec![(11, 15), (11, 20), (11, 29)],
        ),
        (job, "| job | ,thumb, other thumb | send done to free |", vec![(11, 23)]),
        (job, "| job | thumb true u a ax p01 p48 TRUE_ | send done to free |", vec![]),
        (
            job,
            "| job | thumb TRUE FALSE A U E AG AF EX EG EF p0 | send done to free |",
            vec![15, 20, 26, 28, 30, 32, 35, 38, 41, 44, 47]
                .into_iter()
                .map(|at| (11, at))
                .collect(),
        ),
        // Transitions.
        (job, "| job | thumb | |", vec![(11, 1)]),
        (job, "| job | thumb | ; |", vec![(11, 1)]),
        (job, "| job | thumb | send done |", vec![(11, 17)]),
        (job, "| job | thumb | ;send done to free now; Tick to job |", vec![(11, 18), (11, 41)]),
        (
            job,
            "| job | thumb | tick job to job; send to free; to |",
            vec![(11, 17), (11, 34), (11, 48)],
        ),
        (job, "| job | thumb | send d.ne to free |", vec![(11, 22)]),
        (job, "| job | thumb | send 4 to fred |", vec![(11, 22), (11, 27)]),
        (
            free,
            "| free | | tick to free; read lock to hold; read thumbnail to job |",
            vec![(9, 39)],
        ),
        (free, "| free | | tick to free; read lock to held; read lock to job |", vec![(9, 45)]),
        (
            free,
            "| free | | tick to job; tick to free; read a to held; tick to no |",
            vec![(9, 25), (9, 55), (9, 63)],
        ),
        // Kinds.
        (free, "| free | | send lock to held; read lock to job |", vec![(9, 1)]),
        (free, "| free | | send lock to held; send thumbnail to job |", vec![(9, 1)]),
        (free, "| free | | send lock to held; tick to job; read x to job |", vec![(9, 1)]),
        (free, "| free | | send lock to held; tick to job; read x to jab |", vec![(9, 54)]),
        (free, "| free | | send lock to held; tick to job |", vec![]),
        (free, "| free | | tick to job |", vec![]),
    ] {
        assert_eq!(places(with(LOCK, old, new)), expected, "{new}");
    }
    // No table, and one without a state.
    assert_eq!(places(with(BARE, "| b | y | tick to b |\n", "")), [(5, 4)]);
    assert_eq!(places("## Host\n## Kernel\n"), [(1, 4), (2, 4)]);
    // A table in a fence is none, and the second one of a section doesn't count.
    let table = "| state | holds | transitions |\n|---|---|---|\n| c | | tick to c |\n";
    assert_eq!(places(bare(&format!("## Third\n```\n{table}```\n"))), [(9, 4)]);
    assert_eq!(places(bare(&format!("## Third\nWords\n{table}\n| a | b |\n"))), []);
    // The columns of a side elsewhere.
    for (more, expected) in [
        (format!("\n{table}"), vec![(10, 1)]),
        (format!("### Third party\n{table}"), vec![(10, 1)]),
        (format!("# Notes\n  {table}"), vec![(10, 1)]),
        (format!("## Notes\n{table}\nWords\n{table}"), vec![(10, 1), (15, 1)]),
        ("## Rules\nWords\n|state|holds|transitions\n".into(), vec![(11, 1)]),
        (
            "## Rules\n1. So.\n   | state | holds | transitions |\n\n       x\n".into(),
            vec![(11, 1)],
        ),
        ("\n| state | transitions | holds |\n| State | holds | transitions |\n".into(), vec![]),
        ("\n|state | holds\n| state | holds | transitions | |\n".into(), vec![]),
        ("    | state | holds | transitions |\n".into(), vec![]),
        (format!("## Verdict\n{table}### More\n{table}## Converter\n{table}"), vec![]),
        (format!("## Verdict\n# No more\n{table}"), vec![(11, 1)]),
        (format!("# Verdict\n{table}"), vec![(10, 1)]),
        (format!("## Kernel: again\n{table}"), vec![(9, 4), (10, 1)]),
        (format!("## Third\n{table}\n{table}"), vec![(14, 1)]),
        (format!("## Third\n| other | table |\n\n{table}"), vec![(9, 4), (10, 1), (12, 1)]),
        // It is read as a state too.
        (format!("## Third\n{table}| state | holds | transitions |\n"), vec![(13, 1), (13, 19)]),
    ] {
        assert_eq!(places(bare(&more)), expected, "{more}");
    }
}

/// A table with so many lines of a kind.
fn lines(count: usize, line: impl Fn(usize) -> String) -> String {
    (1..=count).map(line).collect::<Vec<_>>().join("")
}

#[test]
fn limits_of_a_side() {
    let third = |lines: &str| {
        bare(&format!("## Third\n| state | holds | transitions |\n|---|---|---|\n{lines}"))
    };
    // States begin in line 12.
    let states = |count| third(&lines(count, |n| format!("| s{n} | | tick to s{n} |\n")));
    assert_eq!(sound(&states(16)).names.states[2].len(), 16);
    assert_eq!(places(states(17)), [(28, 3)]);
    assert_eq!(places(states(19)), [(28, 3)]);
    let labels = |count| {
        let labels = lines(count, |n| format!("l{n:02} "));
        third(&format!("| s | {labels}| tick to s |\n| t | l01 l{count:02} | tick to t |\n"))
    };
    assert_eq!(sound(&labels(16)).names.labels[2].len(), 16);
    // `| s | ` has six characters, and each label four with its space.
    assert_eq!(places(labels(17)), [(12, 71)]);
    assert_eq!(places(labels(18)), [(12, 71)]);
    let reads =
        |count| third(&format!("| s | | {}|\n", lines(count, |n| format!("read a{n} to s;"))));
    assert_eq!(places(reads(8)), []);
    // `| s | | ` has eight characters, and each transition thirteen.
    assert_eq!(places(reads(9)), [(12, 113)]);
    assert_eq!(places(reads(10)), [(12, 113)]);
    // Seven signals a state.
    let reads = |n: usize| "abcdefg".chars().map(move |own| format!("read {own}{n} to s1;"));
    let state = |n: usize| format!("| s{n} | | {}|\n", reads(n).collect::<String>());
    let signals = |count: usize| third(&lines(count, state));
    assert_eq!(sound(&signals(9)).names.signals.len(), 63);
    // The first of line 21, behind `| s10 | | read `.
    assert_eq!(places(signals(10)), [(21, 16)]);
    // It is a mistake of its transition, so that nothing is said of the state.
    let page = signals(10).replace("read a10", "send a10");
    assert_eq!(places(page), [(21, 16)]);
}

/// Formulas, and the columns of their mistakes in line 12.
#[test]
fn formulas() {
    let deep = |count: usize| format!("{}x{}", "(".repeat(count), ")".repeat(count));
    let deep_untils = |count: usize| format!("{}x{}", "E [ ".repeat(count), " U y ]".repeat(count));
    let chain = |count: usize| vec!["x"; count].join(" & ");
    let some: Vec<usize> = (0..32).map(|n| 8 + 4 * n).collect();
    for (formula, columns) in [
        // Words and signs.
        ("AG x", vec![]),
        ("AG(kernel.x->host.y|p0&!p47)", vec![]),
        ("AG z", vec![11]),
        ("AG x?", vec![12]),
        ("x - y", vec![10]),
        ("x --> y", vec![10]),
        ("x - > y", vec![10, 12]),
        ("x => y", vec![10, 11]),
        ("true & X", vec![8, 15]),
        ("kernel.y", vec![8]),
        ("third.y", vec![8]),
        ("Host.y", vec![8]),
        ("kernel.p0 | p48 | p01 | p47", vec![8, 20, 26]),
        ("kernel.x.y & .x & x. & kernel. x", vec![8, 21, 26, 31]),
        ("hélt & zz", vec![8, 15]),
        ("AXx & x_", vec![8, 14]),
        ("x y z)", vec![12]),
        // What can't stand there.
        ("x y", vec![10]),
        ("x y )", vec![10]),
        ("& x", vec![8]),
        ("x)", vec![9]),
        ("()", vec![9]),
        ("x && y", vec![11]),
        ("x ! y", vec![10]),
        ("[x]", vec![8]),
        ("A x", vec![10]),
        ("A (x U y)", vec![10]),
        ("A A [ x U y ]", vec![10]),
        ("A [ x ]", vec![14]),
        ("A [ x U y U x ]", vec![18]),
        ("A [ x U y ) ]", vec![18]),
        ("A [ (x U y) ]", vec![15]),
        ("(A [ x U y) ]", vec![18]),
        ("x U y", vec![10]),
        ("AG U", vec![11]),
        // What ends too early.
        ("(x", vec![9]),
        ("x ->", vec![10]),
        ("AG AX", vec![11]),
        ("!", vec![8]),
        ("A", vec![8]),
        ("A [ x U y", vec![16]),
        ("E [ x U", vec![14]),
        // Open brackets.
        (&deep(32), vec![]),
        (&deep(33), vec![40]),
        (&deep_untils(32), some),
        (&deep_untils(33), vec![138]),
        // Some path.
        ("EX x", vec![8]),
        ("E [ x U EG y ]", vec![8, 16]),
        ("x & !EF y", vec![13]),
        ("! AX x", vec![10]),
        ("!!AX x & AG y", vec![10]),
        ("!x & AX y", vec![]),
        ("!(AX x & (y -> AF x))", vec![10, 23]),
        ("! A [ AX x U y ]", vec![10, 14]),
        ("AX x -> y", vec![8]),
        ("x -> AX y -> AG x", vec![13]),
        ("x | AF x & y -> x", vec![12]),
        ("A [ x U y ] -> x", vec![8]),
        ("AG (x -> A [ !AX x U y ])", vec![22]),
        ("A [ AX x -> y U AX x ]", vec![12]),
        ("A [ AX x U y -> AX x ]", vec![]),
        ("x -> y & AX (y -> AF x)", vec![]),
        ("(AX x) -> y", vec![9]),
        // Records.
        (&chain(32), vec![]),
    ] {
        let expected: Vec<(usize, usize)> = columns.into_iter().map(|at| (12, at)).collect();
        assert_eq!(places(ruled(formula)), expected, "{formula}");
    }
    assert_eq!(places(ruled(&format!("AX ({})", chain(32)))), []);
    assert_eq!(places(ruled(&chain(33))), [(10, 1)]);
}

/// Lists of rules below the heading in line 9, and where their mistakes are.
#[test]
fn lists() {
    let item = "7) So.\n   ```\n   x\n   ```\n";
    let long = format!("1. So.\n\n       {}\n", vec!["x"; 31].join(" & "));
    let wrong = "1. So.\n\n       EX x\n";
    for (list, expected) in [
        ("1. So.\n\n       x\n", vec![]),
        ("1. Only words.\n", vec![(10, 1)]),
        ("1. \n", vec![(10, 1), (10, 1)]),
        (" 2)   \n\n        x\n", vec![(10, 2)]),
        (" 2)   \n\n       x\n", vec![(10, 2)]),
        ("1. So.\n\n       x\n\n   And so.\n\n       y\n", vec![(16, 8)]),
        ("1. So.\n\n       x\n\n\n\n       & y\n", vec![]),
        ("1. So.\n   ```\n   x\n   ```\n   ~~~\n\n    y & nothing\n   ~~~\n", vec![(16, 5)]),
        ("1. So.\n   ```\n   ```\n", vec![(10, 1)]),
        ("1. So.\n   ```\n   ```\n\n       x\n", vec![]),
        ("1. So.\n   ```\n   x\n", vec![(11, 4)]),
        ("1. So.\n       x\n", vec![(10, 1)]),
        ("1. So.\n\n      x\n", vec![(10, 1)]),
        ("1. So.\n\nNo more.\n\n       x\n", vec![(10, 1), (14, 8)]),
        ("1. So\nit is.\n\n       x\n", vec![]),
        ("10.  So.\n\n         x\n", vec![]),
        ("10.  So.\n\n        x\n", vec![(10, 1)]),
        ("10.  So.\n     ````text\n     x\n     ```\n     ````\n", vec![(13, 6), (13, 7), (13, 8)]),
        ("1. So.\n\n\t\tx &\n\n\ty\t\n", vec![(12, 5)]),
        ("1. So.\n\n\t\tx &\n\n\t\ty\t\n", vec![]),
        ("   1. So.\n\n          x\n    2. no item\n", vec![]),
        ("1234567890. No item.\n\n       y y\n1.No item.\n", vec![(10, 1), (12, 8), (13, 1)]),
        ("- No item.\n\n      y y\n", vec![(10, 1), (12, 7)]),
        ("1. So.\n\n       x\n2. So.\n\n       y y\n3. So.\n", vec![(15, 10), (16, 1)]),
        ("1. So.\n### Deeper\n\n       x\n", vec![(10, 1), (13, 8)]),
        (&item.repeat(16), vec![]),
        (&item.repeat(17), vec![(74, 1)]),
        (&item.repeat(18), vec![(74, 1)]),
        // 61 records and three of one.
        (&format!("{long}{item}{item}{item}"), vec![]),
        (&format!("{long}{item}{item}{item}{item}{item}"), vec![(25, 1)]),
        (&format!("{long}{wrong}{item}{item}{item}"), vec![(15, 8)]),
        (&format!("{long}{wrong}{long}"), vec![(15, 8), (16, 1)]),
    ] {
        assert_eq!(places(bare(&format!("## Rules\n{list}"))), expected, "{list}");
    }
}

/// What in the section Rules, or right behind it, would be passed over. The heading is line 9.
#[test]
fn strays_of_rules() {
    let rule = "1. So.\n\n       x\n";
    let ended = |more: &str| format!("{rule}# More\n{more}");
    for (list, expected) in [
        // A tab behind the number; the words are indented by four then.
        ("1.\tSo.\n\n        x\n", vec![]),
        ("1.\tSo.\n\n       x\n", vec![(10, 1)]),
        ("  10)\tSo.\n\n\t\t\tx\n2)\t\n\n       x\n", vec![(13, 1)]),
        ("1.\u{a0}So.\n", vec![(10, 1)]),
        // Lists that are none of rules.
        ("- So.\n  * So.\n   +\tSo.\n", vec![(10, 1), (11, 3), (12, 4)]),
        ("-\n-So.\n--\n**So**\n    - So.\n", vec![]),
        ("- \n", vec![(10, 1)]),
        (
            "1.So.\n 12)So.\n0000000000. So.\n3.5 of them\n",
            vec![(10, 1), (11, 2), (12, 1), (13, 1)],
        ),
        ("1 . So.\n(1) So.\n1: So.\n.\n\u{661}. So.\n", vec![]),
        ("### Deeper\n- So.\n", vec![(11, 1)]),
        ("1. So.\n- and so\n\n       x\n", vec![(11, 1)]),
        ("1. So.\n   - and so\n  - and so\n\n       x\n", vec![(12, 3)]),
        ("1. So.\n\n       x\n\n   - and so\n\n  - not so\n", vec![(16, 3)]),
        ("1. So.\n   2.and so\n  2.not so\n\n       x\n", vec![(12, 3)]),
        ("   1. So.\n   - and\n    - so\n\n          x\n", vec![(11, 4)]),
        ("1. \n- So.\n\n       x\n", vec![(11, 1)]),
        ("1. So.\n   ```\nx\n   ```\n- So.\n", vec![(14, 1)]),
        // Code that is none of a rule.
        ("```\nx\n- x\n1.x\n```\n", vec![(10, 1)]),
        ("  ~~~\n~~~\n```\n", vec![(10, 3), (12, 1), (12, 1)]),
        ("    x\n\n     y\n   z\n    x\n\n\tx\n", vec![(10, 5), (16, 2)]),
        ("Words\n    x\n\n    x\n", vec![(13, 5)]),
        ("```\n```\n    x\n", vec![(10, 1)]),
        ("\n    ```\n    x\n\n    ```\nWords\n", vec![(11, 5)]),
        ("\n    x\n### Deeper\n    x\n", vec![(11, 5), (13, 5)]),
        ("1. So.\n\n       x\n\nWords\n   ```\n   ```\n", vec![(15, 4)]),
        ("1. So.\n\n       x\n\n  ```\n  ```\n", vec![(14, 3)]),
        ("1. So.\n\n       x\n  ```\n  y\n  ```\n", vec![(14, 3)]),
        ("10.  So.\n\n         x\n\n    x\n\n         x\n", vec![(14, 5)]),
        ("    x\n\n1. So.\n\n       x\n", vec![(10, 5)]),
        // Items below a heading of level one.
        (
            &ended("2. So.\n  3)\n    4. So.\n5.So.\n- So.\n6.\tSo.\n"),
            vec![(14, 1), (15, 3), (19, 1)],
        ),
        (&ended("```\n2. So.\n```\n### Deeper\n3. So.\n"), vec![(18, 1)]),
        (&ended("# Still more\n2. So.\n"), vec![]),
        (&ended("## Notes\n2. So.\n"), vec![]),
        (&format!("{rule}## Notes\n# More\n2. So.\n"), vec![]),
        (&format!("# More\n\n{rule}"), vec![(12, 1)]),
        // Of a second section only that it is there is told.
        ("## Rules\n- So.\n\n    x\n# More\n1. So.\n", vec![(10, 4)]),
    ] {
        assert_eq!(places(bare(&format!("## Rules\n{list}"))), expected, "{list}");
    }
    // In other sections they are words.
    assert_eq!(places(bare("## Notes\n- So.\n\n    x\n```\n```\n1.So.\n# More\n1. So.\n")), []);
}

/// Rules as they are typed, and what is said of them.
#[test]
fn what_is_typed() {
    for (list, typed, sentence) in [
        ("1. So.\n\n       AG(x->\n         y )\n", "AG(p0-> p16 )", "So."),
        (
            "1. So\n  it  is.\n   ```\nA [\tx\n\n   U  host.y]\n   ```\n   Indeed.\n",
            "A [ p0 U p16]",
            "So it is. Indeed.",
        ),
        (" 12)  So.\n\n           ! p47\n\nAnd words.\n", "! p47", "So."),
        ("1)\tSo.\n\n\t\tx\n\n    - And so.\n", "p0", "So. - And so."),
    ] {
        let read = sound(&bare(&format!("## Rules\n{list}")));
        assert_eq!(
            (&read.typed[..], &read.sentences[..]),
            (&format!("{typed}\n")[..], &strings([sentence])[..])
        );
    }
}

#[test]
fn converters() {
    let table = "\
## Converter
Words.

| record | names | kernel | host | next |
|---|---|---|---|---|
| 0 | free, idle | tick | tick | 0 |
| | | read lock | send press | 1 |
| 1 | held,waiting | tick | read go | 0 |
";
    let names = sound(LOCK).names;
    let converter = |table: &str| {
        let places = |places: Vec<Place>| -> Vec<(usize, usize)> {
            places.into_iter().map(|place| (place.line, place.column)).collect()
        };
        read_converter(format!("{LOCK}{table}").as_bytes(), &names).map_err(places)
    };
    let link = |events, next| Link { events, next };
    let records = vec![
        Record { states: [0, 0, 0], links: vec![link([0, 0, 0], 0), link([-1, 5, 0], 1)] },
        Record { states: [1, 1, 0], links: vec![link([0, -6, 0], 0)] },
    ];
    assert_eq!(converter(table), Ok(Some(records)));
    assert_eq!(converter(""), Ok(None));
    assert_eq!(converter("## Converter\nNone.\n"), Ok(None));
    // The heading is line 30, the first record line 35.
    for (old, new, expected) in [
        ("| record |", "| number |", (33, 1)),
        ("| 1 | held", "| 2 | held", (37, 3)),
        ("held,waiting", "held,wait", (37, 12)),
        ("held,waiting", "held", (37, 7)),
        ("read lock", "read luck", (36, 12)),
        ("read lock", "ticks", (36, 7)),
        ("| 1 |\n", "| 2 |\n", (36, 32)),
        ("| | | read", "| | x | read", (36, 5)),
        ("| 0 | free", "| | free", (35, 5)),
        ("| tick | tick | 0 |", "| tick | tick |", (35, 1)),
    ] {
        let answer = converter(&with(table, old, new));
        assert!(
            answer.as_ref().is_err_and(|places| places.contains(&expected)),
            "{new}: {answer:?}"
        );
    }
    for broken in ["|\n", "| | | | | |\n", "||||||\n", "| 99999999999999999999 | | | | |\n"] {
        assert!(converter(&format!("{table}{broken}")).is_err());
    }
}

/// A page for a message.
fn shown(page: &[u8]) -> String {
    String::from_utf8_lossy(page).into_owned()
}

#[test]
fn random_pages_are_read_as_what_they_stand_for() {
    let mut random = Random::new(71);
    let (mut three, mut rules, mut converters, mut largest) = (0, 0, 0, [0; 4]);
    for _ in 0..5_000 {
        let made = page(&mut random);
        let read = read(&made.page)
            .unwrap_or_else(|places| panic!("{places:?} in\n{}", shown(&made.page)));
        assert_eq!(read.names, made.names, "{}", shown(&made.page));
        assert_eq!(read.design, made.design, "{}", shown(&made.page));
        assert!(read_design(&read.design).is_ok());
        assert_eq!(read.sentences.len(), made.rules);
        // The rules as text make the last two blocks.
        let mut blocks = [0; 1_024];
        assert_eq!(checker::rules(read.typed.as_bytes(), &mut blocks), Ok(made.rules));
        assert!(read.design.ends_with(&blocks));
        assert_eq!(
            read_converter(&made.page, &read.names),
            Ok(made.converter.clone()),
            "{}",
            shown(&made.page)
        );
        three += usize::from(made.names.states.len() == 3);
        rules += made.rules;
        converters += usize::from(made.converter.is_some());
        let most = |names: &[Vec<String>]| names.iter().map(Vec::len).max().unwrap_or(0);
        let sizes = [
            most(&made.names.states),
            most(&made.names.labels),
            made.names.signals.len(),
            made.rules,
        ];
        largest = [0, 1, 2, 3].map(|at| sizes[at].max(largest[at]));
    }
    println!("5,000 pages, {three} of three sides, {rules} rules, {converters} converters");
    assert_eq!(largest, [16, 16, 63, 16]);
}

/// Whether a place is on a page: at a character, or where an empty page begins.
fn is_on(page: &[u8], place: &Place) -> bool {
    let text = String::from_utf8_lossy(page);
    let text = text.strip_prefix('\u{feff}').unwrap_or(&text);
    let line = text.split('\n').nth(place.line - 1);
    let length = |line: &str| line.chars().count().max(usize::from(place.line == 1));
    line.is_some_and(|line| (1..=length(line)).contains(&place.column))
}

#[test]
fn damaged_pages_have_places() {
    let mut random = Random::new(72);
    let mut counts: BTreeMap<usize, usize> = BTreeMap::new();
    for _ in 0..10_000 {
        let page = damaged_page(&mut random);
        let count = match read(&page) {
            Ok(read) => {
                assert!(read_design(&read.design).is_ok(), "{}", shown(&page));
                let _ = read_converter(&page, &read.names);
                0
            }
            Err(places) => {
                assert!(!places.is_empty() && places.is_sorted(), "{}", shown(&page));
                assert!(
                    places.iter().all(|place| is_on(&page, place)),
                    "{places:?} in\n{}",
                    shown(&page)
                );
                places.len()
            }
        };
        *counts.entry(count.min(4)).or_default() += 1;
    }
    println!("mistakes of 10,000 damaged pages (4 stands for more too): {counts:?}");
    assert!((0..=4).all(|count| counts[&count] > 200));
}

/// Any bytes are read or refused, and pieces of pages too.
#[test]
fn pieces_and_any_bytes() {
    let mut random = Random::new(73);
    for _ in 0..3_000 {
        let mut page = damaged_page(&mut random);
        page.truncate(random.below(page.len() + 1));
        let places = read(&page).err().unwrap_or_default();
        assert!(
            places.is_sorted() && places.iter().all(|place| is_on(&page, place)),
            "{}",
            shown(&page)
        );
        let bytes: Vec<u8> =
            (0..random.below(200)).map(|_| *random.pick(b"|#-~`;. \n\t1aAU[]()&!\r")).collect();
        let begun = *random.pick(&["## Rules\n1. So.\n\n", "## Third\n", "## Converter\n"]);
        let page = [BARE.as_bytes(), begun.as_bytes(), &bytes].concat();
        let places = read(&page).err().unwrap_or_default();
        assert!(
            places.is_sorted() && places.iter().all(|place| is_on(&page, place)),
            "{}",
            shown(&page)
        );
        let _ = read_converter(&page, &sound(BARE).names);
    }
}

/// A formula is free of mistakes where the typed rule is read.
#[test]
fn formulas_are_right_where_typed_rules_are() {
    let mut random = Random::new(74);
    let mut right = 0;
    let mut tried = 0;
    while tried < 20_000 {
        let text = token_text(&mut random);
        let line = text.trim_ascii_end();
        if line.iter().any(|byte| b"\t\r\n".contains(byte)) {
            continue;
        }
        tried += 1;
        let line = str::from_utf8(line).expect("it is text");
        let typed = checker::rules(format!("{line}\n").as_bytes(), &mut [0; 1_024]);
        let found = read(ruled(line).as_bytes());
        assert_eq!(found.is_ok(), typed.is_ok(), "{line}");
        assert!(
            found.is_err()
                || found.is_ok_and(
                    |read| tokens(read.typed.trim_end().as_bytes()) == tokens(line.as_bytes())
                )
        );
        right += usize::from(typed.is_ok());
    }
    println!("{right} of 20,000 formulas are right");
    assert!(right > 1_000);
}

/// Whether some tokens begin a formula: an operand or none behind them, and something that closes
/// each bracket.
fn begins(start: &[Token]) -> bool {
    let name = Token::Name(0);
    let until = [Token::OpenSquare, name, Token::U, name, Token::CloseSquare];
    let closers =
        [&[Token::Close][..], &[Token::CloseSquare], &[Token::U, name, Token::CloseSquare]];
    let operands = [&[][..], &[name], &until];
    let mut begun: Vec<Vec<Token>> =
        operands.iter().map(|behind| [start, behind].concat()).collect();
    let brackets = start.iter().filter(|token| matches!(token, Token::Open | Token::OpenSquare));
    for _ in 0..=brackets.count() {
        if begun.iter().any(|tokens| read_rule(tokens).is_some()) {
            return true;
        }
        let longer =
            begun.iter().flat_map(|tokens| closers.map(|closer| [&tokens[..], closer].concat()));
        begun = longer.collect();
    }
    false
}

/// The place of the first word that can't stand where it does, by trying how the words before it
/// could go on.
#[test]
fn what_can_not_stand_there() {
    let mut random = Random::new(75);
    let (mut wrong, mut early) = (0, 0);
    for _ in 0..6_000 {
        let mut formula: Vec<Token> = Vec::new();
        for _ in 0..random.from_to(1, 7) {
            // Mostly one that may follow, so that many formulas get far.
            for _ in 0..8 {
                let names = [Token::Name(0), Token::Name(16)];
                let token =
                    if random.once_in(4) { *random.pick(&names) } else { random.pick(&TOKENS).0 };
                formula.push(token);
                if begins(&formula) || random.once_in(8) {
                    break;
                }
                formula.pop();
            }
        }
        if formula.is_empty() || read_rule(&formula).is_some() {
            continue;
        }
        let words: Vec<String> = formula.iter().map(|&token| spelled(token)).collect();
        let at = (0..words.len()).find(|&at| !begins(&formula[..=at]));
        let last = at.unwrap_or(words.len() - 1);
        let column = 8 + words[..last].iter().map(|word| word.len() + 1).sum::<usize>();
        assert_eq!(places(ruled(&words.join(" "))), [(12, column)], "{}", words.join(" "));
        wrong += usize::from(at.is_some());
        early += usize::from(at.is_none());
    }
    println!("{wrong} formulas have what can't stand there, {early} end too early");
    assert!(wrong > 1_000 && early > 1_000);
}

/// A rule with one of its temporal parts left: of the others, a prefix is left out, and an until is
/// two rules joined by `&`.
fn with_one_temporal(tokens: &[Token], kept: usize) -> Vec<Token> {
    use Token::{And, Close, CloseSquare, Open, OpenSquare, A, E, U};
    let mut left = Vec::new();
    // For each square bracket that is open, whether it is the one that is left.
    let mut open = Vec::new();
    for (at, &token) in tokens.iter().enumerate() {
        match token {
            Token::AX | Token::AG | Token::AF | Token::EX | Token::EG | Token::EF | A | E => {
                left.extend((at == kept).then_some(token));
            }
            OpenSquare => {
                open.push(at == kept + 1);
                left.extend(if at == kept + 1 { vec![OpenSquare] } else { vec![Open, Open] });
            }
            U if open.last() == Some(&false) => left.extend([Close, And, Open]),
            CloseSquare => {
                let is_kept = open.pop() == Some(true);
                left.extend(if is_kept { vec![CloseSquare] } else { vec![Close, Close] });
            }
            _ => left.push(token),
        }
    }
    left
}

/// Which words speak of some path: those of the temporal parts of which the rule is refused with 20
/// where it has no other.
#[test]
fn what_speaks_of_some_path() {
    let mut random = Random::new(76);
    let (mut rules, mut refused, mut told) = (0, 0, 0);
    while rules < 20_000 {
        for rule in any_text(&mut random).rules {
            let tokens = rule.tokens(|| 0);
            let (mut expected, mut column) = (Vec::new(), 8);
            for (at, &token) in tokens.iter().enumerate() {
                let read = read_rule(&with_one_temporal(&tokens, at)).expect("it is a rule");
                if !read.says_all_paths() {
                    expected.push((12, column));
                }
                column += spelled(token).len() + 1;
            }
            let words: Vec<String> = tokens.iter().map(|&token| spelled(token)).collect();
            let found = places(ruled(&words.join(" ")));
            rules += 1;
            if expected.is_empty() && found == [(10, 1)] {
                // It makes too many records.
                continue;
            }
            assert_eq!(found, expected, "{rule}");
            refused += usize::from(!expected.is_empty());
            told += expected.len();
        }
    }
    println!("{rules} formulas, {told} words that speak of some path in {refused} of them");
    assert!(refused > 1_000);
}
