//! Pages are read as docs/DESK.md says, and each mistake is told at its place.

use desk::design::Transition;
use desk::formulas::Formula;
use desk::mistakes::{nearest, told, Mistake};
use desk::page::{read, Page};
use desk::records::{Link, Record};

/// The page of the drag before any thumbnail.
const LOCK: &str = "\
# The model lock: a drag before any thumbnail

Words, as many as one likes, here and between the sections.

## Kernel: the model lock

| state | holds | transitions |
|---|---|---|
| free | | tick to free; read lock to held; read thumbnail to job |
| held | held | tick to held; read release to free |
| job | thumb | send done to free |

## Host: the user's drag

| state | holds | transitions |
|---|---|---|
| idle | | tick to idle; send press to waiting |
| waiting | waits | tick to waiting; read go to dragging |
| dragging | drags | tick to dragging; send drop to idle |

## Rules

1. The host drags only while the drag holds the lock.

       AG (drags -> held)

2. A drag that waits while no thumbnail job runs gets the lock before any thumbnail job.

       AG (waits & !thumb -> A [ !thumb U drags ])
";

fn page(text: &str) -> Page {
    read(text.as_bytes())
        .unwrap_or_else(|mistakes| panic!("{}", told("page", text, &mistakes, false)))
}

fn mistakes(text: &str) -> Vec<Mistake> {
    read(text.as_bytes()).expect_err("the page has mistakes")
}

/// The page with something else in the place of `from`, which stands there once or at first.
fn changed(from: &str, to: &str) -> String {
    assert!(LOCK.contains(from), "{from}");
    LOCK.replacen(from, to, 1)
}

/// These mistakes are all, each at its line and column and with these words.
fn all(mistakes: &[Mistake], expected: &[(usize, usize, &str)]) {
    let places: Vec<(usize, usize)> = mistakes.iter().map(|one| (one.line, one.column)).collect();
    let wanted: Vec<(usize, usize)> = expected.iter().map(|one| (one.0, one.1)).collect();
    assert_eq!(places, wanted, "{mistakes:?}");
    for (mistake, (_, _, words)) in mistakes.iter().zip(expected) {
        assert!(mistake.what.contains(words), "'{}' has not '{words}'", mistake.what);
    }
}

fn wrong(text: &str, expected: &[(usize, usize, &str)]) {
    all(&mistakes(text), expected);
}

/// A page of two sides with one label each, and these lines in its section Rules, which begin in line 15.
fn ruled(rules: &str) -> String {
    let side = "| state | holds | transitions |\n|---|---|---|\n";
    format!(
        "## Kernel\n\n{side}| k | held, busy | tick to k |\n\n## Host\n\n{side}| h | drags, busy | tick to h |\n\n## Rules\n\n{rules}"
    )
}

/// A page with one rule of this formula, in line 17 from column 8 on.
fn formula(formula: &str) -> String {
    ruled(&format!("1. Words.\n\n       {formula}\n"))
}

#[test]
fn the_page_of_the_lock() {
    let design = page(LOCK).design;
    assert_eq!(design.title, "The model lock: a drag before any thumbnail");
    let titles: Vec<&str> = design.sides.iter().map(|side| side.title.as_str()).collect();
    assert_eq!(titles, ["the model lock", "the user's drag"]);
    assert_eq!(design.signals, ["lock", "thumbnail", "release", "done", "press", "go", "drop"]);
    assert_eq!(design.sides[0].labels, ["held", "thumb"]);
    assert_eq!(design.sides[1].labels, ["waits", "drags"]);
    let job = &design.sides[0].states[2];
    assert_eq!((job.name.as_str(), job.label_word), ("job", 2));
    assert_eq!(job.transitions, [Transition { event: -4, target: 0 }]);
    assert_eq!(
        design.rules[1].sentence,
        "A drag that waits while no thumbnail job runs gets the lock before any thumbnail job."
    );
    assert_eq!(design.text(design.rules[0].formula), "AG (drags -> held)");
    assert_eq!(design.text(design.rules[1].formula), "AG (waits & !thumb -> A [ !thumb U drags ])");
    assert!(design.numbers.is_empty());
}

/// The blocks that the page of the lock makes, byte by byte.
#[test]
fn the_bytes_of_the_lock() {
    let block = |front: &[&[u8]], check: [u8; 2]| {
        let mut block = front.concat();
        block.resize(510, 0);
        block.extend(check);
        block
    };
    let state = |used: &[u8]| {
        let mut state = used.to_vec();
        state.resize(20, 0);
        state
    };
    // The kernel: the check is 4 + 9 + 7 + 255 = 275.
    let kernel = block(
        &[
            &[1, 3, 0, 0],
            &state(&[0, 0, 3, 0, 0, 0, 1, 1, 2, 2]),
            &state(&[1, 0, 2, 0, 0, 1, 3, 0]),
            &state(&[2, 0, 1, 0, 252, 0]),
        ],
        [19, 1],
    );
    // The host: the check is 5 + 254 + 12 + 255 = 526.
    let host = block(
        &[
            &[2, 3, 0, 0],
            &state(&[0, 0, 2, 0, 0, 0, 251, 1]),
            &state(&[1, 0, 2, 0, 0, 1, 6, 2]),
            &state(&[2, 0, 2, 0, 0, 2, 249, 0]),
        ],
        [14, 2],
    );
    // AG (p17 -> p0), and AG (p16 & !p1 -> A [ !p1 U p17 ]).
    let formulas = block(
        &[
            &[3, 12, 0, 0],
            &[4, 17, 0, 0, 3, 0, 0, 0, 6, 0, 1, 0, 9, 2, 0, 0],
            &[4, 16, 0, 0, 3, 1, 0, 0, 6, 4, 5, 0],
            &[4, 1, 0, 0, 3, 17, 0, 0, 8, 7, 8, 0, 6, 6, 9, 0, 9, 10, 0, 0],
        ],
        [184, 0],
    );
    let rules = block(&[&[4, 2, 0, 0, 3, 11]], [20, 0]);
    assert_eq!(page(LOCK).design.bytes(), [kernel, host, formulas, rules].concat());
}

/// Line ends, a byte order mark, closing signs, padding, a last `|` that is missing, sections in
/// another order: all of it says the same.
#[test]
fn the_same_page_in_other_forms() {
    let bytes = page(LOCK).design.bytes();
    let marked = format!("\u{feff}{}", LOCK.replace('\n', "\r\n"));
    let padded = LOCK
        .replace("## Kernel: the model lock", "##   Kernel :the model lock  ###")
        .replace("| held | held |", "   |\theld\t|  held,|")
        .replace("read release to free |", "read\trelease  to free;; ")
        .replace("|---|---|---|", "|:--|:-:|-")
        .replace("1. The", "9) The");
    let (kernel, host) = (LOCK.find("## Kernel").unwrap(), LOCK.find("## Host").unwrap());
    let rules = LOCK.find("## Rules").unwrap();
    let moved = [&LOCK[rules..], "\n", &LOCK[host..rules], &LOCK[kernel..host]].concat();
    for other in [marked, padded, moved] {
        assert_eq!(page(&other).design.bytes(), bytes, "{other}");
    }
    let third = format!("{LOCK}\n## Third: clock\n\n| state | holds | transitions |\n|---|---|---|\n| on | lit | tick to on; read go to on |\n");
    let design = page(&third).design;
    assert_eq!((design.sides.len(), design.bytes().len()), (3, 2560));
    assert_eq!(design.sides[2].states[0].transitions[1], Transition { event: 6, target: 0 });
    assert_eq!(page("# Kernel\n## Kernel\n| state | holds | transitions |\n|-|-|-|\n|a||tick to a|\n## Host\n| state | holds | transitions |\n|-|-|-|\n|a||tick to a").design.rules, []);
}

#[test]
fn items_and_formulas() {
    let sentences = |rules: &str| -> Vec<String> {
        let design = page(&ruled(rules)).design;
        let text = |rule: &desk::design::Rule| {
            format!("{} / {}", rule.sentence, design.text(rule.formula))
        };
        design.rules.iter().map(text).collect()
    };
    // Over several lines, with empty ones between; words before and behind.
    assert_eq!(
        sentences("Before.\n\n1. One,\ntwo.\n\n       AG (held\n\n         -> drags)\n\n   Three *four*.\n\nBehind.\n"),
        ["One, two. Three *four*. / AG (held -> drags)"]
    );
    // Fences, at the item's indent or left of it without an empty line between.
    assert_eq!(
        sentences("10. One.\n\n    ```ctl\n    AX\theld\n\n  & host.busy\n    ```\n11. Two.\n~~~~\nAX drags\n~~~~\nThree.\n"),
        ["One. / AX held & host.busy", "Two. Three. / AX drags"]
    );
    // Code is behind an empty line; what is short of four more is words.
    assert_eq!(
        sentences("1.  One.\n        AX held\n\n       AX held\n\n        p0 & kernel.busy\n2. Two\n\n       p47\n"),
        ["One. AX held AX held / held & kernel.busy", "Two / p47"]
    );
    // What stands in a fence is no heading, no table and no item.
    let fenced =
        changed("## Rules\n", "~~~\n## Kernel\n~~~\n\n```\n3. Item\n\n       x\n```\n## Rules\n");
    assert_eq!(page(&fenced).design.bytes(), page(LOCK).design.bytes());
}

/// Any count of `!` is none or one, and repeated parts take no stack.
#[test]
fn long_formulas() {
    let design = page(&formula(&format!("AX {}held", "!".repeat(200_001)))).design;
    let Formula::Next(part) = design.formulas.at(design.rules[0].formula) else { panic!() };
    assert!(matches!(design.formulas.at(part), Formula::Not(_)));
    assert_eq!(page(&formula("!! (!!held)")).design.formulas.len(), 1);
    let long = format!("{}held{}", "AX ! ".repeat(100_000), " -> held".repeat(100_000));
    assert_eq!(mistakes(&formula(&long)).len(), 100_000);
    let chain = format!("held{}", " -> held".repeat(100_000));
    wrong(&formula(&chain), &[(15, 1, "200001 formula records: 64 at most (21)")]);
}

#[test]
fn mistakes_as_they_are_shown() {
    let text = changed("lock to held", "lock to hold");
    let shown = "\
lock.md:9:39: no state 'hold' in Kernel; there is 'held' (5)
  9 | | free | | tick to free; read lock to hold; read thumbnail to job |
    |                                       ^^^^
";
    assert_eq!(told("lock.md", &text, &mistakes(&text), false), shown);
    let coloured = told("lock.md", &text, &mistakes(&text), true);
    assert!(coloured.starts_with("\x1b[1mlock.md:9:39:\x1b[0m no state"));
    assert!(coloured.ends_with(" \x1b[31m^^^^\x1b[0m\n"));
    // Tabs stay above the marks, and signs that steer a terminal are not shown.
    let place = Mistake { line: 2, column: 4, length: 2, what: "this".to_string() };
    assert_eq!(
        told("p", "\u{feff}one\n\té\x1bab\r\n", &[place], false),
        "p:2:4: this\n  2 | \té\u{fffd}ab\n    | \t  ^^\n"
    );
    // Of a long line a part is shown.
    let place = Mistake { line: 1, column: 601, length: 500, what: "x".to_string() };
    let (part, mark) = ("a".repeat(200), "^".repeat(200));
    assert_eq!(
        told("p", &format!("{}{}", "a".repeat(600), "b".repeat(600)), &[place], false),
        format!(
            "p:1:601: x\n  1 | …{part}{}…\n    |  {}{mark}\n",
            "b".repeat(200),
            " ".repeat(200)
        )
    );
}

#[test]
fn near_names() {
    assert_eq!(nearest("hold", ["free", "held", "job"]), Some("held"));
    assert_eq!(nearest("HELD", ["hell", "held"]), Some("held"));
    assert_eq!(nearest("Held", ["held", "Held"]), Some("Held"));
    assert_eq!(nearest("xyz", ["held", "job"]), None);
    assert_eq!(nearest("ab", ["cd"]), None);
    assert_eq!(nearest("thumbnial_jobs", ["thumb", "thumbnail_job"]), Some("thumbnail_job"));
    assert_eq!(nearest("abcdefghi", ["abcdefxyz", "abcdwxyz"]), Some("abcdefxyz"));
    assert_eq!(nearest("", ["a"]), None);
}

#[test]
fn mistakes_of_text_and_sections() {
    let bytes = [LOCK.as_bytes(), "\u{e9}x\n\u{e9}".as_bytes(), b"\xffy\n\xfe"].concat();
    all(&read(&bytes).unwrap_err(), &[(31, 2, "the byte 255 isn't UTF-8 text")]);
    wrong("", &[(1, 1, "no section Kernel"), (1, 1, "no section Host")]);
    wrong(
        &changed("## Kernel", "## Kernels"),
        &[
            (5, 4, "no section Kernel, and '## Kernels' is nearly so"),
            (7, 1, "a table of a side that isn't read"),
            (25, 21, "no label 'held' (7)"),
            (29, 21, "no label 'thumb' (7)"),
            (29, 35, "no label 'thumb' (7)"),
        ],
    );
    let none = "| state | holds | transitions |\n|---|---|---|\n| a | | tick to a |\n";
    let two = |kernel: &str, host: &str| format!("{kernel}\n{none}\n{host}\n{none}\n");
    let unread = "a table of a side that isn't read";
    wrong(
        &two("## kernel", "#  hots: x"),
        &[(1, 4, "Kernel"), (2, 1, unread), (6, 4, "Host"), (7, 1, unread)],
    );
    wrong(
        &two("###### Kernel", "## Hose"),
        &[(1, 8, "'###### Kernel' is nearly so"), (2, 1, unread), (6, 4, "Host"), (7, 1, unread)],
    );
    wrong(
        &two("####### Kernel", "##Host"),
        &[(1, 1, "Kernel"), (1, 1, "Host"), (2, 1, unread), (7, 1, unread)],
    );
    wrong(&two("## Kernel", "## Host\n### Third side\n"), &[(7, 5, "Third")]);
    wrong(&two("## Kernel", "## Host\n### Rule: x\n### rules\n"), &[(7, 5, "write '## Rules'")]);
    assert_eq!(page(&two("# Roots\n## Kernel", "## Host\n### Thirsty")).design.rules, []);
    wrong(
        &format!("{}## Host\n## Verdict\n# Verdict\n## Verdict\n", two("## Kernel", "## Host")),
        &[
            (11, 4, "the section Host stands here for the second time"),
            (14, 4, "the section Verdict"),
        ],
    );
    let empty = "## Kernel\n# Words\n| state | holds | transitions |\n## Host\n  | state | holds | transitions\n   |-|-|-|\n";
    wrong(
        empty,
        &[
            (1, 4, "no table in the section Kernel"),
            (3, 1, unread),
            (4, 4, "has no state: a line is a state (4)"),
        ],
    );
}

/// What stands where no rule and no side is read is told.
#[test]
fn nothing_is_passed_over() {
    let list = "no rule: a rule is an item of a numbered list";
    let code = "a formula outside a rule";
    let rule = "1. Words.\n\n       held\n";
    // A tab behind the number is a blank; without one it is no item.
    assert_eq!(page(&ruled("1.\tWords.\n\n        held\n")).design.rules.len(), 1);
    wrong(&ruled("1.Words.\n\n       held\n"), &[(15, 1, list), (17, 8, code)]);
    wrong(&ruled("- Words.\n\n       held\n"), &[(15, 1, list), (17, 8, code)]);
    wrong(&ruled(&format!("{rule} * Words.\n")), &[(18, 2, list)]);
    wrong(&ruled(&format!("{rule}\n2)Words.\n")), &[(19, 1, list)]);
    // Lists inside an item, and words without a list.
    assert_eq!(
        page(&ruled("1. Words:\n   - one\n   - two\n\n       held\n")).design.rules.len(),
        1
    );
    assert_eq!(page(&ruled(&format!("Words.\n\n{rule}\nWords -> more.\n"))).design.rules.len(), 1);
    wrong(&ruled(&format!("    held\n\n      drags\n\n{rule}")), &[(15, 5, code)]);
    wrong(&ruled("```\nheld\n```\n"), &[(15, 1, code)]);
    wrong(
        &ruled(&format!("{rule}# Safety\n\n2. Words.\n\n       drags\n")),
        &[(20, 1, "an item outside the section Rules, which ends at the heading 'Safety'")],
    );
    for heading in ["## The rules", "### Rules of the pair", "## RULE 7: x"] {
        let page = changed("## Rules", heading);
        let column = heading.find(' ').expect("a blank") + 2;
        wrong(&page, &[(21, column, "is nearly so: write '## Rules'")]);
    }
    wrong(&changed("## Rules", "Rules\n-----"), &[(21, 1, "'Rules' is nearly so")]);
    wrong(&changed("## Rules", " RULES : x \n=="), &[(21, 2, "'RULES' is nearly so")]);
    wrong(
        &format!("{LOCK}\n## End\n```\nx\n"),
        &[(32, 1, "this fence is open to the end of the page")],
    );
    let again = "\n| state | holds | transitions |\n|---|---|---|\n| a | | tick to a |\n";
    wrong(
        &format!("{LOCK}\n## Third party\n{again}"),
        &[(33, 1, "a table of a side that isn't read")],
    );
    wrong(&format!("{LOCK}\n### More\n{again}"), &[(33, 1, "a table of a side that isn't read")]);
    assert_eq!(page(&format!("{LOCK}\n## Verdict\n{again}")).design.rules.len(), 2);
}

#[test]
fn mistakes_of_tables() {
    let header = "| state | holds | transitions |";
    for (other, words) in [
        ("| State | holds | transitions |", "the column 'State' isn't 'state'"),
        ("| state | transitions | holds |", "the column 'transitions' isn't 'holds'"),
        ("| state | holds |", "the column 'transitions' is missing"),
        ("| state | holds | transitions | x |", "the column 'x' is one too many"),
    ] {
        wrong(&changed(header, other), &[(7, 1, words)]);
    }
    wrong(&changed("|---|---|---|\n", ""), &[(7, 1, "no line of dashes below the columns")]);
    wrong(&changed("|---|---|---|\n", "|---|---|\n"), &[(7, 1, "no line of dashes")]);
    wrong(
        &changed("| job | thumb |", "| job |"),
        &[
            (11, 1, "too few cells, 2: a line has one for each of state, holds, transitions"),
            (29, 21, "no label 'thumb'"),
            (29, 35, "no label 'thumb'"),
        ],
    );
    wrong(&changed("| free | |", "| free | | |"), &[(9, 1, "too many cells, 4")]);
    wrong(
        &changed("| idle |", "| |"),
        &[
            (17, 1, "a state without a name"),
            (17, 15, "no state 'idle' in Host (5)"),
            (19, 53, "no state 'idle' in Host (5)"),
        ],
    );
    wrong(
        &changed("| idle |", "| 1dle |"),
        &[
            (17, 3, "'1dle' isn't a name"),
            (17, 20, "no state 'idle' in Host; there is '1dle' (5)"),
            (19, 53, "no state 'idle'"),
        ],
    );
    wrong(
        &changed("| dragging | drags |", "|  idle | drags |"),
        &[
            (18, 49, "no state 'dragging'"),
            (19, 4, "the state 'idle' stands in Host for the second time"),
            (19, 27, "no state 'dragging'"),
        ],
    );
}

/// A host of one state, and a kernel of these lines, which begin in line 8.
fn kernel(lines: &str) -> String {
    let columns = "| state | holds | transitions |\n|---|---|---|\n";
    format!("## Host\n{columns}| h | | tick to h |\n## Kernel\n{columns}{lines}")
}

#[test]
fn mistakes_of_states() {
    let states: String = (0..18).map(|state| format!("| s{state} | | tick to s0 |\n")).collect();
    wrong(&kernel(&states), &[(24, 3, "a 17th state in Kernel: a side has 16 at most (4)")]);
    wrong(
        &kernel("| a | b 2 AX, p47 ,b p48| tick to a |\n"),
        &[
            (8, 9, "the label '2' isn't a name"),
            (8, 11, "'AX' is a word of the logic"),
            (8, 15, "'p47' is a word of the logic"),
            (8, 20, "the label 'b' stands here twice"),
        ],
    );
    let labels: Vec<String> = (0..18).map(|label| format!("l{label:02}")).collect();
    let row = format!("| a | {} | tick to a |\n", labels.join(" "));
    wrong(&kernel(&row), &[(8, 7 + 16 * 4, "a 17th label of Kernel, 'l16'")]);
    wrong(&kernel("| a | | ; ; |\n"), &[(8, 1, "a state without transitions")]);
    wrong(
        &kernel("| a | | ticks to a; read x a; Tick to a; send x to a b; read to a |\n"),
        &[
            (8, 9, "'ticks to a' is no transition"),
            (8, 21, "'read x a'"),
            (8, 31, "'Tick to a'"),
            (8, 42, "'send x to a b'"),
            (8, 57, "'read to a'"),
        ],
    );
    wrong(
        &kernel("| a | | read 1x to a; read y- to b |\n"),
        &[
            (8, 14, "the signal '1x' isn't a name"),
            (8, 28, "the signal 'y-' isn't a name"),
            (8, 34, "no state 'b' in Kernel (5)"),
        ],
    );
    wrong(
        &kernel("| a | | read x to a; tick to a; read x to b; tick to a |\n"),
        &[
            (8, 33, "'read x' stands in this state for the second time (5)"),
            (8, 43, "no state 'b'"),
            (8, 46, "'tick' stands in this state"),
        ],
    );
    let nine: Vec<String> = (0..10).map(|signal| format!("read x{signal} to a")).collect();
    let row = format!("| a | | {} |\n", nine.join("; "));
    wrong(&kernel(&row), &[(8, 9 + 8 * 14, "a ninth transition: a state has 8 at most (5)")]);
    let row = |row: usize| {
        let reads: Vec<String> = (0..7).map(|signal| format!("read x{row}{signal} to a")).collect();
        format!("| {} | | {} |\n", "abcdefghij".get(row..=row).unwrap(), reads.join("; "))
    };
    // Nine rows have 63 signals; the tenth begins with the 64th.
    let rows: String = (0..10).map(row).collect();
    wrong(&kernel(&rows), &[(17, 14, "a 64th signal, 'x90': a page has 63 at most (5)")]);
}

#[test]
fn mistakes_of_kinds() {
    wrong(&changed("send done to free", "send done to free; read stop to free"), &[(
        11,
        1,
        "'job' is neither input, output-only nor delayed: it sends 'done' beside reading 'stop'; \
         a state that sends has that one transition, or beside it a tick (6)",
    )]);
    wrong(
        &kernel("| a | | read x to a; send y to a; tick to a; send z to a |\n"),
        &[(8, 1, "it sends 'y' beside reading 'x' and sending 'z';")],
    );
    // It is not told beside another mistake of a transition.
    wrong(&kernel("| a | | read x to a; send y to b |\n"), &[(8, 32, "no state 'b'")]);
}

#[test]
fn mistakes_of_items() {
    wrong(&ruled("12. \n\n        held\n"), &[(15, 1, "a rule without a sentence")]);
    wrong(&ruled("  7) Words.\n"), &[(15, 3, "a rule without a formula")]);
    wrong(
        &ruled("1. Words.\n\n    held\n"),
        &[(15, 1, "indented by 7 spaces or more, or in a fence; line 17 is indented by 4")],
    );
    wrong(
        &ruled("1. Words.\n\n  held\n\n       held"),
        &[(15, 1, "; line 17 is indented by 2"), (19, 8, "a formula outside a rule")],
    );
    wrong(&ruled("1. Words.\n       held\n"), &[(15, 1, "; line 16 has no empty line before it")]);
    wrong(
        &ruled("1. Words.\n\n```\nheld\n```\n"),
        &[
            (15, 1, "; the fence in line 17 needs an indent of 3"),
            (17, 1, "a formula outside a rule"),
        ],
    );
    wrong(&ruled("1. Words.\n\n   ```\n   \n   ```\n"), &[(15, 1, "a rule without a formula")]);
    wrong(
        &ruled("1. \n2. Words.\n"),
        &[
            (15, 1, "a rule without a sentence"),
            (15, 1, "a rule without a formula"),
            (16, 1, "a rule without a formula"),
        ],
    );
    wrong(
        &ruled("1. Words.\n\n       held\n   And\n\n         nothing & x\n   ```\n   y\n   ```\n"),
        &[(20, 10, "a second formula in this rule"), (22, 4, "a second formula in this rule")],
    );
    let rules = |count: usize| -> String { (0..count).map(|_| "1. W.\n\n       held\n").collect() };
    assert_eq!(page(&ruled(&rules(16))).design.rules.len(), 16);
    wrong(&ruled(&rules(18)), &[(15 + 3 * 16, 1, "a 17th rule: a page has 16 at most (21)")]);
}

#[test]
fn mistakes_of_words() {
    wrong(
        &formula("AG (hold -> 2x) % true $"),
        &[
            (17, 12, "no label 'hold'; there is 'held' (7)"),
            (17, 20, "'2x' is no word of formulas"),
            (17, 24, "there is no sign '%' in formulas (19)"),
            (17, 26, "no label 'true'; there is 'TRUE' (7)"),
            (17, 31, "there is no sign '$'"),
        ],
    );
    wrong(
        &formula("busy & kernel.busy & host.held & third.x & kernel.held.x"),
        &[
            (17, 8, "'busy' is a label of kernel and host: write kernel.busy or host.busy"),
            (17, 29, "no label 'held' in host (7)"),
            (17, 41, "no label 'third.x': no side is called 'third' (7)"),
            (17, 51, "'kernel.held.x' is no word of formulas"),
        ],
    );
    wrong(
        &formula("held - > drags => ~held & p48 & p01 & été"),
        &[
            (17, 13, "there is no sign '-' in formulas; there is '->' (19)"),
            (17, 15, "'>'"),
            (17, 23, "'='"),
            (17, 24, "'>'"),
            (17, 26, "there is no sign '~' in formulas; there is '!' (19)"),
            (17, 34, "no label 'p48' (7)"),
            (17, 40, "no label 'p01' (7)"),
            (17, 46, "'été' is no word of formulas"),
        ],
    );
    let bytes = page(&formula("p0 & p47 & kernel.held & host.busy")).design.blocks;
    assert_eq!(
        bytes[4..28],
        [3, 0, 0, 0, 3, 47, 0, 0, 5, 0, 1, 0, 3, 0, 0, 0, 5, 2, 3, 0, 3, 17, 0, 0]
    );
}

#[test]
fn mistakes_of_grammar() {
    for (typed, column, words) in [
        (
            "held drags",
            13,
            "'drags' can't stand here: behind a formula stands '&', '|', '->' or its end (19)",
        ),
        ("held && drags", 14, "'&' can't stand here: a formula is awaited"),
        ("AG held)", 15, "')' can't stand here"),
        ("A [ held | drags ]", 25, "or here 'U' (19)"),
        ("A [ (held U drags) ]", 18, "or here ')' (19)"),
        ("A (held U drags)", 10, "behind 'A' and 'E' stands '['"),
        ("A [ held U drags U held ]", 25, "or here ']' (19)"),
        ("held U drags", 13, "'U' can't stand here"),
        ("held -> AX", 16, "the formula ends too early: behind 'AX' a formula is missing (19)"),
        ("(held & (drags)", 22, "the formula ends too early: ')' is missing (19)"),
        ("E [ held U drags", 19, "']' is missing (19)"),
        ("A [ held", 12, "'U' is missing (19)"),
        ("! E", 10, "behind 'E' a '[' is missing (19)"),
    ] {
        wrong(&formula(typed), &[(17, column, words)]);
    }
    let nested = |depth: usize| format!("{}held{}", "(".repeat(depth), ")".repeat(depth));
    assert_eq!(page(&formula(&nested(32))).design.formulas.len(), 1);
    wrong(
        &formula(&nested(33)),
        &[(17, 40, "a 33rd open bracket: 32 at most may be open together (19)")],
    );
    wrong(&formula(&"(".repeat(1_000_000)), &[(17, 40, "a 33rd open bracket")]);
    // Mistakes of words come first, in the formula that has them.
    let two = "1. One.\n\n       held drags x\n\n2. Two.\n\n       held\n\n           drags\n";
    wrong(&ruled(two), &[(17, 19, "no label 'x'"), (23, 12, "'drags' can't stand here")]);
}

#[test]
fn mistakes_of_paths_and_counts() {
    wrong(
        &formula("EX held & !EG held | EF E [ held U drags ]"),
        &[
            (17, 8, "'EX' speaks of some path: rules speak of every path (20)"),
            (17, 19, "'EG' speaks"),
            (17, 29, "'EF' speaks"),
            (17, 32, "'E' speaks"),
        ],
    );
    wrong(
        &formula("AG (AX held -> !(AF drags & A [ held U drags ]) -> AX held)"),
        &[
            (17, 12, "'AX' stands left of '->': nothing that speaks of paths can (20)"),
            (17, 25, "'AF' stands under '!'"),
            (17, 36, "'A' stands under '!'"),
        ],
    );
    wrong(&formula("!!AX held"), &[(17, 10, "'AX' stands under '!'")]);
    // 63 times AX and a label are 64 records; a second rule makes them 65.
    let most = format!("1. One.\n\n       {}held\n", "AX ".repeat(63));
    assert_eq!(page(&ruled(&most)).design.formulas.len(), 64);
    let over = format!(
        "{most}2. Two.\n\n       EX held\n3. Three.\n\n       held\n4. Four.\n\n       held\n"
    );
    wrong(
        &ruled(&over),
        &[
            (20, 8, "'EX' speaks"),
            (21, 1, "with this rule there are 65 formula records: 64 at most (21)"),
        ],
    );
}

/// The converter of the lock page, with a word in front of its table.
const TABLE: &str = "\
Words.

| record | names | kernel | host | next |
|--------|-------|--------|------|------|
| 0 | free, idle | tick | tick | 0 |
| | | read lock | send press | 1 |
| 1 | held,waiting | tick | read go | 0 |";

fn converter(text: &str) -> Result<Option<Vec<Record>>, Vec<Mistake>> {
    page(text).converter()
}

#[test]
fn the_converter_of_a_page() {
    assert_eq!(converter(LOCK), Ok(None));
    assert_eq!(converter(&format!("{LOCK}\n## Converter\n\nNone yet.\n")), Ok(None));
    let link = |events: [i8; 3], next: u16| Link { events, next };
    let records = vec![
        Record { states: [0, 0, 0], links: vec![link([0, 0, 0], 0), link([1, -5, 0], 1)] },
        Record { states: [1, 1, 0], links: vec![link([0, 6, 0], 0)] },
    ];
    let written = page(LOCK).with("Yes.", TABLE);
    assert_eq!(converter(&written), Ok(Some(records.clone())));
    assert_eq!(converter(&written.replace('\n', "\r\n")), Ok(Some(records)));
}

#[test]
fn mistakes_of_converters() {
    // The page has 29 lines, then "", "## Converter" and the table's lines from 32 on.
    let wrong = |table: &str, expected: &[(usize, usize, &str)]| {
        let text = format!("{LOCK}\n## Converter\n{table}");
        all(&converter(&text).expect_err("there are mistakes"), expected);
    };
    let lines =
        |lines: &str| format!("| record | names | kernel | host | next |\n|-|-|-|-|-|\n{lines}");
    wrong(&TABLE.replace("names", "states"), &[(34, 1, "the column 'states' isn't 'names'")]);
    wrong(&lines(""), &[(31, 4, "the converter has no record (10)")]);
    wrong(
        &lines("| 0 | free, idle | tick | 0 |\n| 1 | free, idle | tick | tick | 1 | |\n"),
        &[(34, 1, "too few cells, 4"), (35, 1, "too many cells, 6")],
    );
    wrong(
        &lines("| 0 | free, idle | tick | tick | 0 |\n| 2 | free, idle | tick | tick | 0 |\n"),
        &[(35, 3, "record '2' stands where record 1 should")],
    );
    wrong(&lines("| | | tick | tick | 0 |\n| 1 | | tick | tick | 0 |\n| | job, idle | tick | tick | 2 |\n"), &[
        (34, 1, "the first line of record 0 has its number and its names"),
        (35, 1, "the first line of record 1"),
        (36, 1, "the first line of record 2"),
    ]);
    wrong(&lines("| 0 | free | tick | tick | 0 |\n| 1 | free, | tick | tick | 0 |\n| 2 | fred, job | tick | tick | 0 |\n"), &[
        (34, 7, "not one name for each side: kernel, host"),
        (35, 7, "not one name for each side"),
        (36, 7, "no state 'fred' in kernel; there is 'free'"),
        (36, 13, "no state 'job' in host"),
    ]);
    wrong(&lines("| 0 | free, idle | ticks | read  lok | x |\n| | | | send to go | 1 |\n| | | tick | tick | 99999999999999999999999 |\n"), &[
        (34, 20, "'ticks' is none of 'tick', 'read X' and 'send X'"),
        (34, 34, "no signal 'lok'; there is 'lock'"),
        (34, 40, "'x' isn't the number of a record (11)"),
        (35, 7, "is none of"),
        (35, 9, "'send to go' is none of"),
        (35, 22, "there is no record 1: 1 stand here (11)"),
        (36, 21, "isn't the number of a record (11)"),
    ]);
    let signals = ["lock", "thumbnail", "release", "done", "press", "go", "drop"];
    let mut nine = "| 0 | free, idle | tick | tick | 0 |\n".to_string();
    for verb in ["read", "send"] {
        nine.extend(signals.map(|signal| format!("| | | {verb} {signal} | tick | 0 |\n")));
    }
    nine += "| | | read go | tick | 0 |\n| 1 | free, idle | read go | tick | 0 |\n";
    wrong(
        &lines(&nine),
        &[
            (42, 1, "a ninth transition: a record has 8 at most (11)"),
            (49, 1, "the sides do the same here as in a line above, in the same record (11)"),
        ],
    );
    let row = |record: usize| format!("| {record} | free, idle | tick | tick | 65536 |\n");
    let most: String = (0..65_537).map(row).collect();
    wrong(
        &lines(&most),
        &[(34 + 65_536, 3, "a 65,537th record: a converter has 65,536 at most (10)")],
    );
}

#[test]
fn what_is_written() {
    let missing = page(LOCK).with("Yes.\n\nTwo.", TABLE);
    assert_eq!(missing, format!("{LOCK}\n## Verdict\n\nYes.\n\nTwo.\n\n## Converter\n\n{TABLE}\n"));
    let (before, after) = LOCK.split_at(LOCK.find("## Host").unwrap());
    let middle =
        format!("\u{feff}{before}## Converter ##\nold\n\n### old\n{after}## Verdict: mine");
    let written =
        format!("\u{feff}{before}## Converter ##\n\nnew\n\n{after}## Verdict: mine\n\nYes.\n");
    assert_eq!(page(&middle).with("Yes.", "new"), written);
    // With CR LF, and only where the page's first line has it.
    let crlf = missing.replace('\n', "\r\n");
    assert_eq!(page(&LOCK.replace('\n', "\r\n")).with("Yes.\n\nTwo.\n", TABLE), crlf);
    let mixed = LOCK.replacen('\n', "\r\n", 1);
    assert_eq!(
        page(&mixed).with("a", "b"),
        format!("{mixed}\r\n## Verdict\r\n\r\na\r\n\r\n## Converter\r\n\r\nb\r\n")
    );
    // The end of a page: without a line end, with empty lines.
    for (end, between) in [("", "\n\n"), ("\n", "\n"), ("\n \n", "")] {
        let text = format!("{}{end}", LOCK.trim_end());
        let written = format!("{text}{between}## Verdict\n\na\n\n## Converter\n\nb\n");
        assert_eq!(page(&text).with("a", "b"), written);
    }
    // An empty body, and what stands behind a verdict at the end.
    let last = format!("{LOCK}## Verdict\n");
    assert_eq!(page(&last).with("", "b"), format!("{LOCK}## Verdict\n\n## Converter\n\nb\n"));
}

#[test]
fn writing_twice_changes_nothing() {
    let sections =
        ["## Verdict\nold\n", "## Converter\n\n~~~\nold", "words", "", "\n\n", "```\nopen\n"];
    for one in sections {
        for other in sections {
            for text in [format!("{LOCK}{one}\n{other}"), format!("{one}\n\n{LOCK}{other}")] {
                for text in [text.clone(), text.replace('\n', "\r\n")] {
                    let Ok(read_once) = read(text.as_bytes()) else { continue };
                    let once = read_once.with("One.\n\nTwo.", TABLE);
                    let again = page(&once);
                    assert_eq!(again.with("One.\n\nTwo.", TABLE), once);
                    assert_eq!(again.design, read_once.design);
                    assert_eq!(
                        again.converter().map(|found| found.map(|all| all.len())),
                        Ok(Some(2))
                    );
                }
            }
        }
    }
}

/// Numbers that look random, the same ones on each run.
struct Random(u64);

impl Random {
    fn below(&mut self, most: usize) -> usize {
        self.0 =
            self.0.wrapping_mul(6_364_136_223_846_793_005).wrapping_add(1_442_695_040_888_963_407);
        (self.0 >> 33) as usize % most
    }
}

/// Whatever the library refuses of a formula has its place, found without the library's help.
#[test]
fn refused_formulas_have_places() {
    let words =
        "held drags TRUE FALSE p3 ! ! AX AG AF EX A [ A [ A [ E [ U U U ] ] ] & | -> ( ( ( ) ) )";
    let words: Vec<&str> = words.split(' ').collect();
    let mut random = Random(1);
    let mut read_well = 0;
    for _ in 0..20_000 {
        let count = 1 + random.below(9);
        let typed: Vec<&str> = (0..count).map(|_| words[random.below(words.len())]).collect();
        let text = formula(&typed.join(" "));
        match read(text.as_bytes()) {
            Ok(page) => {
                read_well += 1;
                let own = page.design.blocks_of(&[page.design.rules[0].formula]);
                assert_eq!(own.as_ref(), Ok(&page.design.blocks), "{typed:?}");
            }
            Err(mistakes) => {
                assert!(mistakes.iter().all(|one| one.line == 17), "{typed:?}: {mistakes:?}");
            }
        }
    }
    assert!(read_well > 300, "{read_well}");
}

/// Damaged pages are read to their end, with places that are on the page.
#[test]
fn damaged_pages() {
    let whole = page(LOCK).with("Yes.\n\n```\n## Rules\n```", TABLE);
    let pieces = [
        "\n", "\r\n", "|", ";", ",", " ", "\t", "#", "## ", "```", "~~~~\n", "1. ", "    ", "é",
        "\u{feff}", "(", "]", "->", ".", "\n\n", "tick to ", "Kernel", "free", "0", "\r",
    ];
    let mut random = Random(2);
    let mut read_well = 0;
    for _ in 0..3_000 {
        let mut signs: Vec<char> = whole.chars().collect();
        for _ in 0..1 + random.below(4) {
            let at = random.below(signs.len());
            let end = (at + random.below(6)).min(signs.len());
            let piece = if random.below(4) == 0 { "" } else { pieces[random.below(pieces.len())] };
            signs.splice(at..end, piece.chars());
        }
        let text: String = signs.into_iter().collect();
        let found = read(text.as_bytes()).and_then(|page| page.converter().map(|_| page));
        match found {
            Ok(page) => {
                read_well += 1;
                let once = page.with("a", TABLE);
                let again = read(once.as_bytes()).expect("a written page can be read");
                assert_eq!((again.with("a", TABLE), &again.design), (once, &page.design));
            }
            Err(mistakes) => {
                let places = mistakes.iter().map(|one| (one.line, one.column));
                assert!(places.is_sorted());
                let lines: Vec<&str> = text.trim_start_matches('\u{feff}').split('\n').collect();
                for one in &mistakes {
                    let width = lines[one.line - 1].chars().count();
                    assert!(
                        one.length >= 1 && one.column + one.length <= width.max(1) + 1,
                        "{one:?}"
                    );
                }
                told("p", &text, &mistakes, true);
            }
        }
    }
    assert!(read_well > 100, "{read_well}");
}
