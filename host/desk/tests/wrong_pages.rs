//! Pages with mistakes, through the built program: one of each row of the table in docs/DESK.md, told all at once, in the order of the page, with its place, its line and marks under what is meant.
//!
//! In the pages below, what is meant stands between « and », which are no part of the page.

mod common;

use common::{called, fed, Folder};

/// A part of a page that is to be marked.
#[derive(Debug, PartialEq, Eq)]
struct Mark {
    line: usize,
    column: usize,
    length: usize,
}

/// A page without its signs « and », and what stands between them.
fn marked(text: &str) -> (String, Vec<Mark>) {
    let (mut page, mut marks) = (String::new(), Vec::new());
    for (line, text) in (1..).zip(text.split_inclusive('\n')) {
        let mut column = 1;
        for sign in text.chars() {
            match sign {
                '«' => marks.push(Mark { line, column, length: 0 }),
                '»' => {
                    let mark = marks.last_mut().expect("a mark is open");
                    mark.length = column - mark.column;
                }
                _ => {
                    page.push(sign);
                    column += 1;
                }
            }
        }
    }
    (page, marks)
}

/// What is told of a page: for each mark its place and words, the line, and marks below it.
fn expected(name: &str, text: &str, words: &[&str]) -> (String, Vec<[String; 3]>) {
    let (page, marks) = marked(text);
    assert_eq!(marks.len(), words.len(), "{marks:?}");
    let lines: Vec<&str> = page.lines().collect();
    let told = marks.iter().zip(words).map(|(Mark { line, column, length }, words)| {
        let margin = " ".repeat(line.to_string().len());
        [
            format!("{name}:{line}:{column}: {words}"),
            format!("  {line} | {}", lines[line - 1]).trim_end().to_string(),
            format!("  {margin} | {}{}", " ".repeat(column - 1), "^".repeat(*length)),
        ]
    });
    let told = told.collect();
    (page, told)
}

/// These are the mistakes of a page, by words with which they begin, and the second reader finds
/// them at the same places.
fn wrong(text: &str, words: &[&str]) {
    let (page, told) = expected("a page.md", text, words);
    let folder = Folder::new();
    folder.write("a page.md", &page);
    let called = called(&folder.0, &["search", "a page.md"]);
    assert_eq!((called.status, called.out.as_str()), (2, ""), "{}", called.errors);
    compared(&called.errors, &told);
    let places = checker::page::read(page.as_bytes()).expect_err("it has mistakes");
    let places: Vec<(usize, usize)> = places.iter().map(|at| (at.line, at.column)).collect();
    let marks: Vec<(usize, usize)> =
        marked(text).1.iter().map(|mark| (mark.line, mark.column)).collect();
    assert_eq!(places, marks);
}

/// Lines as they are told: the first of three begins with these words, the others are these.
fn compared(errors: &str, told: &[[String; 3]]) {
    let lines: Vec<&str> = errors.lines().collect();
    for (lines, [words, line, marks]) in lines.chunks(3).zip(told) {
        assert!(lines[0].starts_with(words), "{words}\n{errors}");
        assert_eq!(lines[1..], [line, marks], "{errors}");
    }
    assert_eq!(lines.len(), 3 * told.len(), "{errors}");
}

/// The columns and the dashes of a side.
const COLUMNS: &str = "| state | holds | transitions |\n|---|---|---|\n";

#[test]
fn as_it_is_printed() {
    let page = "\
## Kernel
| state | holds | transitions |
|---|---|---|
| free | | tick to free; read lock to hold; read thumbnail to job |
| held | held | tick to held; read release to free |
| job | thumb | send done to free; read stop to free; send more to held |

## Hosts

| state | holds | transitions |
|---|---|---|
| idle | | tick to idle |

## Rules

1. The host drags only while the drag holds the lock.

       AG (thumbs -> !AX held)

2. A job ends.

       AG (thumb -> AF !thumb
";
    let printed = "\
lock.md:4:39: no state 'hold' in Kernel; there is 'held' (5)
  4 | | free | | tick to free; read lock to hold; read thumbnail to job |
    |                                       ^^^^
lock.md:6:1: 'job' is neither input, output-only nor delayed: it sends 'done' beside reading 'stop' and sending 'more'; a state that sends has that one transition, or beside it a tick (6)
  6 | | job | thumb | send done to free; read stop to free; send more to held |
    | ^
lock.md:8:4: no section Host, and '## Hosts' is nearly so: write '## Host'
  8 | ## Hosts
    |    ^^^^^
lock.md:10:1: a table of a side that isn't read: a side is the first table below '## Kernel', '## Host' or '## Third'
  10 | | state | holds | transitions |
     | ^
lock.md:18:12: no label 'thumbs'; there is 'thumb' (7)
  18 |        AG (thumbs -> !AX held)
     |            ^^^^^^
lock.md:22:25: the formula ends too early: ')' is missing (19)
  22 |        AG (thumb -> AF !thumb
     |                         ^^^^^
";
    let folder = Folder::new();
    folder.write("lock.md", page);
    for verb in ["search", "judge", "why", "show", "run"] {
        let called = called(&folder.0, &[verb, "lock.md"]);
        assert_eq!((called.status, called.out.as_str()), (2, ""), "{verb}");
        assert_eq!(called.errors, printed, "{verb}");
    }
    let read = fed(&folder.0, &["show"], page.as_bytes());
    assert_eq!(read.errors, printed.replace("lock.md", "<stdin>"));
    // Nothing is written of a page with mistakes.
    let kept = called(&folder.0, &["search", "lock.md", "--write", "--out", "files"]);
    assert_eq!((kept.status, kept.errors.as_str()), (2, printed));
    assert_eq!(folder.read("lock.md"), page.as_bytes());
    assert!(!folder.path("files").exists());
}

#[test]
fn tables() {
    wrong(
        &format!(
            "\
# Wrong tables

## Kernel

{COLUMNS}\
| free | «A», «p47», «2nd», held «held» | tick to free; read lock to «hold» |
«|» | | tick to free |
| «2free» | | tick to free |
| «free» | | tick to free |
«|» few |
«|» many | | tick to free | |
«|» none | | ; |
| form | | «wait»; «tick» free; «read» to free; «send» done free; «Tick» to free |
| signals | | read «1x» to free; send «é» to free |
| events | | tick to free; «tick» to events; read go to free; «read» go to free |
| nine | | read a to free; read b to free; read c to free; read d to free; read e to free; read f to free; read g to free; tick to free; «read» h to free |
«|» neither | | send done to free; read stop to free; tick to free |

## Host

   | state | holds | transitions
   | - | :-: | --- |
   | idle | | tick to idle
«|» both | | send done to idle; send stop to idle |
"
        ),
        &[
            "'A' is a word of the logic",
            "'p47' is a word of the logic",
            "the label '2nd' isn't a name",
            "the label 'held' stands here twice",
            "no state 'hold' in Kernel (5)",
            "a state without a name",
            "'2free' isn't a name",
            "the state 'free' stands in Kernel for the second time",
            "too few cells, 1",
            "too many cells, 4",
            "a state without transitions",
            "'wait' is no transition",
            "'tick free' is no transition",
            "'read to free' is no transition",
            "'send done free' is no transition",
            "'Tick to free' is no transition",
            "the signal '1x' isn't a name",
            "the signal 'é' isn't a name",
            "'tick' stands in this state for the second time (5)",
            "'read go' stands in this state for the second time (5)",
            "a ninth transition: a state has 8 at most (5)",
            "'neither' is neither input, output-only nor delayed: it sends 'done' beside reading 'stop';",
            "'both' is neither input, output-only nor delayed: it sends 'done' beside sending 'stop';",
        ],
    );
}

#[test]
fn sections() {
    let side = format!("{COLUMNS}| a | | tick to a |\n");
    let unread = side.replacen('|', "«|»", 1);
    wrong(
        &format!(
            "«#» No host\n\n### «Kernel»: a\n\n{unread}\n## «third side» ##\n\n{unread}\n## «Rule»: b\n"
        ),
        &[
            "no section Host: write '## Host'",
            "no section Kernel, and '### Kernel' is nearly so: write '## Kernel'",
            "a table of a side that isn't read",
            "no section Third, and '## third side' is nearly so: write '## Third'",
            "a table of a side that isn't read",
            "no section Rules, and '## Rule' is nearly so: write '## Rules'",
        ],
    );
    wrong(
        &format!("## Kernel\n\n{side}\n## Host\n\n{side}\n## «Kernel»: again\n\n## Verdict\n\n## Words\n\n## Converter\n\n## «Verdict»\n\n## «Converter»: again\n\n## «Verdict»\n"),
        &[
            "the section Kernel stands here for the second time",
            "the section Verdict stands here for the second time",
            "the section Converter stands here for the second time",
            "the section Verdict stands here for the second time",
        ],
    );
    wrong(
        &format!("## «Kernel»: no table\n\nWords.\n\n## «Host»: no state\n\n{COLUMNS}\n## Third\n\nWords.\n\n{side}"),
        &["no table in the section Kernel", "the table of Host has no state: a line is a state (4)"],
    );
    wrong(
        "## Kernel\n\n«|» state | transitions | holds |\n|---|---|---|\n| a | | tick to a |\n\n## Host\n\n«|» state | holds | transitions |\n| a | | tick to a |\n",
        &[
            "the column 'transitions' isn't 'holds': the columns are state, holds, transitions",
            "no line of dashes below the columns",
        ],
    );
}

#[test]
fn too_many() {
    let mut page = format!("## Kernel\n\n{COLUMNS}");
    for state in 0..16 {
        let signal = |own: usize| match 4 * state + own {
            63 => "read «x63» to k0".to_string(),
            signal => format!("read x{signal} to k0"),
        };
        let reads: Vec<String> = (0..4).map(signal).collect();
        page += &format!("| k{state} | | {} |\n", reads.join("; "));
    }
    page += &format!("\n## Host\n\n{COLUMNS}");
    for state in 0..16 {
        page += &format!("| h{state} | l{state} | tick to h0 |\n");
    }
    page += "| «h16» | l3, «l16» | tick to h16 |\n| h17 | l17 | tick to h16 |\n\n## Rules\n";
    for rule in 1..=18 {
        let number = if rule == 17 { "«17»".to_string() } else { rule.to_string() };
        page += &format!("\n{number}. A rule.\n\n        TRUE\n");
    }
    wrong(
        &page,
        &[
            "a 64th signal, 'x63': a page has 63 at most (5)",
            "a 17th state in Host: a side has 16 at most (4)",
            "a 17th label of Host, 'l16': a side has 16 at most",
            "a 17th rule: a page has 16 at most (21)",
        ],
    );
}

/// A page with two labels on each side, and these rules.
fn ruled(rules: &str) -> String {
    format!("## Kernel\n\n{COLUMNS}| k | held, busy | tick to k |\n\n## Host\n\n{COLUMNS}| h | drags, busy | tick to h |\n\n## Rules\n\n{rules}")
}

#[test]
fn rules() {
    wrong(
        &ruled(
            "\
«1».\x20

       AG held

   ~~~
   «AG» drags
   ~~~

«2». A sentence without a formula.

      AG held

«03») The same in a paragraph.
       AG held

4. Words that there aren't.

       AG («hold» «=»«>» drags «1x» «third.busy» «kernel.drags»
       «busy» ((

5. Signs in wrong places.

       AG held «drags»

6. Another.

       AG «&» held

7. Another.

       AG (held «]»

8. Another.

       A «(» held U drags )

9. It ends too early.

       AG («held»

10. It ends too early, over two lines.

        AG (held &

          drags «->»

11. Some path, and every path in wrong places.

        «EX» held & («EG» held | «EF» drags) -> !«E» [ held U drags ]

12. More of them.

        AG («AF» held -> drags & !(«AG» «AX» held)) & («A» [ held U drags ] -> held)
"
            .replace(
                "5. Signs",
                &format!(
                    "5. Brackets.\n\n       {}«(»held{}\n\n5. Signs",
                    "(".repeat(32),
                    ")".repeat(33)
                ),
            )
            .as_str(),
        ),
        &[
            "a rule without a sentence",
            "a second formula in this rule",
            "a rule without a formula",
            "a rule without a formula",
            "no label 'hold'; there is 'held' (7)",
            "there is no sign '=' in formulas; there is '->' (19)",
            "there is no sign '>' in formulas; there is '->' (19)",
            "'1x' is no word of formulas",
            "no label 'third.busy': no side is called 'third' (7)",
            "no label 'drags' in kernel (7)",
            "'busy' is a label of kernel and host: write kernel.busy or host.busy",
            "a 33rd open bracket: 32 at most may be open together (19)",
            "'drags' can't stand here: behind a formula stands '&', '|', '->' or its end (19)",
            "'&' can't stand here: a formula is awaited",
            "']' can't stand here: behind a formula stands '&', '|', '->' or here ')' (19)",
            "'(' can't stand here: behind 'A' and 'E' stands '[' (19)",
            "the formula ends too early: ')' is missing (19)",
            "the formula ends too early: behind '->' a formula is missing (19)",
            "'EX' speaks of some path: rules speak of every path (20)",
            "'EG' speaks of some path: rules speak of every path (20)",
            "'EF' speaks of some path: rules speak of every path (20)",
            "'E' speaks of some path: rules speak of every path (20)",
            "'AF' stands left of '->': nothing that speaks of paths can (20)",
            "'AG' stands under '!': nothing that speaks of paths can (20)",
            "'AX' stands under '!': nothing that speaks of paths can (20)",
            "'A' stands left of '->': nothing that speaks of paths can (20)",
        ],
    );
}

/// Each of these rules makes 22 formula records: eleven labels, ten connectives and AG.
#[test]
fn formula_records() {
    let formula = format!("AG (held{})", " & held".repeat(10));
    let item = |number: &str| format!("{number}. A rule.\n\n       {formula}\n\n");
    let rules = ["1", "2", "«3»", "4", "5", "6"].map(item).concat();
    wrong(&ruled(&rules), &["with this rule there are 66 formula records: 64 at most (21)"]);
}

#[test]
fn other_bytes() {
    let folder = Folder::new();
    let page = [ruled("").as_bytes(), "é é".as_bytes(), b"\xe9 \n\nTwo \xfc"].concat();
    folder.write("latin.md", &page);
    let called = called(&folder.0, &["why", "latin.md"]);
    let printed = "\
latin.md:15:4: the byte 233 isn't UTF-8 text: save the page as UTF-8
  15 | é é\u{fffd}
     |    ^
";
    assert_eq!((called.status, called.out.as_str(), called.errors.as_str()), (2, "", printed));
    for (empty, shown) in [("", "  1 |"), ("\u{feff}", "  1 |"), ("\r\nwords", "  1 |")] {
        let called = fed(&folder.0, &["judge"], empty.as_bytes());
        let mistake = |name: &str| {
            format!("<stdin>:1:1: no section {name}: write '## {name}', and below it the side's table\n{shown}\n    | ^\n")
        };
        assert_eq!((called.status, called.out.as_str()), (2, ""));
        assert_eq!(called.errors, mistake("Kernel") + &mistake("Host"));
    }
}

/// Mistakes of the converter are told where it is read, and only there.
#[test]
fn converters() {
    let text = format!(
        "## Kernel\n\n{COLUMNS}| off | | tick to off; read press to on |\n| on | | tick to on |\n\n## Host\n\n{COLUMNS}| idle | | tick to idle; send press to idle |\n\n## Converter\n\nWords.\n\n\
| record | names | kernel | host | next |
|---|---|---|---|---|
| 0 | off, idle | tick | tick | 0 |
| | | read press | send press | «4» |
«|» | | tick | tick | 0 |
| «2» | «on» | tick | «ticks» | «-1» |
| 2 | on, «idel» | tick | tick | 2 |
| | | read press | send «pres» | 1 |
| 3 | on, idle | tick | tick | 3 |
«|» | | tick | tick |
"
    );
    let words = [
        "there is no record 4: 4 stand here (11)",
        "the sides do the same here as in a line above, in the same record (11)",
        "record '2' stands where record 1 should",
        "not one name for each side: kernel, host",
        "'ticks' is none of 'tick', 'read X' and 'send X'",
        "'-1' isn't the number of a record (11)",
        "no state 'idel' in host; there is 'idle'",
        "no signal 'pres'; there is 'press'",
        "too few cells, 4",
    ];
    let (page, told) = expected("page.md", &text, &words);
    let folder = Folder::new();
    folder.write("page.md", &page);
    for verb in ["judge", "show", "run"] {
        let called = called(&folder.0, &[verb, "page.md"]);
        assert_eq!((called.status, called.out.as_str()), (2, ""), "{verb}");
        compared(&called.errors, &told);
    }
    let read = checker::page::read(page.as_bytes()).expect("the sides are sound");
    let places = checker::page::read_converter(page.as_bytes(), &read.names);
    let places = places.expect_err("the converter isn't");
    let places: Vec<(usize, usize)> = places.iter().map(|at| (at.line, at.column)).collect();
    let marks = marked(&text).1;
    assert_eq!(places, marks.iter().map(|mark| (mark.line, mark.column)).collect::<Vec<_>>());
    for verb in ["search", "why"] {
        assert_eq!(called(&folder.0, &[verb, "page.md"]).status, 0, "{verb}");
    }
}
