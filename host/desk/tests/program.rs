//! The built program: every verb, option and exit status, files and standard input, what it writes and how long it takes.

mod common;
#[allow(dead_code)]
#[path = "../../bench/src/inputs.rs"]
mod inputs;

use std::ffi::OsStr;
use std::fs;
use std::io::Write;
use std::os::unix::ffi::OsStrExt;
use std::path::Path;
use std::process::{Command, Stdio};
use std::time::{Duration, Instant};

use checker::bytes::{
    converter_bytes, positions, read_blocks, read_converter_memory, read_design, write_blocks,
    Record,
};
use checker::generate::{page as random_page, Random};
use common::{called, example, fed, program, run, Called, Folder};
use gorzhani::{BLOCK, BLOCK_RECORDS, CELL, MOST_RULES, RECORD};

/// A bell rings at any time, and the door opens at the next tick.
const DOOR: &str = "\
# The door

Words in front.

## Kernel: the door

| state | holds | transitions |
|---|---|---|
| shut | | tick to shut; read ring to wide |
| wide | open | tick to shut |

## Host: the bell

| state | holds | transitions |
|---|---|---|
| still | | tick to still; send ring to rung |
| rung | rang | tick to still |

## Rules

1. Whenever it rang, the door opens.

       AG (rang -> AX open)
";

/// A rule that can't be kept beside the first.
const SHUT: &str = "\n2. The door stays shut.\n\n       AG !open\n";

/// A converter for the door: the ring is passed on one tick later.
const PASSED_ON: &str = "
## Converter

| record | names | kernel | host | next |
|---|---|---|---|---|
| 0 | shut, still | tick | tick | 0 |
| | | tick | send ring | 1 |
| 1 | shut, rung | read ring | tick | 2 |
| 2 | wide, still | tick | tick | 0 |
| | | tick | send ring | 1 |
";

/// The door with this converter.
fn door_with(converter: &str) -> String {
    [DOOR, converter].concat()
}

const YES: &str = "Yes: by the library's judge the converter of 3 records is matched to the tables and keeps the one rule on every path.\n";

/// The status, and whether standard output and standard error have something.
fn ended(called: &Called) -> (i32, bool, bool) {
    (called.status, !called.out.is_empty(), !called.errors.is_empty())
}

/// Standard output has something, standard error nothing.
fn answers(status: i32) -> (i32, bool, bool) {
    (status, true, false)
}

/// Standard error alone has something.
const MISTAKE: (i32, bool, bool) = (2, false, true);

/// A mistake that is told in these words.
fn mistaken(called: &Called, words: &str) {
    assert_eq!(ended(called), MISTAKE, "{called:?}");
    assert!(called.errors.contains(words), "'{words}' in {}", called.errors);
}

/// A text with one blank between the words of a line.
fn squeezed(text: &str) -> Vec<String> {
    text.lines().map(|line| line.split_whitespace().collect::<Vec<&str>>().join(" ")).collect()
}

fn design_of(page: &str) -> Vec<u8> {
    checker::page::read(page.as_bytes()).expect("the page is sound").design
}

/// The converter of a page, by the second checker.
fn converter_of(page: &str) -> Option<Vec<Record>> {
    let names = checker::page::read(page.as_bytes()).expect("the page is sound").names;
    checker::page::read_converter(page.as_bytes(), &names).expect("the table is sound")
}

/// The records of a converter file, by the second checker.
fn records(blocks: &[u8]) -> Vec<Record> {
    let mut memory = vec![0; RECORD * BLOCK_RECORDS * (blocks.len() / BLOCK)];
    let count = read_blocks(blocks, &mut memory).expect("it is a converter file");
    read_converter_memory(&memory[..RECORD * count]).expect("the records are right")
}

/// The file of a converter, by the second checker.
fn file_of(records: &[Record]) -> Vec<u8> {
    let mut blocks = vec![0; BLOCK * records.len()];
    let count = write_blocks(&converter_bytes(records), &mut blocks).expect("there is room");
    blocks.truncate(BLOCK * count);
    blocks
}

/// What the second checker's judge says.
fn judged(design: &[u8], records: &[Record]) -> Result<(), u8> {
    let (mut work, mut waits) = (vec![0; CELL * records.len()], [0; MOST_RULES]);
    checker::judge(design, &converter_bytes(records), &mut work, &mut waits)
}

#[test]
fn help() {
    let folder = Folder::new();
    let all = called(&folder.0, &["--help"]);
    assert_eq!(ended(&all), answers(0));
    for words in [["help"], ["-h"]] {
        assert_eq!(called(&folder.0, &words).out, all.out);
    }
    let options: [(&str, &[&str]); 5] = [
        ("search", &["--write", "--out DIR", "--svg"]),
        ("judge", &["FILE.converter"]),
        ("why", &["PAGE"]),
        ("show", &["--dot", "--svg", "FILE.design", "FILE.converter"]),
        ("run", &["TICKS", "restart", "quit"]),
    ];
    for (verb, options) in options {
        assert!(all.out.contains(&format!("\n  {verb} ")), "{}", all.out);
        let own = called(&folder.0, &[verb, "no such file", "--help"]);
        assert_eq!(ended(&own), answers(0), "{verb}");
        assert!(own.out.starts_with(&format!("usage: gorzhani {verb} ")), "{}", own.out);
        for option in options.iter().chain(&["Exit status: 0"]) {
            assert!(own.out.contains(option), "{option} in {}", own.out);
        }
    }
    assert_eq!(ended(&called(&folder.0, &["--version"])), answers(0));
    let none = called(&folder.0, &[]);
    mistaken(&none, "no verb");
    assert!(none.errors.contains(&all.out));
}

#[test]
fn wrong_calls() {
    let folder = Folder::new();
    folder.write("door.md", DOOR);
    folder.write("door.design", design_of(DOOR));
    for (words, told) in [
        (&["serach", "door.md"][..], "no verb 'serach'; there is 'search'"),
        (&["door.md"], "no verb 'door.md'"),
        (&["search", "--wirte", "door.md"], "no option '--wirte'; there is '--write'"),
        (&["judge", "--dot", "door.md"], "judge has no option '--dot'"),
        (&["show", "door.md", "--dott=x"], "no option '--dott'; there is '--dot'"),
        (&["search", "--write=yes", "door.md"], "--write takes no value"),
        (&["search", "door.md", "--out"], "--out wants a folder"),
        (&["search", "door.md", "other.md"], "'other.md'"),
        (&["why", "door.md", "other.md"], "'other.md'"),
        (&["judge", "door.md", "a", "b"], "'b'"),
        (&["show", "--dot", "--svg", "door.md"], "--dot or --svg"),
        (&["search", "--svg", "door.md"], "--write or --out"),
        (&["judge", "-", "-"], "standard input"),
        (&["run"], "wants the page as a file"),
        (&["run", "-"], "wants the page as a file"),
        (&["search", "--write", "door.design"], "door.design: --write fills in a page"),
        (&["search", "none.md"], "none.md: No such file"),
        (&["judge", "door.md", "none.converter"], "none.converter: No such file"),
        (&["run", "door.md", "none.txt"], "none.txt: No such file"),
        (&["why", "."], ".: Is a directory"),
        (&["search", "door.md", "--out", "door.design"], "door.design: "),
    ] {
        mistaken(&called(&folder.0, words), told);
    }
    let mut command = program(&folder.0, &["search"]);
    command.arg(OsStr::from_bytes(b"\xff.md"));
    mistaken(&run(command, b""), "isn't text");
    // Behind -- words are files.
    folder.write("--dot", DOOR);
    assert_eq!(ended(&called(&folder.0, &["show", "--", "--dot"])), answers(0));
}

/// A page, a page from standard input, a design: the same converter.
#[test]
fn searching() {
    let folder = Folder::new();
    folder.write("door.md", DOOR);
    let page = called(&folder.0, &["search", "door.md"]);
    assert_eq!(ended(&page), answers(0));
    // 2 × 2 states; kept are the rule and what AX speaks of.
    for part in [
        "# The door\n",
        "## Rules\n\n1. Whenever it rang, the door opens.\n\n       AG (rang -> AX open)\n",
        "\n2 and 2 states, 5 formulas, 2 kept, 0 of kind 8: 16 positions.\n",
        "- states of the kernel: 0 shut, 1 wide\n- states of the host: 0 still, 1 rung\n- signals: 1 ring\n- labels: p0 open, p16 rang\n",
        "    AG (p16 -> AX p0)\n",
    ] {
        assert!(page.out.contains(part), "{part} in {}", page.out);
    }
    let (_, converter) = page.out.split_once("## Converter\n").expect("it is printed");
    let found = converter_of(&door_with(&format!("\n## Converter\n{converter}")));
    let found = found.expect("there is a table");
    assert_eq!(judged(&design_of(DOOR), &found), Ok(()));
    for words in [&["search"][..], &["search", "-"]] {
        let read = fed(&folder.0, words, DOOR.as_bytes());
        assert_eq!((ended(&read), &read.out), (answers(0), &page.out));
    }
    let none = fed(&folder.0, &["search"], [DOOR, SHUT].concat().as_bytes());
    assert_eq!(ended(&none), answers(1));
    assert!(none.out.contains("No converter of any size keeps these rules"), "{}", none.out);
    assert!(none.out.contains("## Converter\n\nNone exists.\n"), "{}", none.out);

    // The files are what the second checker reads.
    let written = called(&folder.0, &["search", "door.md", "--out", "new/files"]);
    assert_eq!((ended(&written), &written.out), (answers(0), &page.out));
    assert_eq!(folder.read("new/files/door.design"), design_of(DOOR));
    read_design(&folder.read("new/files/door.design")).expect("it is sound");
    assert_eq!(records(&folder.read("new/files/door.converter")), found);
    assert_eq!(folder.read("door.md"), DOOR.as_bytes());
    let again = called(&folder.0, &["search", "new/files/door.design", "--out=again"]);
    assert_eq!(ended(&again), answers(0));
    for name in ["door.design", "door.converter"] {
        assert_eq!(
            folder.read(&format!("again/{name}")),
            folder.read(&format!("new/files/{name}"))
        );
    }
    // Of a design without a converter one file is written; a converter from before stays, and is told.
    folder.write("door.md", [DOOR, SHUT].concat());
    let none = called(&folder.0, &["search", "door.md", "--out", "again"]);
    assert_eq!(ended(&none), (1, true, true));
    assert!(none.errors.contains("door.converter"), "{}", none.errors);
    assert_eq!(folder.read("again/door.design"), design_of(&[DOOR, SHUT].concat()));
    let none = called(&folder.0, &["search", "door.md", "--out", "third"]);
    assert_eq!(ended(&none), answers(1));
    assert!(!folder.path("third/door.converter").exists());
}

/// Only the two sections are written; every other byte stays.
#[test]
fn filling_in() {
    let folder = Folder::new();
    let sections = |behind: &str| {
        format!("{DOOR}\n## Converter\n\nOld.\n\n## Verdict  ##\n\nOld.\n\n## Words\n\t trailing  \n\n\n# End{behind}")
    };
    let pages = [
        DOOR.to_string(),
        DOOR.trim_end().to_string(),
        sections(""),
        sections("\n \n"),
        format!("\u{feff}{}", sections("\n")),
    ];
    for lf in pages {
        for page in [lf.clone(), lf.replace('\n', "\r\n")] {
            folder.write("a door.md", &page);
            let written = called(&folder.0, &["search", "a door.md", "--write"]);
            assert_eq!(ended(&written), answers(0));
            assert!(written.out.starts_with("a door.md: A converter exists."), "{}", written.out);
            let filled = String::from_utf8(folder.read("a door.md")).expect("it is text");
            assert_eq!(kept(&filled), kept(&page));
            let mut headings = page.lines().filter(|line| line.starts_with('#'));
            assert!(headings.all(|heading| filled.contains(heading)) && !filled.contains("Old."));
            let ends = |end: &str| filled.matches(end).count();
            let crlf = if page.contains("\r\n") { ends("\n") } else { 0 };
            assert_eq!(ends("\r\n"), crlf, "{filled:?}");
            let found = converter_of(&filled).expect("there is a table");
            assert_eq!(judged(&design_of(&page), &found), Ok(()));
            // Standard input gives the page, and what is filled in stays.
            let piped = fed(&folder.0, &["search", "--write"], page.as_bytes());
            assert_eq!((ended(&piped), piped.bytes), (answers(0), filled.clone().into_bytes()));
            let again = called(&folder.0, &["search", "a door.md", "--write"]);
            assert_eq!(
                (ended(&again), folder.read("a door.md")),
                (answers(0), filled.into_bytes())
            );
        }
    }
    folder.write("none.md", [DOOR, SHUT, PASSED_ON].concat());
    let none = called(&folder.0, &["search", "none.md", "--write"]);
    assert_eq!(ended(&none), answers(1));
    let filled = String::from_utf8(folder.read("none.md")).expect("it is text");
    assert!(filled.starts_with(&[DOOR, SHUT, "\n## Converter\n"].concat()), "{filled}");
    assert!(filled.contains("No converter of any size"), "{filled}");
    assert_eq!(converter_of(&filled), None);
}

/// A page without the bodies of the two sections; where a section is missing, without the whole of it.
fn kept(page: &str) -> String {
    let mut kept = String::new();
    let mut own = false;
    for line in page.split_inclusive('\n') {
        if line.starts_with("# ") || line.starts_with("## ") {
            own = ["## Verdict", "## Converter"].iter().any(|name| line.starts_with(name));
        }
        if !own {
            kept += line;
        }
    }
    kept.trim_end().to_string()
}

/// A `dot` that says what it was called with, and keeps what it reads. It is written by another
/// process, so that no child of this one holds it open.
fn dot(folder: &Folder, script: &str) -> String {
    let mut shell = Command::new("sh");
    shell.args(["-c", "mkdir -p bin && cat > bin/dot && chmod +x bin/dot"]).current_dir(&folder.0);
    assert_eq!(run(shell, script.as_bytes()).status, 0);
    format!("{}:/usr/bin:/bin", folder.path("bin").display())
}

/// Calls the program with this search path.
fn with_path(folder: &Folder, path: &str, words: &[&str], input: &str) -> Called {
    let mut command = program(&folder.0, words);
    command.env("PATH", path);
    run(command, input.as_bytes())
}

#[test]
fn pictures() {
    let folder = Folder::new();
    folder.write("door.md", door_with(PASSED_ON));
    let drawn = called(&folder.0, &["show", "--dot", "door.md"]);
    assert_eq!(ended(&drawn), answers(0));
    let path = dot(&folder, "#!/bin/sh\necho \"<svg $*>\"\ncat > read.dot\n");
    let svg = with_path(&folder, &path, &["show", "--svg", "door.md"], "");
    assert_eq!((ended(&svg), svg.out.as_str()), (answers(0), "<svg -Tsvg>\n"));
    assert_eq!(folder.read("read.dot"), drawn.bytes);

    let page = with_path(&folder, &path, &["search", "--write", "--svg", "door.md"], "");
    assert_eq!(ended(&page), answers(0));
    assert_eq!(folder.read("door.svg"), b"<svg -Tsvg>\n");
    let filled = String::from_utf8(folder.read("door.md")).expect("it is text");
    assert!(filled.contains("](<door.svg>)\n"), "{filled}");
    assert!(converter_of(&filled).is_some());
    let files = with_path(&folder, &path, &["search", "--out", "files", "--svg", "-"], DOOR);
    assert_eq!(ended(&files), answers(0));
    assert_eq!(folder.read("files/design.svg"), b"<svg -Tsvg>\n");
    assert!(!files.out.contains("svg"), "{}", files.out);

    let failing = dot(&folder, "#!/bin/sh\necho it broke >&2\nexit 3\n");
    mistaken(&with_path(&folder, &failing, &["show", "--svg"], DOOR), "it broke");
    let none = folder.path("none").display().to_string();
    mistaken(&with_path(&folder, &none, &["show", "--svg"], DOOR), "`dot` was not found");
    let words = ["search", "--write", "--svg", "door.md"];
    mistaken(&with_path(&folder, &none, &words, ""), "`dot` was not found");
    assert_eq!(folder.read("door.md"), filled.as_bytes());
}

/// Graphviz takes what is drawn, where it is on the machine.
#[test]
fn real_pictures() {
    let folder = Folder::new();
    folder.write("door.md", door_with(PASSED_ON));
    let svg = called(&folder.0, &["show", "--svg", "door.md"]);
    if Command::new("dot").arg("-V").stderr(Stdio::null()).status().is_err() {
        return mistaken(&svg, "`dot` was not found");
    }
    assert_eq!(ended(&svg), answers(0));
    assert!(svg.out.contains("<svg") && svg.out.contains("wide"), "{}", svg.out);
}

#[test]
fn judging() {
    let folder = Folder::new();
    folder.write("door.md", DOOR);
    folder.write("own.md", door_with(PASSED_ON));
    folder.write("door.design", design_of(DOOR));
    let passed_on = converter_of(&door_with(PASSED_ON)).expect("there is a table");
    folder.write("door.converter", file_of(&passed_on));
    for words in [
        &["judge", "own.md"][..],
        &["judge", "own.md", "door.converter"],
        &["judge", "door.md", "door.converter"],
        &["judge", "door.design", "door.converter"],
    ] {
        let called = called(&folder.0, words);
        assert_eq!((ended(&called), called.out.as_str()), (answers(0), YES));
    }
    for (words, input) in [
        (&["judge"][..], folder.read("own.md")),
        (&["judge", "-", "door.converter"], folder.read("door.design")),
        (&["judge", "door.md", "-"], folder.read("door.converter")),
    ] {
        let called = fed(&folder.0, words, &input);
        assert_eq!((ended(&called), called.out.as_str()), (answers(0), YES));
    }
    for (words, told) in [
        (&["judge", "door.md"][..], "door.md: no converter"),
        (&["judge", "door.design"], "door.design: no converter"),
        (&["judge", "door.converter"], "door.converter: "),
        (&["judge", "door.md", "door.design"], "door.design: "),
        (&["judge", "door.md", "own.md"], "own.md: "),
    ] {
        mistaken(&called(&folder.0, words), told);
    }
}

/// The converter on the page, edited by hand: the bell isn't let ring; it rings and the door stays shut.
#[test]
fn judging_what_was_edited() {
    let folder = Folder::new();
    let judge = |converter: &str| fed(&folder.0, &["judge"], door_with(converter).as_bytes());
    let unmatched = PASSED_ON.replacen("| | | tick | send ring | 1 |\n", "", 1);
    let called = judge(&unmatched);
    assert_eq!(ended(&called), answers(1));
    assert_eq!(
        called.out,
        "No: by the library's judge the converter of 3 records isn't matched to the tables (14).\n\n\
         Record 0 (shut, still) isn't matched: the host may send 'ring' here, and no transition lets it.\n"
    );

    let failing = PASSED_ON.replace("| read ring | tick | 2 |", "| tick | tick | 0 |");
    let called = judge(&failing);
    assert_eq!(ended(&called), answers(1));
    let lines = squeezed(&called.out);
    let expected = [
        "No: by the library's judge the converter of 3 records is matched to the tables, and some rule fails (15).",
        "",
        "Rule 1 fails: Whenever it rang, the door opens.",
        "AG (rang -> AX open)",
        "tick kernel host record holds",
        "0 shut still 0",
        "1 shut tick rung send ring 1 rang",
        "2 shut tick still tick 0",
    ];
    let ticks: Vec<&str> =
        lines.iter().map(String::as_str).filter(|line| expected.contains(line)).collect();
    assert_eq!(ticks, expected, "{}", called.out);

    // The door opens without a ring: that is legal, and noted.
    let eager = PASSED_ON.replacen("| tick | tick | 0 |", "| read ring | tick | 2 |", 1);
    assert_eq!(
        converter_of(&door_with(&eager)).map(|records| judged(&design_of(DOOR), &records)),
        Some(Ok(()))
    );
    let called = judge(&eager);
    assert_eq!(ended(&called), answers(0));
    assert!(called.out.starts_with(YES), "{}", called.out);
    assert!(called.out.contains("Note: 'ring' can be delivered to the kernel more often than it was sent: here 1 time, after 0 sends."), "{}", called.out);
}

/// The line above the waits.
const WAITS: &str = "How long rules wait at the most, by the library's judge:\n";

/// Rules behind the door's: two untils, and between them one that has an until inside.
const WAITING: &str = "
2. The door opens.

       AF open

3. Again and again the door opens.

       AG AF open

4. The bell has rung, or has not rung yet.

       A [ rang U !rang & !open ]
";

/// The door opens after one tick or, if the bell rings then, after two.
#[test]
fn how_long_rules_wait() {
    let folder = Folder::new();
    let eager = PASSED_ON.replacen("| tick | tick | 0 |", "| read ring | tick | 2 |", 1);
    let page = [DOOR, WAITING, &eager].concat();
    folder.write("own.md", &page);
    let list = "
- rule 2, `AF open`: 2 ticks
- rule 4, `A [ rang U !rang & !open ]`: 0 ticks, since `!rang & !open` holds at the start
";
    let waits = format!("{WAITS}{list}");
    let yes = YES.replace("the one rule", "all 4 rules");
    let judged = called(&folder.0, &["judge", "own.md"]);
    assert_eq!(ended(&judged), answers(0));
    assert!(judged.out.starts_with(&format!("{yes}\n{waits}\nNote: 'ring'")), "{}", judged.out);
    let shown = called(&folder.0, &["show", "own.md"]);
    let (verdict, _) = shown.out.split_once("\nNumbers:\n").expect("it has numbers");
    assert_eq!(verdict.matches(&format!(" positions.\n\n{waits}\nNote: 'ring'")).count(), 1);
    // By its bytes it has numbers for names, and no AF.
    folder.write("own.design", design_of(&page));
    folder.write("own.converter", file_of(&converter_of(&page).expect("there is a table")));
    let judged = called(&folder.0, &["judge", "own.design", "own.converter"]);
    let list = "
- rule 2, `A [ TRUE U l0 ]`: 2 ticks
- rule 4, `A [ l16 U !l16 & !l0 ]`: 0 ticks, since `!l16 & !l0` holds at the start
";
    assert!(judged.out.starts_with(&format!("{yes}\n{WAITS}{list}\n")), "{}", judged.out);

    // The search's own converter, in the answer, on the page, and read from there.
    let source = [DOOR, WAITING].concat();
    folder.write("found.md", &source);
    let found = called(&folder.0, &["search", "found.md"]);
    assert_eq!(ended(&found), answers(0));
    let told = |text: &str| {
        let (_, list) = text.split_once(WAITS).expect("it tells waits");
        list.split_once("\n\n").expect("something follows").0.to_string()
    };
    assert_eq!(called(&folder.0, &["search", "found.md", "--write"]).status, 0);
    let written = String::from_utf8(folder.read("found.md")).expect("a page is text");
    assert_eq!(told(&written), told(&found.out));
    assert_eq!(design_of(&written), design_of(&source));
    let again = called(&folder.0, &["judge", "found.md"]);
    assert_eq!(ended(&again), answers(0));
    assert_eq!(told(&again.out), told(&found.out));

    // A no has no waits, and neither has a page without such a rule.
    folder.write("found.md", [DOOR, WAITING, PASSED_ON].concat());
    folder.write("door.md", door_with(PASSED_ON));
    for (words, status) in [
        (["judge", "found.md"], 1),
        (["show", "found.md"], 0),
        (["search", "door.md"], 0),
        (["judge", "door.md"], 0),
        (["show", "door.md"], 0),
    ] {
        let called = called(&folder.0, &words);
        assert_eq!(ended(&called), answers(status), "{words:?}");
        assert!(!called.out.contains("wait") && !called.out.contains("- rule"), "{}", called.out);
    }
}

/// The example with the drag that waits, edited by hand: it waits for one tick more.
#[test]
fn a_longer_wait() {
    let folder = Folder::new();
    let page = example("lock-waiting");
    let wait = |page: &str| {
        let judged = fed(&folder.0, &["judge"], page.as_bytes());
        assert_eq!(ended(&judged), answers(0), "{}", judged.out);
        judged.out.lines().find_map(|line| {
            line.strip_prefix("- rule 2, `A [ !thumb U drags ]`: ").map(str::to_string)
        })
    };
    assert_eq!(wait(&page), Some("1 tick".to_string()));
    let changed = |from: &str, to: &str, page: &str| {
        assert_eq!(page.matches(from).count(), 1, "{from} in {page}");
        page.replace(from, to)
    };
    let edited = changed(
        "| read lock      | read go    | 1    |",
        "| tick           | tick       | 7    |",
        &page,
    );
    let edited = changed(
        "| tick           | tick       | 0    |",
        "| read lock      | read go    | 1    |",
        &edited,
    );
    assert_eq!(wait(&edited), Some("2 ticks".to_string()));
}

/// A lamp that the converter lights after so many ticks as it has records before.
#[test]
fn a_wait_of_many_ticks() {
    let folder = Folder::new();
    let mut page = String::from(
        "\
## Kernel

| state | holds | transitions |
|---|---|---|
| dark | | tick to dark; read light to bright |
| bright | shines | tick to bright |

## Host

| state | holds | transitions |
|---|---|---|
| still | | tick to still |

## Rules

1. The lamp shines in the end.

       AF shines

## Converter

| record | names | kernel | host | next |
|---|---|---|---|---|
",
    );
    for record in 0..1_233 {
        page += &format!("| {record} | dark, still | tick | tick | {} |\n", record + 1);
    }
    page += "| 1233 | dark, still | read light | tick | 1234 |\n";
    page += "| 1234 | bright, still | tick | tick | 1234 |\n";
    let judged = fed(&folder.0, &["judge"], page.as_bytes());
    assert_eq!(ended(&judged), answers(0), "{}", judged.errors);
    assert!(judged.out.ends_with("\n\n- rule 1, `AF shines`: 1,234 ticks\n"), "{}", judged.out);
}

#[test]
fn damaged_files() {
    let folder = Folder::new();
    folder.write("own.md", door_with(PASSED_ON));
    let converter = file_of(&converter_of(&door_with(PASSED_ON)).expect("there is a table"));
    let design = design_of(DOOR);
    // A byte is missing; a byte is another, so that the check is wrong.
    for (number, damage) in [(1, true), (2, false)] {
        let damaged = |bytes: &[u8]| {
            let mut bytes = bytes.to_vec();
            match damage {
                true => drop(bytes.pop()),
                false => bytes[300] += 1,
            }
            bytes
        };
        folder.write("bad.converter", damaged(&converter));
        folder.write("bad.design", damaged(&design));
        for words in [
            &["judge", "own.md", "bad.converter"][..],
            &["show", "bad.converter"],
            &["show", "own.md", "bad.converter"],
        ] {
            mistaken(&called(&folder.0, words), &format!("bad.converter: refused {number}: "));
        }
        for verb in ["search", "judge", "why", "show", "run"] {
            mistaken(
                &called(&folder.0, &[verb, "bad.design"]),
                &format!("bad.design: refused {number}: "),
            );
        }
    }
}

#[test]
fn why() {
    let folder = Folder::new();
    folder.write("door.md", DOOR);
    let exists = called(&folder.0, &["why", "door.md"]);
    assert_eq!(ended(&exists), answers(0));
    assert!(exists.out.starts_with("A converter exists"), "{}", exists.out);
    let none = fed(&folder.0, &["why"], [DOOR, SHUT].concat().as_bytes());
    assert_eq!(ended(&none), answers(1));
    let expected = "\
Rules 1 and 2 can't be kept together; each of them can without the other.
    1. Whenever it rang, the door opens.
       AG (rang -> AX open)
    2. The door stays shut.
       AG !open
No change of one state helps";
    assert!(none.out.starts_with("No converter of any size keeps these rules"), "{}", none.out);
    assert!(none.out.contains(expected), "{}", none.out);
    // A bell that may wait for ever: it helps if it rings at once.
    folder.write("bell.design", design_of(&DOOR.replace("AG (rang -> AX open)", "AF rang")));
    let none = called(&folder.0, &["why", "bell.design"]);
    assert_eq!(ended(&none), answers(1));
    assert!(none.out.contains("Rule 1 can't be kept, even alone."), "{}", none.out);
    assert!(none.out.contains("A converter exists if one thing is changed:\n    Host, s0: without its tick (it then sends 'x1' at once)\n"), "{}", none.out);
}

#[test]
fn showing() {
    let folder = Folder::new();
    let own = door_with(PASSED_ON);
    folder.write("own.md", &own);
    folder.write("door.md", DOOR);
    folder.write("door.design", design_of(DOOR));
    let passed_on = converter_of(&own).expect("there is a table");
    folder.write("door.converter", file_of(&passed_on));
    let show = |words: &[&str]| {
        let called = called(&folder.0, &[&["show"], words].concat());
        assert_eq!(ended(&called), answers(0), "{called:?}");
        called.out
    };
    // A page: its own bytes, the verdict, the converter that stands there.
    let page = show(&["own.md"]);
    assert_eq!(kept(&page), kept(&own));
    assert!(page.contains(YES), "{page}");
    assert_eq!(converter_of(&page), Some(passed_on.clone()));
    assert_eq!(show(&["own.md", "door.converter"]), page);
    assert_eq!(kept(&show(&["door.md"])), kept(DOOR));
    assert!(show(&["door.md"]).contains("No converter stands on this page."));
    let read = fed(&folder.0, &["show"], own.as_bytes());
    assert_eq!((ended(&read), &read.out), (answers(0), &page));
    // Saying no is no mistake here.
    let no = fed(
        &folder.0,
        &["show"],
        own.replace("| read ring | tick | 2 |", "| tick | tick | 0 |").as_bytes(),
    );
    assert_eq!(ended(&no), answers(0));
    assert!(no.out.contains("some rule fails (15)"), "{}", no.out);

    // A design has numbers for names.
    let design = show(&["door.design"]);
    let tables = [
        "| s0 | | tick to s0; read x1 to s1 |",
        "| s1 | l0 | tick to s0 |",
        "| s0 | | tick to s0; send x1 to s1 |",
        "| s1 | l16 | tick to s0 |",
    ];
    let rows: Vec<String> = squeezed(&design)
        .into_iter()
        .filter(|line| line.starts_with("| s") && !line.contains("state"))
        .collect();
    assert_eq!(rows, tables);
    assert_eq!(design_of(&design), design_of(DOOR));
    assert_eq!(converter_of(&design), None);
    let both = show(&["door.design", "door.converter"]);
    assert_eq!((design_of(&both), converter_of(&both)), (design_of(DOOR), Some(passed_on)));
    assert!(both.contains(YES), "{both}");
    let table = [
        "| record | names | kernel | host | next |",
        "| 0 | 0, 0 | tick | tick | 0 |",
        "| | | tick | send x1 | 1 |",
        "| 1 | 0, 1 | read x1 | tick | 2 |",
        "| 2 | 1, 0 | tick | tick | 0 |",
        "| | | tick | send x1 | 1 |",
    ];
    let alone = show(&["door.converter"]);
    let rows: Vec<String> = squeezed(&alone)
        .into_iter()
        .filter(|line| line.starts_with('|') && !line.contains("--"))
        .collect();
    assert_eq!(rows, table);
    // What is read from standard input is known by its bytes.
    for (name, shown) in [("door.design", design), ("door.converter", alone)] {
        let read = fed(&folder.0, &["show", "-"], &folder.read(name));
        assert_eq!(
            (ended(&read), read.out.replacen("# design\n", "# door\n", 1)),
            (answers(0), shown)
        );
    }
    mistaken(&called(&folder.0, &["show", "door.converter", "door.design"]), "door.design");

    // Drawings: of the sides where they are known, and of the converter where there is one.
    for (words, parts, without) in [
        (&["own.md"][..], &["shut", "ring!", "ring?", "wide, still"][..], &["s0"][..]),
        (&["door.md"], &["shut", "ring!"], &["wide, still"]),
        (&["door.design"], &["s0", "x1!", "x1?"], &["shut", "s1, s0"]),
        (&["door.design", "door.converter"], &["x1!", "s1, s0"], &["shut"]),
        (&["door.converter"], &["1, 0", "x1!"], &["shut", "s0"]),
    ] {
        let drawn = show(&[&["--dot"], words].concat());
        assert!(drawn.starts_with("digraph"), "{drawn}");
        assert!(parts.iter().all(|part| drawn.contains(part)), "{words:?} {drawn}");
        assert!(without.iter().all(|part| !drawn.contains(part)), "{words:?} {drawn}");
    }
}

/// The files of the examples, of two sides and of three.
#[test]
fn examples_from_their_files() {
    let folder = common::root().join("examples");
    let mut converters = 0;
    for entry in fs::read_dir(&folder).expect("there are examples") {
        let path = entry.expect("the folder can be read").path();
        if path.extension() != Some(OsStr::new("converter")) {
            continue;
        }
        let (converter, design) = (path.display().to_string(), path.with_extension("design"));
        let design = design.display().to_string();
        let records = records(&fs::read(&path).expect("it can be read"));
        let yes = called(&folder, &["judge", &design, &converter]);
        assert_eq!((yes.status, &yes.out[..5]), (0, "Yes: "), "{design}");
        let shown = called(&folder, &["show", &design, &converter]);
        assert_eq!(ended(&shown), answers(0), "{design}");
        assert_eq!(design_of(&shown.out), fs::read(&design).expect("it can be read"));
        assert_eq!(converter_of(&shown.out), Some(records), "{design}");
        converters += 1;
    }
    assert!(converters > 10, "{converters}");
}

/// The pages that are printed of designs as pages make them give these very designs again.
#[test]
fn printed_and_read_again() {
    let folder = Folder::new();
    let mut random = Random::new(1_105);
    let mut largest = [0; 4];
    for round in 0..400 {
        let made = random_page(&mut random);
        let read = checker::page::read(&made.page).expect("the page is sound");
        folder.write("made.design", &read.design);
        let shown = called(&folder.0, &["show", "made.design"]);
        assert_eq!(ended(&shown), answers(0), "{round}: {}", shown.errors);
        let again = checker::page::read(shown.out.as_bytes());
        let again = again.unwrap_or_else(|places| panic!("{places:?} {}", shown.out));
        assert_eq!(again.design, read.design, "{}", shown.out);
        let sizes = [
            read.names.states.iter().map(Vec::len).max().unwrap_or(0),
            read.names.labels.iter().map(Vec::len).max().unwrap_or(0),
            read.names.signals.len(),
            made.rules,
        ];
        largest = std::array::from_fn(|at| largest[at].max(sizes[at]));
    }
    assert!(
        largest[0] == 16 && largest[1] == 16 && largest[2] > 50 && largest[3] > 12,
        "{largest:?}"
    );
}

/// A design file may number its names otherwise than a page does: that is said.
#[test]
fn printed_with_other_numbers() {
    let folder = Folder::new();
    let design = read_design(&design_of(DOOR)).expect("it is sound");
    let mut other = design.clone();
    for state in other.sides.iter_mut().flatten() {
        state.transitions.iter_mut().for_each(|transition| transition.event *= 5);
    }
    folder.write("other.design", other.to_bytes());
    let shown = called(&folder.0, &["show", "other.design"]);
    assert_eq!(ended(&shown), (0, true, true));
    assert!(shown.out.contains("read x5 to s1"), "{}", shown.out);
    assert_eq!(design_of(&shown.out), design.to_bytes());
}

#[test]
fn running() {
    let folder = Folder::new();
    folder.write("own.md", door_with(PASSED_ON));
    let ticks = "# a ring\nring\n\n  host.tick, kernel.tick\nrestart\nhost.ring\ntick\nquit\nwords behind\n";
    folder.write("ticks.txt", ticks);
    let stands = "\
tick 0: record 0
kernel shut silent
host still may send ring
tick 1: record 1; holds rang
kernel shut tick silent
host rung send ring silent
tick 2: record 2; holds open
kernel wide read ring silent
host still tick may send ring
tick 3: record 0
kernel shut tick silent
host still tick may send ring
tick 0: record 0
kernel shut silent
host still may send ring
tick 1: record 1; holds rang
kernel shut tick silent
host rung send ring silent
tick 2: record 2; holds open
kernel wide read ring silent
host still tick may send ring
5 ticks done, 0 shows refused";
    let run = called(&folder.0, &["run", "own.md", "ticks.txt"]);
    assert_eq!((ended(&run), squeezed(&run.out).join("\n").as_str()), (answers(0), stands));
    for words in [&["run", "own.md"][..], &["run", "own.md", "-"]] {
        let piped = fed(&folder.0, words, ticks.as_bytes());
        assert_eq!((ended(&piped), &piped.out), (answers(0), &run.out));
    }
    let piped = fed(&folder.0, &["run", "-", "ticks.txt"], door_with(PASSED_ON).as_bytes());
    assert_eq!((ended(&piped), &piped.out), (answers(0), &run.out));

    // A bell that rang can't ring: what is allowed is said, and the run stays where it is.
    let refused = fed(&folder.0, &["run", "own.md"], b"ring\nring\ntick\n");
    assert_eq!(ended(&refused), answers(1));
    let lines = squeezed(&refused.out);
    assert_eq!(lines[6], "refused (17), still tick 1: kernel silent; host silent");
    assert_eq!(
        (lines[7].as_str(), lines[10].as_str()),
        ("tick 2: record 2; holds open", "2 ticks done, 1 show refused")
    );

    // Mistakes have their places; the other lines are ticks all the same.
    folder.write("wrong.txt", "rign\nring, host.tick\n  bell.ring\nkernel.ring\n\nhost.rung");
    let wrong = called(&folder.0, &["run", "own.md", "wrong.txt"]);
    assert_eq!(ended(&wrong), (2, true, true));
    assert_eq!(
        wrong.errors,
        "wrong.txt:1:1: no word 'rign'; there is 'ring'\n\
         wrong.txt:2:7: a second word for host\n\
         wrong.txt:3:3: no side 'bell'\n\
         wrong.txt:6:6: no signal 'rung'; there is 'ring'\n"
    );
    assert!(wrong.out.ends_with("1 tick done, 1 show refused\n"), "{}", wrong.out);
}

/// Without a converter on the page one is searched; one that isn't matched doesn't run.
#[test]
fn running_other_pages() {
    let folder = Folder::new();
    folder.write("door.md", DOOR);
    folder.write("door.design", design_of(DOOR));
    for name in ["door.md", "door.design"] {
        let run = fed(&folder.0, &["run", name], b"\n\n");
        assert_eq!(ended(&run), answers(0));
        assert!(run.out.ends_with("2 ticks done, 0 shows refused\n"), "{}", run.out);
    }
    folder.write("none.md", [DOOR, SHUT].concat());
    let none = called(&folder.0, &["run", "none.md"]);
    assert_eq!(ended(&none), answers(1));
    assert!(none.out.starts_with("No converter of any size"), "{}", none.out);
    folder.write(
        "unmatched.md",
        door_with(&PASSED_ON.replacen("| | | tick | send ring | 1 |\n", "", 1)),
    );
    let unmatched = called(&folder.0, &["run", "unmatched.md"]);
    assert_eq!(ended(&unmatched), answers(1));
    assert!(unmatched.out.contains("Record 0 (shut, still) isn't matched: "), "{}", unmatched.out);
    // A rule that fails is told, and the ticks are done.
    folder.write(
        "failing.md",
        door_with(&PASSED_ON.replace("| read ring | tick | 2 |", "| tick | tick | 0 |")),
    );
    let failing = fed(&folder.0, &["run", "failing.md"], b"ring\n\n");
    assert!(failing.errors.contains("some rule fails (15)"), "{}", failing.errors);
    assert!(failing.out.ends_with("2 ticks done, 0 shows refused\n"), "{}", failing.out);
}

/// Calls the program at a terminal, where there is a `script` that makes one.
fn at_a_terminal(
    folder: &Path,
    words: &str,
    terminal: &[(&str, &str)],
    typed: &str,
) -> Option<String> {
    let version = Command::new("script").arg("--version").stdout(Stdio::null()).status();
    version.ok().filter(|status| status.success())?;
    let mut command = Command::new("script");
    let call = format!("'{}' {words}", env!("CARGO_BIN_EXE_gorzhani"));
    command.args(["-qec", &call, "/dev/null"]).current_dir(folder);
    command.env_remove("NO_COLOR").env("TERM", "xterm").envs(terminal.iter().copied());
    Some(run(command, typed.as_bytes()).out.replace('\r', ""))
}

#[test]
fn terminals() {
    let folder = Folder::new();
    folder.write("own.md", door_with(PASSED_ON));
    folder.write("wrong.md", DOOR.replace("to wide", "to wise"));
    let plain = "wrong.md:9:39: no state 'wise' in Kernel; there is 'wide' (5)\n";
    let piped = called(&folder.0, &["search", "wrong.md"]);
    assert!(piped.errors.starts_with(plain), "{}", piped.errors);
    let Some(prompted) = at_a_terminal(&folder.0, "run own.md", &[], "ring\nring\nhelp\nquit\n")
    else {
        return;
    };
    let lines = squeezed(&prompted);
    for line in [
        "tick 1: record 1; holds rang",
        "host rung send ring silent",
        "refused (17), still tick 1: kernel silent; host silent",
        "host sends ring",
    ] {
        // What is typed may be echoed behind the prompt.
        let same = |own: &&str| own.trim_start_matches("> ") == line;
        assert!(lines.iter().any(|own| same(&own.as_str())), "{line} in {prompted}");
    }
    assert!(prompted.contains("> "), "{prompted}");
    let coloured =
        |terminal: &[(&str, &str)]| at_a_terminal(&folder.0, "search wrong.md", terminal, "");
    let colours = coloured(&[]).expect("there is a terminal");
    assert!(
        colours.contains("\x1b[1mwrong.md:9:39:\x1b[0m no state")
            && colours.contains("\x1b[31m^^^^\x1b[0m"),
        "{colours}"
    );
    for terminal in [[("NO_COLOR", "1")], [("TERM", "dumb")]] {
        let colourless = coloured(&terminal).expect("there is a terminal");
        assert!(colourless.contains(plain) && !colourless.contains('\x1b'), "{colourless}");
    }
}

/// A page of two sides with sixteen states that only tick, and so many rules that keep a formula each.
fn large(rules: usize) -> String {
    let mut page = "# Large\n".to_string();
    for (side, label) in [("Kernel", "k"), ("Host", "h")] {
        page += &format!("\n## {side}\n\n| state | holds | transitions |\n|---|---|---|\n");
        for state in 0..16 {
            page += &format!("| {label}{state} | {label} | tick to {label}{state} |\n");
        }
    }
    page += "\n## Rules\n";
    for rule in 1..=rules {
        page += &format!("\n{rule}. A rule.\n\n        AG k\n");
    }
    page
}

/// 16 × 16 × 2^8 positions are the most; what is larger can be judged.
#[test]
fn sizes() {
    let folder = Folder::new();
    folder.write("most.md", large(8));
    let most = called(&folder.0, &["search", "most.md"]);
    assert_eq!((most.status, most.errors.as_str()), (0, "most.md: searching 65,536 positions\n"));
    let found =
        [large(8), most.out.split_once("## Converter\n").expect("one is found").1.to_string()]
            .join("\n## Converter\n");
    assert_eq!(
        judged(&design_of(&large(8)), &converter_of(&found).expect("there is a table")),
        Ok(())
    );

    let own = "\n## Converter\n\n| record | names | kernel | host | next |\n|-|-|-|-|-|\n| 0 | k0, h0 | tick | tick | 0 |\n";
    folder.write("over.md", large(9));
    folder.write("over.design", design_of(&large(9)));
    folder.write("own.md", large(9) + own);
    assert_eq!(positions(&read_design(&design_of(&large(9))).expect("it is sound")), 131_072);
    for words in [
        ["search", "over.md"],
        ["why", "over.md"],
        ["why", "over.design"],
        ["run", "over.md"],
        ["search", "own.md"],
    ] {
        let over = called(&folder.0, &words);
        mistaken(&over, "The design has 131,072 positions, and 65,536 are the most");
        mistaken(&over, "16 × 16 × 2^9");
        mistaken(&over, "rule 9 keeps 1 formula, which is twice as many positions");
    }
    for verb in ["judge", "run", "show"] {
        let called = called(&folder.0, &[verb, "own.md"]);
        assert_eq!(ended(&called), answers(0), "{called:?}");
    }
    assert_eq!(ended(&called(&folder.0, &["show", "over.design"])), answers(0));
}

/// Whoever reads the answer may stop, as `head -1` does.
#[test]
fn closed_output() {
    let folder = Folder::new();
    folder.write("own.md", door_with(PASSED_ON));
    for (words, input, status) in [
        (&["search"][..], DOOR.to_string(), 0),
        (&["search"], [DOOR, SHUT].concat(), 1),
        (&["run", "own.md"], "\n".repeat(10_000), 0),
    ] {
        let mut command = program(&folder.0, words);
        command.stdin(Stdio::piped()).stdout(Stdio::piped()).stderr(Stdio::piped());
        let mut child = command.spawn().expect("the program is there");
        drop(child.stdout.take());
        let mut to = child.stdin.take().expect("its input is a pipe");
        let _ = to.write_all(input.as_bytes());
        drop(to);
        let called = Called::from(child.wait_with_output().expect("it ends"));
        assert_eq!((called.status, called.errors.as_str()), (status, ""), "{words:?}");
    }
    let full = fs::OpenOptions::new().write(true).open("/dev/full");
    if let Ok(full) = full {
        let mut command = program(&folder.0, &["judge", "own.md"]);
        let called = Called::from(command.stdout(full).output().expect("it ends"));
        mistaken(&called, "standard output: ");
    }
}

#[test]
fn closed_errors() {
    let folder = Folder::new();
    let mut command = program(&folder.0, &["search"]);
    command.stdin(Stdio::piped()).stdout(Stdio::piped()).stderr(Stdio::piped());
    let mut child = command.spawn().expect("the program is there");
    drop(child.stderr.take());
    drop(child.stdin.take());
    assert_eq!(Called::from(child.wait_with_output().expect("it ends")).status, 2);
}

#[test]
fn pages_with_a_byte_0() {
    let folder = Folder::new();
    let wide: Vec<u8> =
        "\u{feff}# Wide\n".encode_utf16().flat_map(|unit| unit.to_le_bytes()).collect();
    folder.write("wide.md", wide);
    mistaken(
        &called(&folder.0, &["search", "wide.md"]),
        "wide.md:1:1: the byte 255 isn't UTF-8 text",
    );
    folder.write("zero.md", DOOR.replace("Words", "Words\0"));
    assert_eq!(ended(&called(&folder.0, &["search", "zero.md"])), answers(0));
}

#[test]
fn a_picture_for_a_page_from_standard_input() {
    let folder = Folder::new();
    let path = dot(&folder, "#!/bin/sh\ncat > read.dot\n");
    let page = with_path(&folder, &path, &["search", "--write", "--svg"], DOOR);
    assert!(page.status == 2 || folder.path("design.svg").exists(), "{}", page.out);
}

#[test]
fn ticks_to_a_full_output() {
    let folder = Folder::new();
    folder.write("own.md", door_with(PASSED_ON));
    folder.write("ticks.txt", "tick\n");
    let Ok(full) = fs::OpenOptions::new().write(true).open("/dev/full") else { return };
    let mut command = program(&folder.0, &["run", "own.md", "ticks.txt"]);
    mistaken(&Called::from(command.stdout(full).output().expect("it ends")), "standard output: ");
}

/// The shortest time of three calls, and what came of the last.
fn shortest(folder: &Path, words: &[&str]) -> (Duration, Called) {
    let timed = |_| {
        let start = Instant::now();
        let called = called(folder, words);
        (start.elapsed(), called)
    };
    (0..3).map(timed).min_by_key(|&(time, _)| time).expect("there are three")
}

#[test]
fn examples_take_no_time() {
    if cfg!(debug_assertions) {
        return;
    }
    let folder = Folder::new();
    let mut pages = 0;
    for entry in fs::read_dir(common::root().join("examples")).expect("there are examples") {
        let path = entry.expect("the folder can be read").path();
        let name = path.file_stem().and_then(OsStr::to_str).expect("a name is text").to_string();
        if path.extension() != Some(OsStr::new("md")) || name == "README" {
            continue;
        }
        folder.write("page.md", example(&name));
        for verb in ["search", "why", "show"] {
            let (time, called) = shortest(&folder.0, &[verb, "page.md"]);
            assert!(
                called.status < 2 && time < Duration::from_millis(100),
                "{verb} {name}: {time:?}"
            );
        }
        pages += 1;
    }
    assert!(pages >= 16, "{pages}");
}

/// The largest designs that are measured, of 65,536 positions at most; what takes time is told.
#[test]
fn large_designs_take_less_than_a_second() {
    if cfg!(debug_assertions) {
        return;
    }
    let folder = Folder::new();
    let mut most = 0;
    for (job, sizes) in inputs::searched(4) {
        for design in sizes.last().into_iter().flatten() {
            folder.write("large.design", design.to_bytes());
            let (time, called) = shortest(&folder.0, &["search", "large.design"]);
            assert!(called.status < 2 && time < Duration::from_secs(1), "{job}: {time:?}");
            let positions = positions(design);
            let grouped = format!("{},{:03}", positions / 1_000, positions % 1_000);
            let told = format!("large.design: searching {grouped} positions\n");
            assert_eq!(called.errors, told, "{job}");
            most = most.max(positions);
        }
    }
    assert_eq!(most, 65_536);
}

/// A name may be as long as one likes, and so may a table's column be.
#[test]
fn long_names() {
    let folder = Folder::new();
    let long = "a".repeat(70_000);
    folder.write("long.md", DOOR.replace("shut", &long));
    let found = called(&folder.0, &["search", "long.md"]);
    assert_eq!(ended(&found), answers(0));
    assert!(found.out.contains(&format!("| 0      | {long}, still")));
    let run = fed(&folder.0, &["run", "long.md"], b"tick\n");
    assert_eq!(ended(&run), answers(0));
}
