//! The pages of the examples: each is what the built program writes, what it says is so by the second checker, and the verdicts are those that were thought out beforehand.

mod common;

use std::collections::BTreeSet;
use std::fs;

use checker::bytes::{converter_bytes, positions, read_design, Record};
use checker::none::no_converter;
use common::{called, example, root, Folder};
use gorzhani::{BLOCK, CELL, MOST_RULES, NO_WAIT, RECORD};

/// Whether a converter exists, and the positions: states × 2^kept × untils, by hand.
const EXAMPLES: [(&str, bool, u128); 19] = [
    // 2 × 2 states; three rules, the operand of an AX and an until.
    ("pair", true, 4 * 32),
    // One rule and one until more.
    ("pair-none", false, 4 * 128 * 2),
    // 2 × 2 states; four rules and the operands of four AX.
    ("handshake", true, 4 * 256),
    ("handshake-printed", false, 4 * 256),
    // 3 × 3 states; five rules, of which one is an until, and three more untils.
    ("lock", true, 9 * 256 * 4),
    ("lock-none", false, 9 * 256 * 4),
    // 3 × 3 states; four rules, of which one is an until, and two more untils.
    ("lock-waiting", true, 9 * 64 * 3),
    // 2 × 3 × 3 states; three rules and two untils.
    ("thumbnails", true, 18 * 32 * 2),
    ("thumbnails-none", false, 18 * 32 * 2),
    // 3 × 3 states; four rules, the operands of two AX and an until.
    ("master-slave", true, 9 * 128),
    // 6 × 4 states; four rules and an until.
    ("abp-sender", true, 24 * 32),
    // 8 × 3 states; three rules, the operand of an AX and an until.
    ("abp-receiver", true, 24 * 32),
    // 3 × 3 states; three rules, the operands of two AX and an until.
    ("ack-nack", true, 9 * 64),
    // 3 × 4 states; two rules, the operands of two AX and two untils, of which one is an operand.
    ("multi-write", true, 12 * 32 * 2),
    // 3 × 3 states; three rules and two untils.
    ("mutex", true, 9 * 32 * 2),
    // 13 × 13 states; two rules, of which one is the until.
    ("missionaries", true, 169 * 4),
    // 3 × 4 states; three rules, the operand of an AX and an until.
    ("arbiter-producer", true, 12 * 32),
    ("arbiter-consumer", false, 12 * 32),
    // 3 × 4 × 4 states; four rules and two untils.
    ("arbiter-masters", true, 48 * 64 * 2),
];

/// How long rules wait that are untils, counted from 1.
const WAITS: [(&str, usize, u32); 3] = [
    // Two ticks while the user rests: at the second one a job begins.
    ("lock", 5, 2),
    // The lock is free, and the drag gets it at once.
    ("lock-waiting", 2, 1),
    // There, back, there, back, there.
    ("missionaries", 2, 5),
];

fn file(name: &str) -> Vec<u8> {
    let path = root().join("examples").join(name);
    fs::read(&path).unwrap_or_else(|error| panic!("{path:?}: {error}"))
}

/// The records of an example's converter file, by the second checker.
fn records(name: &str) -> Vec<Record> {
    let blocks = file(&format!("{name}.converter"));
    let mut memory = vec![0; RECORD * 9 * (blocks.len() / BLOCK)];
    let count = checker::bytes::read_blocks(&blocks, &mut memory).expect("a converter file");
    let read = checker::bytes::read_converter_memory(&memory[..RECORD * count]);
    read.expect("the records are right")
}

#[test]
fn no_other_files() {
    let mut expected = BTreeSet::from(["README.md".to_string()]);
    for (name, found, _) in EXAMPLES {
        let endings: &[&str] =
            if found { &["md", "design", "converter"] } else { &["md", "design"] };
        expected.extend(endings.iter().map(|ending| format!("{name}.{ending}")));
    }
    let folder = fs::read_dir(root().join("examples")).expect("there are examples");
    let names = folder.map(|entry| {
        let name = entry.expect("the folder can be read").file_name();
        name.into_string().expect("a name is text")
    });
    assert_eq!(names.collect::<BTreeSet<String>>(), expected);
}

/// What the program makes of a page without the desk's sections is the page, and the files beside it.
#[test]
fn pages_are_what_is_written() {
    for (name, found, _) in EXAMPLES {
        let page = example(name);
        let (source, _) = page.split_once("## Verdict\n").expect("a page has a verdict");
        let folder = Folder::new();
        folder.write(&format!("{name}.md"), source.trim_end().to_string() + "\n");
        let status = if found { 0 } else { 1 };
        let page_file = format!("{name}.md");
        let written = called(&folder.0, &["search", &page_file, "--write", "--out", "files"]);
        assert_eq!(written.status, status, "{name}: {}", written.errors);
        assert_eq!(String::from_utf8_lossy(&folder.read(&page_file)), page, "{name}");
        // Once more, over its own sections.
        let again = called(&folder.0, &["search", &page_file, "--write"]);
        assert_eq!(again.status, status, "{name}: {}", again.errors);
        assert_eq!(String::from_utf8_lossy(&folder.read(&page_file)), page, "{name}");
        assert_eq!(folder.read(&format!("files/{name}.design")), file(&format!("{name}.design")));
        let converter = fs::read(folder.path(&format!("files/{name}.converter"))).ok();
        assert_eq!(converter, found.then(|| file(&format!("{name}.converter"))), "{name}");
    }
}

/// The second reader of pages reads the same bytes.
#[test]
fn designs_by_the_second_reader() {
    for (name, _, _) in EXAMPLES {
        let read = checker::page::read(example(name).as_bytes());
        let read = read.unwrap_or_else(|places| panic!("{name}: {places:?}"));
        assert_eq!(read.design, file(&format!("{name}.design")), "{name}");
    }
}

#[test]
fn verdicts_as_thought_out() {
    for (name, found, size) in EXAMPLES {
        let design = read_design(&file(&format!("{name}.design"))).expect("it is sound");
        assert_eq!(positions(&design), size, "{name}");
        assert_eq!(checker::search::find(&design).is_some(), found, "{name}");
        // The tableau plays no game.
        assert_eq!(no_converter(&design), !found, "{name}");
    }
}

/// The converter on the page is that of the file, and the second checker's judge takes it; the page
/// tells its waits.
#[test]
fn converters_by_the_second_checker() {
    for (name, found, _) in EXAMPLES {
        let page = example(name);
        let read = checker::page::read(page.as_bytes()).expect("the page is sound");
        let on_page = checker::page::read_converter(page.as_bytes(), &read.names);
        let on_page = on_page.unwrap_or_else(|places| panic!("{name}: {places:?}"));
        assert_eq!(on_page, found.then(|| records(name)), "{name}");
        let mut waits = [NO_WAIT; MOST_RULES];
        if let Some(records) = on_page {
            let (converter, mut work) = (converter_bytes(&records), vec![0; CELL * records.len()]);
            let yes = checker::judge(&read.design, &converter, &mut work, &mut waits);
            assert_eq!(yes, Ok(()), "{name}");
        }
        let waits = (1..).zip(waits).filter(|(_, wait)| *wait != NO_WAIT);
        let waits: Vec<(usize, u32)> = waits.collect();
        let own = WAITS.iter().filter(|(example, ..)| *example == name);
        let own: Vec<(usize, u32)> = own.map(|(_, rule, wait)| (*rule, *wait)).collect();
        assert_eq!((&told_waits(&page), &waits), (&own, &own), "{name}");
    }
}

/// The rules whose waits a page tells, counted from 1, and the waits.
fn told_waits(page: &str) -> Vec<(usize, u32)> {
    let lines = page.lines().filter_map(|line| line.strip_prefix("- rule "));
    let told = lines.map(|line| {
        let (rule, rest) = line.split_once(", `").expect("it has its formula");
        let (_, ticks) = rest.split_once("`: ").expect("it has its wait");
        let (ticks, words) = ticks.split_once(' ').expect("it counts something");
        let told = (rule.parse().expect(line), ticks.parse().expect(line));
        assert_eq!(words, if told.1 == 1 { "tick" } else { "ticks" }, "{line}");
        told
    });
    let told: Vec<(usize, u32)> = told.collect();
    let heads =
        page.matches("\nHow long rules wait at the most, by the library's judge:\n\n- rule ");
    assert_eq!(heads.count(), usize::from(!told.is_empty()), "{page}");
    told
}

/// The list of examples says of each what is so.
#[test]
fn the_list() {
    let list = String::from_utf8(file("README.md")).expect("it is text");
    for (name, found, size) in EXAMPLES {
        let page = example(name);
        let title = page.lines().next().and_then(|line| line.strip_prefix("# "));
        let link = format!("| [{}]({name}.md) | ", title.expect("a page begins with its title"));
        let row = list.lines().find(|line| line.starts_with(&link)).expect("it is listed");
        let verdict = if found { "a converter" } else { "none" };
        let end = format!(" | {} | {verdict} |", desk::columns::grouped(size));
        assert!(row.ends_with(&end), "{row}: {end}");
    }
}
