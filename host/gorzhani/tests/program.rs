//! The convert program: what it writes for a design on standard input is what search and writer
//! give, and what the second checker takes.

#[path = "../../checker/tests/samples/mod.rs"]
mod samples;

use std::io::{Read, Write};
use std::path::Path;
use std::process::{Command, Stdio};
use std::time::Duration;

use checker::bytes::{idle_side, read_blocks, Formula};
use checker::generate::{any_bytes, damage, design, ruled_design, Random, Shape};
use gorzhani::{Refused, BLOCK, CELL, FIVE_BLOCKS, FOUR_BLOCKS, MOST_RULES, RECORD};

/// What the program writes when it is handed these pieces, one after the other.
fn written(pieces: &[&[u8]]) -> Vec<u8> {
    let path = Path::new(env!("CARGO_MANIFEST_DIR")).join("../../crates/convert/out/convert");
    let mut program = Command::new(path)
        .stdin(Stdio::piped())
        .stdout(Stdio::piped())
        .spawn()
        .expect("the program is built");
    let mut input = program.stdin.take().expect("its input is a pipe");
    for (number, piece) in pieces.iter().enumerate() {
        if number > 0 {
            std::thread::sleep(Duration::from_millis(20));
        }
        input.write_all(piece).expect("it reads");
    }
    drop(input);
    let mut output = Vec::new();
    let mut from = program.stdout.take().expect("its output is a pipe");
    from.read_to_end(&mut output).expect("it writes");
    assert!(program.wait().expect("it ends").success());
    output
}

/// The same from the library's calls, with the number of the refusal.
fn expected(design: &[u8]) -> (Vec<u8>, u8) {
    let (mut table, mut work) = (vec![0; 59_904], vec![0; 18_432]);
    match gorzhani::search(design, &mut table, &mut work) {
        Err(Refused(number)) => (format!("refused {number}\n").into_bytes(), number),
        Ok(records) => {
            let mut blocks = vec![0; 65_536];
            let count = gorzhani::write(&table[..RECORD * records], &mut blocks);
            blocks.truncate(BLOCK * count.expect("there is room for the blocks"));
            (blocks, 0)
        }
    }
}

/// Converts a design, and answers the number.
fn convert_agrees(design: &[u8]) -> u8 {
    let output = written(&[design]);
    let (bytes, number) = expected(design);
    assert_eq!(output, bytes, "{design:?}");
    if number == 0 {
        let mut converter = vec![0; output.len()];
        let records = read_blocks(&output, &mut converter).expect("a converter file is written");
        converter.truncate(RECORD * records);
        let (mut work, mut waits) = (vec![0; CELL * records], [0; MOST_RULES]);
        assert_eq!(checker::judge(design, &converter, &mut work, &mut waits), Ok(()));
    }
    number
}

#[test]
fn designs() {
    let mut random = Random::new(109);
    let mut answers = [0; 18];
    for round in 0..600 {
        let made = match round % 3 {
            0 => design(&mut random, &Shape::SMALL),
            1 => design(&mut random, &Shape::FULL),
            _ => ruled_design(&mut random, &Shape::TINY),
        };
        let mut bytes = any_bytes(&mut random, &made);
        if round % 2 == 0 {
            damage(&mut random, &mut bytes);
        }
        answers[usize::from(convert_agrees(&bytes))] += 1;
    }
    for number in [0, 1, 2, 3, 4, 5, 6, 7, 8, 9, 12, 16] {
        assert!(answers[number] > 0, "{number}: {answers:?}");
    }
}

/// What the gate runs the program on: the handshake pair, with the fourth rule as its words say.
#[test]
fn handshake() {
    let beside =
        |name: &str| Path::new(env!("CARGO_MANIFEST_DIR")).join("../../crates/convert").join(name);
    let read = |name| std::fs::read(beside(name)).expect("the program has such a file");
    assert_eq!(convert_agrees(&read("stdin")), 0);
    assert_eq!(written(&[&read("stdin")]), read("stdout"));
}

/// The specification's example of a refusal: the handshake pair H with the rule A(true U 1).
#[test]
fn no_converter() {
    let formulas = vec![Formula::True, Formula::Proposition(1), Formula::Until(0, 1)];
    assert_eq!(written(&[&samples::handshake(formulas, vec![2]).to_bytes()]), b"refused 16\n");
}

/// The program has room for 1,152 positions. The next number that can be one is 1,155.
#[test]
fn positions_that_fit() {
    let ring = |states: u8| {
        (0..states).map(|own| samples::state(&[], &[(0, (own + 1) % states)])).collect::<Vec<_>>()
    };
    let made = |counts: [u8; 3]| samples::design(counts.map(ring), vec![], vec![]).to_bytes();
    assert_eq!(convert_agrees(&made([16, 9, 8])), 0);
    assert_eq!(written(&[&made([15, 11, 7])]), b"refused 12\n");
}

#[test]
fn lengths() {
    let sound = design(&mut Random::new(110), &Shape::SMALL).to_five_blocks();
    let longer = [&sound[..], &sound].concat();
    let around = [FOUR_BLOCKS, FIVE_BLOCKS].map(|length| [length - 1, length + 1]);
    for length in [0, 1, 511, 512, 1_536, 3_072, 5_120].iter().chain(around.as_flattened()) {
        assert_eq!(written(&[&longer[..*length]]), b"refused 1\n", "{length}");
    }
    // The four blocks in front are of other kinds than those of a design of four.
    assert_eq!(written(&[&longer[..FOUR_BLOCKS]]), b"refused 3\n");
}

/// A design that comes in pieces is one design.
#[test]
fn pieces() {
    let mut random = Random::new(111);
    let mut made = design(&mut random, &Shape::SMALL);
    (made.formulas, made.rules) = (vec![Formula::True], vec![0]);
    made.sides[2] = idle_side();
    for bytes in [made.to_bytes(), made.to_five_blocks()] {
        let end = bytes.len() - 1;
        let output = written(&[&bytes[..1], &bytes[1..700], &bytes[700..end], &bytes[end..]]);
        let (whole, number) = expected(&bytes);
        assert_eq!((output, number), (whole, 0));
        assert_eq!(written(&[&bytes, b"x"]), b"refused 1\n");
    }
}
