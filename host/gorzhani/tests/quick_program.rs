//! The convert program: the verdict on what it writes is yes.

use std::io::Write;
use std::path::Path;
use std::process::{Command, Stdio};

use checker::generate::{any_bytes, design, ruled_design, Random, Shape};
use gorzhani::{Verdict, BLOCK, BLOCK_RECORDS, CELL, RECORD};

/// What the program writes for a design.
fn written(design: &[u8]) -> Vec<u8> {
    let path = Path::new(env!("CARGO_MANIFEST_DIR")).join("../../crates/convert/out/convert");
    let mut program = Command::new(path)
        .stdin(Stdio::piped())
        .stdout(Stdio::piped())
        .spawn()
        .expect("the program is built");
    let mut input = program.stdin.take().expect("its input is a pipe");
    input.write_all(design).expect("it reads");
    drop(input);
    let output = program.wait_with_output().expect("it ends");
    assert!(output.status.success());
    output.stdout
}

#[test]
fn converters_that_are_written() {
    let mut random = Random::new(109);
    let (mut converters, mut refusals) = (0, 0);
    for round in 0..600 {
        let made = match round % 3 {
            0 => design(&mut random, &Shape::SMALL),
            1 => design(&mut random, &Shape::FULL),
            _ => ruled_design(&mut random, &Shape::TINY),
        };
        let bytes = any_bytes(&mut random, &made);
        let output = written(&bytes);
        if output.starts_with(b"refused ") {
            refusals += 1;
            continue;
        }
        let mut converter = vec![0; RECORD * BLOCK_RECORDS * output.len().div_ceil(BLOCK)];
        let records = gorzhani::read(&output, &mut converter).expect("it is a converter file");
        converter.truncate(RECORD * records);
        let verdict = gorzhani::verdict(&bytes, &converter, &mut vec![0; CELL * records]);
        assert_eq!(verdict, Verdict::Yes, "{made:?}");
        converters += 1;
    }
    assert!(converters > 50 && refusals > 50, "{converters} {refusals}");
}
