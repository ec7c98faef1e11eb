//! The tour in README.md: its commands print what stands below them, and its page is that of the examples.

mod common;

use std::fs;
use std::process::Command;

use common::{example, root, run};

/// The pieces of code in the section "A tour", without their indent; empty lines between them belong to them.
fn pieces() -> Vec<Vec<String>> {
    let readme = fs::read_to_string(root().join("README.md")).expect("it is there");
    let (_, tour) = readme.split_once("\n## A tour\n").expect("it has a tour");
    let (tour, _) = tour.split_once("\n## ").expect("something follows");
    // A heading inside a piece of code is indented, and so is no end of the tour.
    let mut pieces: Vec<Vec<String>> = vec![vec![]];
    for line in tour.lines() {
        let last = pieces.last_mut().expect("one is begun");
        match line.strip_prefix("    ") {
            Some(code) if code.starts_with("$ ") => pieces.push(vec![code.to_string()]),
            Some(code) => last.push(code.to_string()),
            None if line.is_empty() => last.push(String::new()),
            None => pieces.push(vec![]),
        }
    }
    for piece in &mut pieces {
        while piece.last().is_some_and(String::is_empty) {
            piece.pop();
        }
    }
    pieces.retain(|piece| piece.iter().any(|line| !line.is_empty()));
    pieces
}

#[test]
fn the_tour() {
    let (mut commands, mut pages) = (0, 0);
    for piece in pieces() {
        let Some(typed) = piece[0].strip_prefix("$ ") else {
            let page = piece.join("\n");
            assert!(example("pair").contains(page.trim()), "{page}");
            pages += 1;
            continue;
        };
        let typed = typed.replace("./gorzhani", env!("CARGO_BIN_EXE_gorzhani"));
        let mut shell = Command::new("sh");
        shell.arg("-c").arg(&typed).current_dir(root());
        let called = run(shell, b"");
        let shown = piece[1..].join("\n");
        assert!(called.out.contains(&format!("{shown}\n")), "{typed}\n{}", called.out);
        commands += 1;
    }
    assert_eq!((commands, pages), (4, 1));
}

/// The picture shows every state by name.
#[test]
fn the_picture() {
    let picture = fs::read_to_string(root().join("docs/pair.svg")).expect("it is there");
    for words in
        ["rests", "works", "edit", "wait", "0: rests, edit", "1: rests, wait", "2: works, wait"]
    {
        assert!(picture.contains(&format!(">{words}</text>")), "{words}");
    }
}
