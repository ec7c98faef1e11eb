//! Drawings: their text, and what Graphviz makes of it.

mod made;

use std::path::Path;
use std::process::Command;
use std::{env, fs};

use desk::design::{Design, SIDE_WORDS};
use desk::draw::{dot, svg};
use desk::library;
use desk::records::{Link, Record};
use made::titled as design;

fn record(states: [u8; 3], links: &[([i8; 3], u16)]) -> Record {
    let links = links.iter().map(|&(events, next)| Link { events, next }).collect();
    Record { states, links }
}

fn thumbnails() -> (Design, Vec<Record>) {
    let kernel = [
        ["free", "", "tick to free; read lock to taken"],
        ["taken", "taken", "tick to taken; read release to free"],
    ];
    let host = [
        ["idle", "", "tick to idle; send press to waiting"],
        ["waiting", "waits", "tick to waiting; read go to dragging"],
        ["dragging", "drags", "tick to dragging; send drop to idle"],
    ];
    let third = [
        ["quiet", "", "tick to quiet; send ask to asking"],
        ["asking", "asks", "tick to asking; read start to working"],
        ["working", "works", "send done to quiet"],
    ];
    let design = design("Thumbnails", &[("lock", &kernel), ("drag", &host), ("service", &third)]);
    let path = Path::new(env!("CARGO_MANIFEST_DIR")).join("../../examples/thumbnails.converter");
    let file = fs::read(path).expect("the example is there");
    (design, library::read(&file).expect("the example is a converter"))
}

#[test]
fn two_states() {
    let kernel = [
        ["shut", "", "tick to shut; read pull to open; read push to open"],
        ["open", "wide, cold", "send close to shut"],
    ];
    let host = [["there", "here", "tick to there; send pull to there"]];
    let design = design("A door", &[("", &kernel), ("somebody", &host)]);
    let records = [
        record([0, 0, 0], &[([0, 0, 0], 0), ([1, -1, 0], 1), ([2, 0, 0], 1)]),
        record([1, 0, 0], &[([-3, 0, 0], 0), ([-3, -1, 0], 0)]),
    ];
    let converter = r##"  subgraph cluster_converter {
    graph [label="Converter", fontsize=13]
    converter [shape=point, width=0.1]
    converter_0 [label=<0: shut, there<br/><font point-size="10" color="#555555"><i>here</i></font>>]
    converter_1 [label=<1: open, there<br/><font point-size="10" color="#555555"><i>wide, cold, here</i></font>>]
    converter -> converter_0
    converter_0 -> converter_0 [label="tick", style=dashed]
    converter_0 -> converter_1 [label="pull?, pull!\npush?"]
    converter_1 -> converter_0 [label="close!\nclose!, pull!"]
  }
"##;
    let front = r##"digraph design {
  graph [rankdir=LR, nodesep=0.35, labelloc=t, labeljust=l, color="#999999", fontname="Helvetica,Arial,sans-serif"]
  node [shape=box, style=rounded, height=0.4, fontname="Helvetica,Arial,sans-serif", fontsize=12]
  edge [arrowsize=0.7, fontname="Helvetica,Arial,sans-serif", fontsize=11]
  graph [label="A door", fontsize=16]
"##;
    let sides = r##"  subgraph cluster_host {
    graph [label="Host: somebody", fontsize=13]
    host [shape=point, width=0.1]
    host_0 [label=<there<br/><font point-size="10" color="#555555"><i>here</i></font>>, style=dashed]
    host -> host_0
    host_0 -> host_0 [label="tick\npull!"]
  }
  subgraph cluster_kernel {
    graph [label="Kernel", fontsize=13]
    kernel [shape=point, width=0.1]
    kernel_0 [label="shut"]
    kernel_1 [label=<open<br/><font point-size="10" color="#555555"><i>wide, cold</i></font>>, style=solid]
    kernel -> kernel_0
    kernel_0 -> kernel_0 [label="tick", style=dashed]
    kernel_0 -> kernel_1 [label="pull?\npush?"]
    kernel_1 -> kernel_0 [label="close!"]
  }
}
"##;
    assert_eq!(dot(&design, None), format!("{front}{sides}"));
    assert_eq!(dot(&design, Some(&records)), format!("{front}{converter}{sides}"));
}

#[test]
fn a_side_in_front_of_what_two_sides_do() {
    let lines = [["on", "lit", "read flip to on; read blink to on"]];
    let other = [["on", "lit", "read flip to on; tick to on"]];
    let design = design("", &[("", &lines), ("", &other)]);
    let records =
        [record([0, 0, 0], &[([1, 1, 0], 0), ([1, 0, 0], 0), ([2, 1, 0], 0), ([0, 2, 0], 0)])];
    let text = dot(&design, Some(&records));
    // The host has no blink: the last transition belongs to no converter that is matched.
    let lines = r"kernel.flip?, host.flip?\nkernel.flip?\nblink?, host.flip?\nhost.blink?";
    assert!(text.contains(&format!("converter_0 -> converter_0 [label=\"{lines}\"]")), "{text}");
    assert!(text.contains("<i>kernel.lit, host.lit</i>"), "{text}");
    assert!(text.contains("kernel_0 [label=<on<br/>"), "{text}");
    assert!(text.contains("<i>lit</i>"), "{text}");
}

#[test]
fn titles_of_any_text() {
    let lines = [["on", "", "tick to on"]];
    let design = design("\"A\" \\N <b>\t&lt; ü", &[("\\", &lines), ("\\\"", &lines)]);
    let text = dot(&design, None);
    assert!(text.contains(r#"graph [label="\"A\" \\N <b> &amp;lt; ü", fontsize=16]"#), "{text}");
    assert!(text.contains(r#"graph [label="Kernel: \\", fontsize=13]"#), "{text}");
    assert!(text.contains(r#"graph [label="Host: \\\"", fontsize=13]"#), "{text}");
}

#[test]
fn numbers_where_there_are_no_names() {
    let lines = [["on", "", "tick to on"]];
    let design = design("", &[("", &lines), ("", &lines)]);
    let text = dot(&design, Some(&[record([0, 9, 7], &[([63, -63, 1], 5)])]));
    assert!(text.contains("converter_0 [label=\"0: on, 9\"]"), "{text}");
    assert!(text.contains("converter_0 -> converter_5 [label=\"63?, 63!\"]"), "{text}");
}

/// Of three sides of 2, 3 and 3 states with 15 transitions, and 11 records with 23, of which no two have the same ends.
#[test]
fn everything_once() {
    let (design, records) = thumbnails();
    let text = dot(&design, Some(&records));
    let lines: Vec<&str> = text.lines().collect();
    let once = |beginning: String| {
        let count = lines.iter().filter(|line| line.trim_start().starts_with(&beginning)).count();
        assert_eq!(count, 1, "{beginning}");
    };
    for (side, word) in design.sides.iter().zip(SIDE_WORDS) {
        for (number, state) in side.states.iter().enumerate() {
            once(format!("{word}_{number} ["));
            for transition in &state.transitions {
                once(format!("{word}_{number} -> {word}_{} [", transition.target));
            }
        }
    }
    for (number, record) in records.iter().enumerate() {
        once(format!("converter_{number} ["));
        for link in &record.links {
            once(format!("converter_{number} -> converter_{} [", link.next));
        }
    }
    let with = |word: &str| lines.iter().filter(|line| line.contains(word)).count();
    // A title, and four clusters that have a title, a point and an edge from it.
    assert_eq!(with("[label="), 5 + 2 + 3 + 3 + 11 + 15 + 23);
    assert_eq!(with("shape=point"), 4);
    assert_eq!(with(" -> "), 4 + 15 + 23);
}

const NOT_THERE: &str = "Graphviz isn't there: `dot` was not found; install it (show --dot writes the drawing without it)";

#[test]
fn graphviz_takes_it() {
    let (mut design, records) = thumbnails();
    design.title = "\"Drags\" \\N & <thumbnails>".to_string();
    match svg(&dot(&design, Some(&records))) {
        Ok(svg) => {
            let svg = String::from_utf8(svg).expect("SVG is text");
            let title = "&quot;Drags&quot; \\N &amp; &lt;thumbnails&gt;</text>";
            assert!(svg.contains(title), "{svg}");
            assert!(svg.contains(">10: taken, dragging, asking</text>"), "{svg}");
        }
        Err(words) => assert_eq!(words, NOT_THERE),
    }
}

/// Where this is set, the test below is the child of another: it writes there what `svg` answers.
const ANSWER: &str = "DRAWN_ANSWER";

#[test]
fn answer_of_a_child() {
    let Ok(path) = env::var(ANSWER) else { return };
    // More than a pipe holds.
    let text = "digraph design {}\n".repeat(50_000);
    let answer = svg(&text).map(|bytes| String::from_utf8(bytes).expect("it is text"));
    fs::write(path, format!("{answer:?}")).expect("the answer is written");
}

/// What `svg` answers to a process whose PATH has this script for `dot`, and nothing else.
#[cfg(unix)]
fn answer_with(name: &str, script: Option<&str>) -> String {
    use std::os::unix::fs::PermissionsExt;
    let folder = Path::new(env!("CARGO_TARGET_TMPDIR")).join(name);
    fs::create_dir_all(&folder).expect("the folder is made");
    if let Some(script) = script {
        let path = folder.join("dot");
        fs::write(&path, format!("#!/bin/sh\n{script}\n")).expect("the script is written");
        let all = fs::Permissions::from_mode(0o755);
        fs::set_permissions(&path, all).expect("the script can be run");
    }
    let answer = folder.join("answer");
    fs::write(&answer, "no answer").expect("the last answer is gone");
    let child = Command::new(env::current_exe().expect("the test has a path"))
        .args(["--exact", "answer_of_a_child"])
        .env("PATH", &folder)
        .env(ANSWER, &answer)
        .output()
        .expect("the test runs again");
    assert!(child.status.success(), "{child:?}");
    fs::read_to_string(answer).expect("the answer is there")
}

#[cfg(unix)]
#[test]
fn other_programs_for_dot() {
    assert_eq!(answer_with("none", None), format!("Err({NOT_THERE:?})"));
    // It answers with all that it reads.
    let copy = answer_with("copy", Some("/bin/cat"));
    assert_eq!(copy, format!("Ok({:?})", "digraph design {}\n".repeat(50_000)));
    let shown = answer_with("shown", Some("echo \"$@\""));
    assert_eq!(shown, "Ok(\"-Tsvg\\n\")");
    let failed = answer_with("failed", Some("echo 'no fonts' >&2; exit 3"));
    assert_eq!(failed, "Err(\"`dot` failed (exit status: 3): no fonts\")");
}
