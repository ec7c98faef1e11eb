//! Drawings of the sides and of a converter, for Graphviz.
//!
//! Events are written as people draw automata: `lock?` is read and `done!` is sent, which is shorter than words and leaves room for three sides on an edge. What the sides of a converter do stands in their order, and who ticks beside others is left out.
//! Dashed is what may wait: an edge that is a tick alone, a state that sends or ticks. States that send have sharp corners. A point leads to the start.

use std::io::{ErrorKind, Write};
use std::process::{Command, Stdio};
use std::thread;

use crate::design::{Design, Kind, Side, State, SIDE_HEADINGS, SIDE_WORDS};
use crate::print::{heading, held};
use crate::records::{Link, Record};

/// What all drawings have in common.
const STYLE: &str = r##"  graph [rankdir=LR, nodesep=0.35, labelloc=t, labeljust=l, color="#999999", fontname="Helvetica,Arial,sans-serif"]
  node [shape=box, style=rounded, height=0.4, fontname="Helvetica,Arial,sans-serif", fontsize=12]
  edge [arrowsize=0.7, fontname="Helvetica,Arial,sans-serif", fontsize=11]
"##;

/// A state or a record as it is drawn. All its words are names and numbers, which need no escape.
struct Node {
    name: String,
    holds: Vec<String>,
    style: &'static str,
    /// Its transitions: what is done, and the number of the next node.
    edges: Vec<(String, usize)>,
}

/// The sides of a design, and its converter if there is one, as Graphviz reads them.
pub fn dot(design: &Design, records: Option<&[Record]>) -> String {
    let title = quoted(&design.title);
    let mut out = format!("digraph design {{\n{STYLE}  graph [label={title}, fontsize=16]\n");
    // Graphviz puts the first cluster at the bottom.
    if let Some(records) = records {
        cluster(&mut out, "converter", "Converter", &record_nodes(design, records));
    }
    let known = design.sides.iter().enumerate().filter(|(_, side)| !side.states.is_empty());
    for (number, side) in known.rev() {
        let title = heading(SIDE_HEADINGS[number], &side.title);
        cluster(&mut out, SIDE_WORDS[number], &title, &state_nodes(design, side));
    }
    out + "}\n"
}

/// A text as Graphviz reads it in quotes, where backslashes and entities have a meaning.
fn quoted(text: &str) -> String {
    let mut out = String::from("\"");
    for character in text.chars() {
        match character {
            '"' => out += "\\\"",
            '\\' => out += "\\\\",
            '&' => out += "&amp;",
            _ if character.is_control() => out.push(' '),
            _ => out.push(character),
        }
    }
    out + "\""
}

fn cluster(out: &mut String, id: &str, title: &str, nodes: &[Node]) {
    let title = quoted(title);
    *out += &format!("  subgraph cluster_{id} {{\n    graph [label={title}, fontsize=13]\n");
    *out += &format!("    {id} [shape=point, width=0.1]\n");
    for (number, node) in nodes.iter().enumerate() {
        *out += &format!("    {id}_{number} [label={}{}]\n", label(node), node.style);
    }
    *out += &format!("    {id} -> {id}_0\n");
    for (number, node) in nodes.iter().enumerate() {
        for (target, lines) in by_target(&node.edges) {
            let style = if lines == ["tick"] { ", style=dashed" } else { "" };
            let lines = lines.join("\\n");
            *out += &format!("    {id}_{number} -> {id}_{target} [label=\"{lines}\"{style}]\n");
        }
    }
    *out += "  }\n";
}

/// What stands in a node: its name and, smaller, the labels that hold there.
fn label(node: &Node) -> String {
    let (name, holds) = (&node.name, node.holds.join(", "));
    if holds.is_empty() {
        return format!("\"{name}\"");
    }
    format!("<{name}<br/><font point-size=\"10\" color=\"#555555\"><i>{holds}</i></font>>")
}

/// The targets of some edges in the order of their first ones, each with what leads to it.
fn by_target(edges: &[(String, usize)]) -> Vec<(usize, Vec<&str>)> {
    let mut targets: Vec<(usize, Vec<&str>)> = Vec::new();
    for (done, target) in edges {
        match targets.iter_mut().find(|(known, _)| known == target) {
            Some((_, lines)) => lines.push(done),
            None => targets.push((*target, vec![done])),
        }
    }
    targets
}

fn state_nodes(design: &Design, side: &Side) -> Vec<Node> {
    let node = |state: &State| Node {
        name: state.name.clone(),
        holds: held(side, state),
        style: match state.kind() {
            Some(Kind::OutputOnly) => ", style=solid",
            Some(Kind::Delayed) => ", style=dashed",
            _ => "",
        },
        edges: (state.transitions.iter())
            .map(|transition| (sign(design, transition.event), transition.target))
            .collect(),
    };
    side.states.iter().map(node).collect()
}

fn record_nodes(design: &Design, records: &[Record]) -> Vec<Node> {
    let events = |side: &Side| -> Vec<i8> {
        let transitions = side.states.iter().flat_map(|state| &state.transitions);
        transitions.map(|transition| transition.event).collect()
    };
    let events: Vec<Vec<i8>> = design.sides.iter().map(events).collect();
    let edge = |link: &Link| (done(design, &events, link), usize::from(link.next));
    let node = |(number, record): (usize, &Record)| Node {
        name: format!("{number}: {}", design.names(record.states)),
        holds: design.holding(record.states),
        style: "",
        edges: record.links.iter().map(edge).collect(),
    };
    records.iter().enumerate().map(node).collect()
}

/// What the sides do in a transition of a converter, where these are the events of their tables. As with labels, a side stands in front of what another side has too.
fn done(design: &Design, events: &[Vec<i8>], link: &Link) -> String {
    let mut words = Vec::new();
    for (side, &event) in link.events.iter().enumerate().take(events.len()) {
        let mut others = events.iter().enumerate().filter(|(other, _)| *other != side);
        let shared = others.any(|(_, events)| events.contains(&event));
        match event {
            0 => {}
            _ if shared => words.push(format!("{}.{}", SIDE_WORDS[side], sign(design, event))),
            _ => words.push(sign(design, event)),
        }
    }
    if words.is_empty() {
        return sign(design, 0);
    }
    words.join(", ")
}

/// An event as it is drawn.
fn sign(design: &Design, event: i8) -> String {
    match event {
        0 => "tick".to_string(),
        1.. => format!("{}?", design.signal(event)),
        _ => format!("{}!", design.signal(event)),
    }
}

/// The SVG that Graphviz's `dot` makes of it; an error in words where there is no `dot` on the machine or it fails.
pub fn svg(dot: &str) -> Result<Vec<u8>, String> {
    let mut command = Command::new("dot");
    command.arg("-Tsvg").stdin(Stdio::piped()).stdout(Stdio::piped()).stderr(Stdio::piped());
    let mut child = command.spawn().map_err(|error| match error.kind() {
        ErrorKind::NotFound => {
            "Graphviz isn't there: `dot` was not found; install it (show --dot writes the drawing without it)".to_string()
        }
        _ => format!("`dot` can't be started: {error}"),
    })?;
    let input = child.stdin.take();
    // It is written beside the reading, so that no pipe blocks. A child that doesn't read to the end says why itself.
    let output = thread::scope(|scope| {
        scope.spawn(move || input.map(|mut input| input.write_all(dot.as_bytes())));
        child.wait_with_output()
    });
    let output = output.map_err(|error| format!("`dot` can't be read: {error}"))?;
    if output.status.success() {
        return Ok(output.stdout);
    }
    let said = String::from_utf8_lossy(&output.stderr);
    Err(format!("`dot` failed ({}): {}", output.status, said.trim()))
}
