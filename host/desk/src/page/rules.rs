//! The rules of a page: items of a numbered list, each with its sentences and its formula.

use gorzhani::{Refused, MOST_FORMULAS, MOST_RULES};

use super::grammar;
use super::markdown::{is_blank, Document, Item, Kind, Line, Piece, RULES};
use super::typed::{self, Labels, Token};
use crate::design::{Design, Rule};
use crate::library;
use crate::mistakes::Mistake;

/// Code is indented by so much more than an item's words.
const CODE: usize = 4;

/// Reads the rules into the design: its formulas, its rules and its last two blocks.
pub fn rules(document: &Document, labels: &Labels, design: &mut Design) -> Vec<Mistake> {
    let mut mistakes = Vec::new();
    let mut rules = Vec::new();
    for (number, item) in items(document).enumerate() {
        if number == MOST_RULES {
            let what = format!("a 17th rule: a page has {MOST_RULES} at most (21)");
            mistakes.push(item.number.mistake(what));
        }
        rules.extend(typed_rule(document, item, labels, &mut mistakes));
    }
    let text: String = rules.iter().map(|rule| typed::text(&rule.tokens)).collect();
    match library::rules(&text) {
        Ok((blocks, _)) => mistakes.extend(accepted(blocks, &rules, design)),
        Err(refused) => mistakes.extend(places(refused, &rules)),
    }
    mistakes
}

/// Puts rules that the library has read into the design. The formulas as they are known here must be those of the library: typed again they make the same blocks.
fn accepted(blocks: Vec<u8>, rules: &[Typed], design: &mut Design) -> Option<Mistake> {
    for rule in rules {
        let formula = grammar::formula(&rule.tokens, &mut design.formulas);
        design.rules.push(Rule { formula, sentence: rule.sentence.clone() });
    }
    let again = library::rules(&design.typed()).ok();
    let same = again.is_some_and(|(again, _)| again == blocks);
    design.blocks = blocks;
    let first = rules.first().filter(|_| !same)?;
    Some(
        first
            .number
            .mistake("the desk reads these rules otherwise than the library: please report it"),
    )
}

/// The items of the section Rules.
fn items<'d, 'a>(document: &'d Document<'a>) -> impl Iterator<Item = &'d Item<'a>> {
    let body = document.section(RULES).map_or(0..0, |section| section.body);
    document.items.iter().filter(move |item| body.contains(&item.lines.start))
}

/// A rule all of whose words are known.
struct Typed<'a> {
    number: Piece<'a>,
    sentence: String,
    tokens: Vec<Token<'a>>,
}

fn typed_rule<'a>(
    document: &Document<'a>,
    item: &Item<'a>,
    labels: &Labels,
    mistakes: &mut Vec<Mistake>,
) -> Option<Typed<'a>> {
    let (sentence, formulas) = parts(item, &document.lines[item.lines.clone()]);
    if sentence.is_empty() {
        let what = "a rule without a sentence: say in words what it asks, in front of its formula";
        mistakes.push(item.number.mistake(what));
    }
    let formulas: Vec<Vec<Piece>> = formulas.iter().map(|lines| typed::pieces(lines)).collect();
    let mut formulas = formulas.into_iter().filter(|pieces| !pieces.is_empty());
    let Some(first) = formulas.next() else {
        mistakes.push(item.number.mistake(without_formula(document, item)));
        return None;
    };
    for second in formulas {
        let what =
            "a second formula in this rule: a rule has one; join them by '&', or make two rules";
        mistakes.push(second[0].mistake(what));
    }
    let tokens = typed::tokens(&first, labels, mistakes)?;
    Some(Typed { number: item.number, sentence: sentence.join(" "), tokens })
}

/// The words of an item, and its pieces of code as lines.
fn parts<'a>(item: &Item<'a>, lines: &[Line<'a>]) -> (Vec<&'a str>, Vec<Vec<Piece<'a>>>) {
    let mut words = Vec::new();
    let mut formulas: Vec<Vec<Piece>> = Vec::new();
    // Whether the last line that isn't empty is indented code, and whether an empty one is behind it.
    let (mut in_code, mut behind_empty) = (false, false);
    for (number, line) in lines.iter().enumerate() {
        match line.kind {
            Kind::Empty => {
                behind_empty = true;
                continue;
            }
            Kind::Words if line.indent() >= item.indent + CODE && (in_code || behind_empty) => {
                if !in_code {
                    formulas.push(Vec::new());
                }
                formulas.last_mut().into_iter().for_each(|code| code.push(line.piece));
                in_code = true;
            }
            Kind::Words => {
                let piece = if number == 0 { item.first } else { line.piece };
                words.extend(piece.words(is_blank).map(|word| word.text));
                in_code = false;
            }
            Kind::Opens => {
                formulas.push(Vec::new());
                in_code = false;
            }
            Kind::Fenced => {
                formulas.last_mut().into_iter().for_each(|code| code.push(line.piece));
            }
            Kind::Closes => {}
        }
        behind_empty = false;
    }
    (words, formulas)
}

/// What is said of a rule without a formula: how far one is indented, and which line may be meant.
fn without_formula(document: &Document, item: &Item) -> String {
    let least = item.indent + CODE;
    // The line behind the item may have been meant to belong to it.
    let lines = item.lines.start + 1..document.lines.len().min(item.lines.end + 1);
    let meant = lines.into_iter().find_map(|at| {
        let line = &document.lines[at];
        let (number, left) = (line.piece.line, line.indent());
        match (document.lines[at - 1].kind == Kind::Empty, line.kind) {
            (true, Kind::Words) if (1..least).contains(&left) => {
                Some(format!("; line {number} is indented by {left}"))
            }
            (false, Kind::Words) if left >= least => {
                Some(format!("; line {number} has no empty line before it"))
            }
            (true, Kind::Opens) if left < item.indent && at == item.lines.end => {
                Some(format!("; the fence in line {number} needs an indent of {}", item.indent))
            }
            _ => None,
        }
    });
    let meant = meant.unwrap_or_default();
    format!(
        "a rule without a formula: it stands below the sentence and an empty line, \
         indented by {least} spaces or more, or in a fence{meant}"
    )
}

/// Where the rules are what the library refuses.
fn places(refused: Refused, rules: &[Typed]) -> Vec<Mistake> {
    let mut mistakes = Vec::new();
    let mut records = 0;
    for rule in rules {
        let wrong = match grammar::misplaced(&rule.tokens) {
            Some(mistake) => vec![mistake],
            None => grammar::some_path(&rule.tokens),
        };
        if wrong.is_empty() {
            let before = records;
            records += typed::records(&rule.tokens);
            if before <= MOST_FORMULAS && records > MOST_FORMULAS {
                let what = format!(
                    "with this rule there are {records} formula records: {MOST_FORMULAS} at most (21)"
                );
                mistakes.push(rule.number.mistake(what));
            }
        }
        mistakes.extend(wrong);
    }
    if mistakes.is_empty() && rules.len() <= MOST_RULES {
        let words = refused.to_string();
        let words = words.split_once(": ").map_or(words.as_str(), |(_, words)| words);
        let first = rules.iter().take(1);
        mistakes.extend(first.map(|rule| rule.number.mistake(format!("{words} ({})", refused.0))));
    }
    mistakes
}
