//! The rules of the list: what belongs to each item.

use super::formula::words;
use super::lines::{is_blank, Piece};
use super::rows::{Section, What};
use super::Place;

/// A rule of the list.
pub(super) struct Item {
    /// Where its number stands.
    pub number: Place,
    /// The words of its sentences.
    pub words: Vec<String>,
    /// Its formulas, the words and signs of each; there is one at least in each.
    pub formulas: Vec<Vec<Piece>>,
}

/// The items of a section. What stands between them is passed over.
pub(super) fn items(section: &Section) -> Vec<Item> {
    let mut items: Vec<Item> = Vec::new();
    // Whether the line before is empty, and whether a piece of indented code has begun and may go
    // on.
    let (mut behind_empty, mut in_code) = (false, false);
    for row in &section.rows {
        let Some(indent) = row.item else { continue };
        if let What::Item(start) = &row.what {
            let sentence = start.words.parts(is_blank).into_iter().map(|word| word.text);
            let words = sentence.collect();
            items.push(Item { number: start.number, words, formulas: Vec::new() });
            (behind_empty, in_code) = (false, false);
            continue;
        }
        let item = items.last_mut().expect("a line belongs to an item that has begun");
        match row.what {
            What::Empty => {}
            What::Opens => {
                item.formulas.push(Vec::new());
                in_code = false;
            }
            What::Fenced => put(item, &row.line),
            What::Closes => {}
            _ => {
                let deep = row.line.indent() >= indent + 4;
                if deep && (behind_empty || in_code) {
                    if !in_code {
                        item.formulas.push(Vec::new());
                    }
                    in_code = true;
                    put(item, &row.line);
                } else {
                    in_code = false;
                    item.words.extend(row.line.parts(is_blank).into_iter().map(|word| word.text));
                }
            }
        }
        behind_empty = matches!(row.what, What::Empty);
    }
    // A fence with nothing in it is no formula.
    for item in &mut items {
        item.formulas.retain(|formula| !formula.is_empty());
    }
    items
}

/// Puts the words of a line behind those of an item's last formula.
fn put(item: &mut Item, line: &Piece) {
    item.formulas.last_mut().expect("it has begun").extend(words(line));
}
