//! A rule from its tokens, by splitting.
//!
//! Brackets go first: where one is closed, what stands inside becomes one operand, in the place
//! where it was opened. So what is looked at has no brackets in it, and is split: at every `->`,
//! what lies between at every `|`, and what lies between these at every `&`. What is left
//! between is prefixes in front of one operand.

use std::iter::repeat_n;
use std::mem::{replace, take};

use super::typed::{Part, Typed};
use super::words::Token;

/// What stands between brackets.
enum Item {
    /// A sign, or a word that isn't an operand.
    Sign(Token),
    /// An operand: the parts of a rule.
    Operand(Vec<Part>),
}

/// A bracket that is open.
enum Bracket {
    /// A round one.
    Round,
    /// A square one, and what its two rules will be joined by.
    Square(Part),
}

/// The rule that some tokens are, if they are of the grammar. How deep they go isn't asked.
pub fn read_rule(tokens: &[Token]) -> Option<Typed> {
    // The brackets that are open, each with what stands in front of it; and what stands inside.
    let mut open: Vec<(Bracket, Vec<Item>)> = Vec::new();
    let mut items: Vec<Item> = Vec::new();
    for &token in tokens {
        match token {
            Token::Open => open.push((Bracket::Round, take(&mut items))),
            Token::OpenSquare => {
                let Item::Sign(quantifier) = items.pop()? else { return None };
                let until = match quantifier {
                    Token::A => Part::AU,
                    Token::E => Part::EU,
                    _ => return None,
                };
                open.push((Bracket::Square(until), take(&mut items)));
            }
            Token::Close | Token::CloseSquare => {
                let (bracket, before) = open.pop()?;
                let inside = replace(&mut items, before);
                let operand = match (bracket, token) {
                    (Bracket::Round, Token::Close) => rule(&inside)?,
                    (Bracket::Square(until), Token::CloseSquare) => two_rules(&inside, until)?,
                    _ => return None,
                };
                items.push(Item::Operand(operand));
            }
            Token::Name(number) => items.push(Item::Operand(vec![Part::Name(number)])),
            Token::True => items.push(Item::Operand(vec![Part::True])),
            Token::False => items.push(Item::Operand(vec![Part::False])),
            _ => items.push(Item::Sign(token)),
        }
    }
    if !open.is_empty() {
        return None;
    }
    rule(&items).map(Typed::from_parts)
}

/// What lies between the signs of one sort.
fn between(items: &[Item], sign: Token) -> impl Iterator<Item = &[Item]> {
    items.split(move |item| matches!(item, Item::Sign(token) if *token == sign))
}

/// What is inside square brackets: two rules with a `U` between them.
fn two_rules(items: &[Item], until: Part) -> Option<Vec<Part>> {
    let sides: Vec<&[Item]> = between(items, Token::U).collect();
    let [left, right] = sides[..] else { return None };
    let mut parts = rule(left)?;
    parts.extend(rule(right)?);
    parts.push(until);
    Some(parts)
}

/// A rule: `->` groups to the right, so that all operands stand in front of all that joins them.
fn rule(items: &[Item]) -> Option<Vec<Part>> {
    let (mut parts, mut operands) = (Vec::new(), 0);
    for operand in between(items, Token::Implies) {
        parts.extend(ors(operand)?);
        operands += 1;
    }
    parts.extend(repeat_n(Part::Implies, operands - 1));
    Some(parts)
}

/// What stands on a side of `->`.
fn ors(items: &[Item]) -> Option<Vec<Part>> {
    to_the_left(between(items, Token::Or), ands, Part::Or)
}

/// What stands on a side of `|`.
fn ands(items: &[Item]) -> Option<Vec<Part>> {
    to_the_left(between(items, Token::And), closest, Part::And)
}

/// Operands that are grouped to the left: each but the first is joined to those before it.
fn to_the_left<'a>(
    mut operands: impl Iterator<Item = &'a [Item]>,
    read: fn(&[Item]) -> Option<Vec<Part>>,
    join: Part,
) -> Option<Vec<Part>> {
    let mut parts = read(operands.next()?)?;
    for operand in operands {
        parts.extend(read(operand)?);
        parts.push(join);
    }
    Some(parts)
}

/// Prefixes and one operand: the prefix next to it takes it first.
fn closest(items: &[Item]) -> Option<Vec<Part>> {
    let (Item::Operand(operand), prefixes) = items.split_last()? else { return None };
    let mut parts = operand.clone();
    for item in prefixes.iter().rev() {
        let Item::Sign(token) = item else { return None };
        parts.push(prefix(*token)?);
    }
    Some(parts)
}

/// The part that a prefix is.
fn prefix(token: Token) -> Option<Part> {
    Some(match token {
        Token::Not => Part::Not,
        Token::AX => Part::AX,
        Token::AG => Part::AG,
        Token::AF => Part::AF,
        Token::EX => Part::EX,
        Token::EG => Part::EG,
        Token::EF => Part::EF,
        _ => return None,
    })
}
