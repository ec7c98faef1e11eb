//! A rule as it was typed, and what becomes of it.

use std::fmt;

use super::words::{spelled, Token};
use crate::bytes::Formula;

/// A part of a rule, without its operands.
#[derive(Clone, Copy, Debug, PartialEq, Eq, PartialOrd, Ord)]
pub enum Part {
    /// A name.
    Name(u8),
    /// `TRUE`.
    True,
    /// `FALSE`.
    False,
    /// `!`.
    Not,
    /// `AX`.
    AX,
    /// `AG`.
    AG,
    /// `AF`.
    AF,
    /// `EX`.
    EX,
    /// `EG`.
    EG,
    /// `EF`.
    EF,
    /// `&`.
    And,
    /// `|`.
    Or,
    /// `->`.
    Implies,
    /// `A [ f U g ]`.
    AU,
    /// `E [ f U g ]`.
    EU,
}

impl Part {
    /// How many operands it has.
    pub fn operands(self) -> usize {
        match self {
            Part::Name(_) | Part::True | Part::False => 0,
            Part::Not | Part::AX | Part::AG | Part::AF | Part::EX | Part::EG | Part::EF => 1,
            Part::And | Part::Or | Part::Implies | Part::AU | Part::EU => 2,
        }
    }

    /// How closely it binds what it joins: `->` the least, and all that isn't a chain the most.
    fn closeness(self) -> usize {
        match self {
            Part::Implies => 0,
            Part::Or => 1,
            Part::And => 2,
            _ => 3,
        }
    }
}

/// A rule as it was typed: its parts, each behind its operands, of which the left one is first.
#[derive(Clone, Debug, PartialEq, Eq, PartialOrd, Ord)]
pub struct Typed(Vec<Part>);

/// What is still to be done in a pass over a rule from its end: its parts come one by one, each
/// before its operands.
enum ToDo<Done, Asked> {
    /// This comes next.
    Put(Done),
    /// The next part comes next, of which this is asked.
    Part(Asked),
}

impl Typed {
    /// A rule from its parts.
    pub fn from_parts(parts: Vec<Part>) -> Typed {
        let mut rules = 0_usize;
        for part in &parts {
            rules = rules.checked_sub(part.operands()).expect("its operands stand before it") + 1;
        }
        assert_eq!(rules, 1, "all parts are joined");
        Typed(parts)
    }

    /// A part with its operands.
    pub fn new(part: Part, operands: impl IntoIterator<Item = Typed>) -> Typed {
        let mut parts = Vec::new();
        let mut count = 0;
        for operand in operands {
            parts.extend(operand.0);
            count += 1;
        }
        assert_eq!(count, part.operands(), "{part:?}");
        parts.push(part);
        Typed(parts)
    }

    /// Its parts, each behind its operands.
    pub fn parts(&self) -> &[Part] {
        &self.0
    }

    /// Whether it speaks of all paths alone: no part says "some path", and none that is temporal
    /// stands anywhere under `!` or left of `->`.
    pub fn says_all_paths(&self) -> bool {
        // For each rule that isn't joined yet: is there a temporal part in it.
        let mut temporal: Vec<bool> = Vec::new();
        for part in &self.0 {
            let operands = temporal.split_off(temporal.len() - part.operands());
            match part {
                Part::EX | Part::EG | Part::EF | Part::EU => return false,
                Part::Not | Part::Implies if operands[0] => return false,
                Part::AX | Part::AG | Part::AF | Part::AU => temporal.push(true),
                _ => temporal.push(operands.contains(&true)),
            }
        }
        true
    }

    /// The same rule with `!` pushed down to names, `->` as an or (as an and where it is denied),
    /// and `AF f` as `A [ TRUE U f ]`. It speaks of all paths alone.
    pub fn pushed_down(&self) -> Typed {
        let mut parts = self.0.iter().rev();
        let mut backwards = Vec::new();
        // Of a part it is asked whether it is denied.
        let mut to_do = vec![ToDo::Part(false)];
        while let Some(next) = to_do.pop() {
            let denied = match next {
                ToDo::Put(part) => {
                    backwards.push(part);
                    continue;
                }
                ToDo::Part(denied) => denied,
            };
            // What is put into `to_do` last is done first: the right operand.
            match *parts.next().expect("a part's operands stand before it") {
                Part::Not => to_do.push(ToDo::Part(!denied)),
                Part::Name(number) => {
                    backwards.extend(denied.then_some(Part::Not));
                    backwards.push(Part::Name(number));
                }
                Part::True => backwards.push(if denied { Part::False } else { Part::True }),
                Part::False => backwards.push(if denied { Part::True } else { Part::False }),
                Part::And => {
                    backwards.push(if denied { Part::Or } else { Part::And });
                    to_do.extend([ToDo::Part(denied), ToDo::Part(denied)]);
                }
                Part::Or => {
                    backwards.push(if denied { Part::And } else { Part::Or });
                    to_do.extend([ToDo::Part(denied), ToDo::Part(denied)]);
                }
                Part::Implies => {
                    backwards.push(if denied { Part::And } else { Part::Or });
                    to_do.extend([ToDo::Part(!denied), ToDo::Part(denied)]);
                }
                temporal if denied => panic!("{temporal:?} is denied"),
                Part::AX => {
                    backwards.push(Part::AX);
                    to_do.push(ToDo::Part(false));
                }
                Part::AG => {
                    backwards.push(Part::AG);
                    to_do.push(ToDo::Part(false));
                }
                Part::AF => {
                    backwards.push(Part::AU);
                    to_do.extend([ToDo::Put(Part::True), ToDo::Part(false)]);
                }
                Part::AU => {
                    backwards.push(Part::AU);
                    to_do.extend([ToDo::Part(false), ToDo::Part(false)]);
                }
                some @ (Part::EX | Part::EG | Part::EF | Part::EU) => {
                    panic!("{some:?} says \"some path\"")
                }
            }
        }
        backwards.reverse();
        Typed(backwards)
    }

    /// Puts the records of a rule that is pushed down behind those that are there, each part's
    /// behind those of its operands, and answers the number of the last: the rule's.
    pub fn put(&self, formulas: &mut Vec<Formula>) -> usize {
        // The numbers of the rules that aren't joined yet.
        let mut numbers: Vec<usize> = Vec::new();
        for part in &self.0 {
            let operands = numbers.split_off(numbers.len() - part.operands());
            let formula = match (part, &operands[..]) {
                (Part::Name(number), _) => Formula::Proposition(*number),
                (Part::True, _) => Formula::True,
                (Part::False, _) => Formula::False,
                // A name that is denied is one record.
                (Part::Not, _) => match formulas.pop() {
                    Some(Formula::Proposition(number)) => Formula::NotProposition(number),
                    other => panic!("{other:?} is denied"),
                },
                (Part::AX, &[a]) => Formula::Next(a),
                (Part::AG, &[a]) => Formula::Always(a),
                (Part::And, &[a, b]) => Formula::And(a, b),
                (Part::Or, &[a, b]) => Formula::Or(a, b),
                (Part::AU, &[a, b]) => Formula::Until(a, b),
                _ => panic!("{part:?} isn't pushed down"),
            };
            numbers.push(formulas.len());
            formulas.push(formula);
        }
        formulas.len() - 1
    }

    /// Tokens that are read as this rule. Each part may stand in needless brackets, so many pairs
    /// as are asked for each.
    pub fn tokens(&self, mut needless: impl FnMut() -> usize) -> Vec<Token> {
        let mut parts = self.0.iter().rev();
        let mut backwards = Vec::new();
        // Of a part it is asked how closely it binds at least, to stand without brackets.
        let mut to_do = vec![ToDo::Part(0)];
        while let Some(next) = to_do.pop() {
            let least = match next {
                ToDo::Put(token) => {
                    backwards.push(token);
                    continue;
                }
                ToDo::Part(least) => least,
            };
            let part = *parts.next().expect("a part's operands stand before it");
            let brackets = needless() + usize::from(part.closeness() < least);
            for _ in 0..brackets {
                backwards.push(Token::Close);
                to_do.push(ToDo::Put(Token::Open));
            }
            to_do.extend(pieces(part));
        }
        backwards.reverse();
        backwards
    }
}

/// A part as tokens and operands.
fn pieces(part: Part) -> Vec<ToDo<Token, usize>> {
    use ToDo::{Part as Operand, Put};
    let prefix = |token| vec![Put(token), Operand(3)];
    let chain = |left, token, right| vec![Operand(left), Put(token), Operand(right)];
    let until = |quantifier| {
        let inside = [Operand(0), Put(Token::U), Operand(0)];
        let mut pieces = vec![Put(quantifier), Put(Token::OpenSquare)];
        pieces.extend(inside);
        pieces.push(Put(Token::CloseSquare));
        pieces
    };
    match part {
        Part::Name(number) => vec![Put(Token::Name(number))],
        Part::True => vec![Put(Token::True)],
        Part::False => vec![Put(Token::False)],
        Part::Not => prefix(Token::Not),
        Part::AX => prefix(Token::AX),
        Part::AG => prefix(Token::AG),
        Part::AF => prefix(Token::AF),
        Part::EX => prefix(Token::EX),
        Part::EG => prefix(Token::EG),
        Part::EF => prefix(Token::EF),
        Part::And => chain(2, Token::And, 3),
        Part::Or => chain(1, Token::Or, 2),
        Part::Implies => chain(1, Token::Implies, 0),
        Part::AU => until(Token::A),
        Part::EU => until(Token::E),
    }
}

/// The rule as one types it, without needless brackets and with a space where it helps.
impl fmt::Display for Typed {
    fn fmt(&self, out: &mut fmt::Formatter<'_>) -> fmt::Result {
        let tokens = self.tokens(|| 0);
        for (at, &token) in tokens.iter().enumerate() {
            let close = at == 0
                || matches!(tokens[at - 1], Token::Not | Token::Open)
                || token == Token::Close;
            write!(out, "{}{}", if close { "" } else { " " }, spelled(token))?;
        }
        Ok(())
    }
}
