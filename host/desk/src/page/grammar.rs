//! How formulas are put together, and where one isn't as it should be. The library says whether something is wrong; here is found where.

use std::ops::Range;

use gorzhani::MOST_BRACKETS;

use super::typed::{Path, Sign, Token};
use crate::formulas::{Formula, Formulas};
use crate::mistakes::Mistake;

/// A bracket that is open.
#[derive(Clone, Copy, PartialEq, Eq)]
enum Bracket {
    /// `(`.
    Round,
    /// `[`, before its `U`.
    Left,
    /// `[`, behind its `U`.
    Right,
}

impl Bracket {
    /// What closes it, or goes on in it.
    fn awaits(self) -> &'static str {
        match self {
            Bracket::Round => "')'",
            Bracket::Left => "'U'",
            Bracket::Right => "']'",
        }
    }
}

/// What may stand next.
#[derive(Clone, Copy, PartialEq, Eq)]
enum Next {
    /// A formula.
    Part,
    /// The bracket behind `A` or `E`.
    Square,
    /// What stands behind a formula.
    Behind,
}

/// The first place at which a formula isn't of the grammar.
pub fn misplaced(tokens: &[Token]) -> Option<Mistake> {
    let mut open: Vec<Bracket> = Vec::new();
    let mut next = Next::Part;
    for token in tokens {
        let inner = open.last().copied();
        let bracket = match token.sign {
            Sign::Round => Some(Bracket::Round),
            Sign::Square => Some(Bracket::Left),
            _ => None,
        };
        next = match (next, token.sign, inner) {
            (Next::Part, Sign::Round, _) | (Next::Square, Sign::Square, _) => Next::Part,
            (Next::Part, Sign::True | Sign::False | Sign::Name(_), _) => Next::Behind,
            (Next::Part, Sign::Not | Sign::Every(_) | Sign::Some(_), _) => Next::Part,
            (Next::Part, Sign::A | Sign::E, _) => Next::Square,
            (Next::Behind, Sign::And | Sign::Or | Sign::Implies, _) => Next::Part,
            (Next::Behind, Sign::U, Some(Bracket::Left)) => {
                open.pop();
                open.push(Bracket::Right);
                Next::Part
            }
            (Next::Behind, Sign::RoundEnd, Some(Bracket::Round))
            | (Next::Behind, Sign::SquareEnd, Some(Bracket::Right)) => {
                open.pop();
                Next::Behind
            }
            _ => {
                let what = format!(
                    "'{}' can't stand here: {} (19)",
                    token.piece.text,
                    awaited(next, inner)
                );
                return Some(token.piece.mistake(what));
            }
        };
        if bracket.is_some() && open.len() == MOST_BRACKETS {
            let what =
                format!("a 33rd open bracket: {MOST_BRACKETS} at most may be open together (19)");
            return Some(token.piece.mistake(what));
        }
        open.extend(bracket);
    }
    let last = tokens.last()?;
    let missing = match (next, open.last()) {
        (Next::Part, _) => format!("behind '{}' a formula is missing", last.piece.text),
        (Next::Square, _) => format!("behind '{}' a '[' is missing", last.piece.text),
        (Next::Behind, Some(bracket)) => format!("{} is missing", bracket.awaits()),
        (Next::Behind, None) => return None,
    };
    Some(last.piece.mistake(format!("the formula ends too early: {missing} (19)")))
}

/// What may stand where something else stands.
fn awaited(next: Next, inner: Option<Bracket>) -> String {
    match (next, inner) {
        (Next::Part, _) => "a formula is awaited, as a label, '!', 'AX', 'A [' or '('".to_string(),
        (Next::Square, _) => "behind 'A' and 'E' stands '['".to_string(),
        (Next::Behind, None) => "behind a formula stands '&', '|', '->' or its end".to_string(),
        (Next::Behind, Some(bracket)) => {
            format!("behind a formula stands '&', '|', '->' or here {}", bracket.awaits())
        }
    }
}

/// The number of the formula that these words and signs are. They are of the grammar, and at most
/// 32 brackets are open together.
pub fn formula(tokens: &[Token], formulas: &mut Formulas) -> usize {
    Parser::new(tokens, formulas).rule()
}

/// The words that speak of some path, or of every path in a place where it can't be said.
pub fn some_path(tokens: &[Token]) -> Vec<Mistake> {
    let mut formulas = Formulas::default();
    let mut parser = Parser::new(tokens, &mut formulas);
    parser.rule();
    let told = |(token, place): (&Token, &Option<&str>)| {
        let word = token.piece.text;
        let what = match (token.sign, place) {
            (Sign::Some(_) | Sign::E, _) => {
                format!("'{word}' speaks of some path: rules speak of every path (20)")
            }
            (Sign::Every(_) | Sign::A, Some(place)) => {
                format!("'{word}' stands {place}: nothing that speaks of paths can (20)")
            }
            _ => return None,
        };
        Some(token.piece.mistake(what))
    };
    tokens.iter().zip(&parser.places).filter_map(told).collect()
}

/// Reads a formula. It calls itself for brackets alone, and loops over whatever else is repeated.
struct Parser<'p, 'a> {
    tokens: &'p [Token<'a>],
    at: usize,
    formulas: &'p mut Formulas,
    /// For each token whether it stands under `!` or left of `->`, in words.
    places: Vec<Option<&'static str>>,
}

impl<'p, 'a> Parser<'p, 'a> {
    fn new(tokens: &'p [Token<'a>], formulas: &'p mut Formulas) -> Parser<'p, 'a> {
        Parser { tokens, at: 0, formulas, places: vec![None; tokens.len()] }
    }

    fn take(&mut self) -> Option<Sign> {
        let sign = self.tokens.get(self.at)?.sign;
        self.at += 1;
        Some(sign)
    }

    fn takes(&mut self, sign: Sign) -> bool {
        let here = self.tokens.get(self.at).is_some_and(|token| token.sign == sign);
        self.at += usize::from(here);
        here
    }

    /// Says of some tokens where they stand, unless something nearer is said of them.
    fn stand(&mut self, tokens: Range<usize>, place: &'static str) {
        for said in &mut self.places[tokens] {
            said.get_or_insert(place);
        }
    }

    fn rule(&mut self) -> usize {
        let mut lefts = Vec::new();
        loop {
            let from = self.at;
            let part = self.disjunction();
            let end = self.at;
            if !self.takes(Sign::Implies) {
                let implies = |right, left| self.formulas.add(Formula::Implies(left, right));
                return lefts.into_iter().rev().fold(part, implies);
            }
            self.stand(from..end, "left of '->'");
            lefts.push(part);
        }
    }

    fn disjunction(&mut self) -> usize {
        let mut left = self.conjunction();
        while self.takes(Sign::Or) {
            let right = self.conjunction();
            left = self.formulas.add(Formula::Or(left, right));
        }
        left
    }

    fn conjunction(&mut self) -> usize {
        let mut left = self.closest();
        while self.takes(Sign::And) {
            let right = self.closest();
            left = self.formulas.add(Formula::And(left, right));
        }
        left
    }

    fn closest(&mut self) -> usize {
        let mut first = None;
        let mut prefixes: Vec<Sign> = Vec::new();
        while let Some(sign) = self.prefix() {
            if sign == Sign::Not {
                first.get_or_insert(self.at - 1);
            }
            // Two `!` behind one another are nothing.
            if sign == Sign::Not && prefixes.last() == Some(&Sign::Not) {
                prefixes.pop();
            } else {
                prefixes.push(sign);
            }
        }
        let part = self.part();
        if let Some(first) = first {
            self.stand(first..self.at, "under '!'");
        }
        prefixes.into_iter().rev().fold(part, |part, prefix| {
            self.formulas.add(match prefix {
                Sign::Every(Path::Next) | Sign::Some(Path::Next) => Formula::Next(part),
                Sign::Every(Path::Always) | Sign::Some(Path::Always) => Formula::Always(part),
                Sign::Every(Path::Finally) | Sign::Some(Path::Finally) => Formula::Finally(part),
                _ => Formula::Not(part),
            })
        })
    }

    fn prefix(&mut self) -> Option<Sign> {
        let sign = self.tokens.get(self.at)?.sign;
        let is_prefix = matches!(sign, Sign::Not | Sign::Every(_) | Sign::Some(_));
        self.at += usize::from(is_prefix);
        is_prefix.then_some(sign)
    }

    /// What stands behind prefixes.
    fn part(&mut self) -> usize {
        match self.take() {
            Some(Sign::Name(proposition)) => self.formulas.add(Formula::Label(proposition)),
            Some(Sign::False) => self.formulas.add(Formula::False),
            Some(Sign::Round) => {
                let inner = self.rule();
                self.takes(Sign::RoundEnd);
                inner
            }
            Some(Sign::A | Sign::E) => {
                self.takes(Sign::Square);
                let left = self.rule();
                self.takes(Sign::U);
                let right = self.rule();
                self.takes(Sign::SquareEnd);
                self.formulas.add(Formula::Until(left, right))
            }
            _ => self.formulas.add(Formula::True),
        }
    }
}
