//! A formula with names in it: as a typed rule, or the places of its mistakes.
//!
//! Where a formula goes wrong is found by what may follow: an operand, a `[` behind `A` and `E`, or
//! what joins or closes. What binds closer than what has no part in it. What stands under `!` or
//! left of `->` is a stretch of words and signs, whose end or beginning the brackets tell.

use super::lines::Piece;
use super::sides::proposition;
use super::{Place, SIDE_NAMES};
use crate::rules::{spelled, tokens, Token, MOST_DEPTH};

/// A formula as a typed rule.
pub(super) struct Formula {
    /// Its tokens.
    pub tokens: Vec<Token>,
    /// The same as text: names are their numbers, and there is one space where there are blanks.
    pub typed: String,
}

/// The words and signs of a line of a formula, whether there are such or not. Letters, digits, `_`
/// and `.` that touch are one word; of all else, each character is a sign, but for `->`.
pub(super) fn words(line: &Piece) -> Vec<Piece> {
    let in_word = |letter: &char| letter.is_alphanumeric() || *letter == '_' || *letter == '.';
    let mut words = Vec::new();
    let mut rest = line.trimmed();
    while !rest.text.is_empty() {
        let length = rest.text.chars().take_while(in_word).count();
        let length = if rest.text.starts_with("->") { 2 } else { length.max(1) };
        let text = rest.text.chars().take(length).collect();
        words.push(Piece { text, ..rest.clone() });
        rest = rest.behind(length).trimmed();
    }
    words
}

/// Reads the words and signs of a formula, of which there is one at least. Where a word is wrong,
/// nothing is said of how they are put together; where that is wrong, nothing is said of paths.
pub(super) fn read_formula(words: &[Piece], labels: &[Vec<String>]) -> Result<Formula, Vec<Place>> {
    let read: Vec<Option<Token>> = words.iter().map(|word| token(&word.text, labels)).collect();
    let unknown = (0..words.len()).filter(|&at| read[at].is_none());
    told(words, unknown)?;
    let tokens: Vec<Token> = read.into_iter().flatten().collect();
    told(words, first_wrong(&tokens))?;
    told(words, (0..words.len()).filter(|&at| speaks_of_some_path(&tokens, at)))?;

    let mut typed = String::new();
    for (at, &token) in tokens.iter().enumerate() {
        if at > 0 && !touch(&words[at - 1], &words[at]) {
            typed.push(' ');
        }
        typed.push_str(&spelled(token));
    }
    Ok(Formula { tokens, typed })
}

/// The places of these words, if there are any.
fn told(words: &[Piece], wrong: impl IntoIterator<Item = usize>) -> Result<(), Vec<Place>> {
    let places: Vec<Place> = wrong.into_iter().map(|at| words[at].place).collect();
    if places.is_empty() {
        Ok(())
    } else {
        Err(places)
    }
}

/// Whether there is nothing between two words.
fn touch(word: &Piece, next: &Piece) -> bool {
    let end = word.place.column + word.text.chars().count();
    next.place == Place { column: end, ..word.place }
}

/// The token that a word or sign is: one of the logic, or a label that one side has; with its side
/// in front, of that side.
fn token(word: &str, labels: &[Vec<String>]) -> Option<Token> {
    if let Some(&[token]) = tokens(word.as_bytes()).as_deref() {
        return Some(token);
    }
    let (of, label) = match word.split_once('.') {
        Some((side, label)) => (Some(side), label),
        None => (None, word),
    };
    let mut found = (0..labels.len()).filter_map(|side| {
        let meant = of.is_none_or(|of| of == SIDE_NAMES[side]);
        let number = labels[side].iter().position(|known| meant && known == label)?;
        Some(proposition(side, number))
    });
    found.next().filter(|_| found.next().is_none())
}

/// A bracket that is open.
#[derive(Clone, Copy, PartialEq)]
enum Open {
    Round,
    /// A square one without its `U`.
    Square,
    /// A square one behind its `U`.
    SquareBehindU,
}

/// What has to come next.
#[derive(Clone, Copy, PartialEq)]
enum Wanted {
    /// An operand, or what stands in front of one.
    Operand,
    /// The bracket behind `A` and `E`.
    Bracket,
    /// What joins two operands, or closes a bracket; or the end.
    Joint,
}

/// The first token that can't stand where it does behind those before it, or the last one where a
/// formula ends too early. There is one at least.
fn first_wrong(tokens: &[Token]) -> Option<usize> {
    let mut open: Vec<Open> = Vec::new();
    let mut wanted = Wanted::Operand;
    for (at, token) in tokens.iter().enumerate() {
        wanted = match (wanted, token, open.last()) {
            (Wanted::Operand, Token::Name(_) | Token::True | Token::False, _) => Wanted::Joint,
            (Wanted::Operand, Token::Not | Token::AX | Token::AG | Token::AF, _) => wanted,
            (Wanted::Operand, Token::EX | Token::EG | Token::EF, _) => wanted,
            (Wanted::Operand, Token::A | Token::E, _) => Wanted::Bracket,
            (Wanted::Operand, Token::Open, _) if open.len() < MOST_DEPTH => {
                open.push(Open::Round);
                Wanted::Operand
            }
            (Wanted::Bracket, Token::OpenSquare, _) if open.len() < MOST_DEPTH => {
                open.push(Open::Square);
                Wanted::Operand
            }
            (Wanted::Joint, Token::And | Token::Or | Token::Implies, _) => Wanted::Operand,
            (Wanted::Joint, Token::U, Some(Open::Square)) => {
                open.pop();
                open.push(Open::SquareBehindU);
                Wanted::Operand
            }
            (Wanted::Joint, Token::Close, Some(Open::Round))
            | (Wanted::Joint, Token::CloseSquare, Some(Open::SquareBehindU)) => {
                open.pop();
                Wanted::Joint
            }
            _ => return Some(at),
        };
    }
    let ended = wanted == Wanted::Joint && open.is_empty();
    (!ended).then(|| tokens.len() - 1)
}

/// Whether a token of a formula says "some path", or is temporal and stands under `!` or left of
/// `->`.
fn speaks_of_some_path(tokens: &[Token], at: usize) -> bool {
    match tokens[at] {
        Token::EX | Token::EG | Token::EF | Token::E => true,
        Token::AX | Token::AG | Token::AF | Token::A => {
            let under = |not: usize| not < at && at < closest_end(tokens, not + 1);
            let left_of = |arrow: usize| left_start(tokens, arrow) <= at && at < arrow;
            (0..tokens.len()).any(|other| match tokens[other] {
                Token::Not => under(other),
                Token::Implies => left_of(other),
                _ => false,
            })
        }
        _ => false,
    }
}

/// How many brackets a token opens, less those that it closes.
fn opens(token: Token) -> isize {
    match token {
        Token::Open | Token::OpenSquare => 1,
        Token::Close | Token::CloseSquare => -1,
        _ => 0,
    }
}

/// Where the closest part that begins here ends: behind the first token that is an operand outside
/// of brackets, or that closes the last of them.
fn closest_end(tokens: &[Token], from: usize) -> usize {
    let mut open = 0;
    for (at, &token) in tokens.iter().enumerate().skip(from) {
        open += opens(token);
        let operand = matches!(token, Token::Name(_) | Token::True | Token::False);
        if open == 0 && (operand || opens(token) < 0) {
            return at + 1;
        }
    }
    tokens.len()
}

/// Where the left of a `->` begins: behind the bracket that is open there, behind the `U` in it, or
/// behind the `->` before.
fn left_start(tokens: &[Token], arrow: usize) -> usize {
    let mut closed = 0;
    for at in (0..arrow).rev() {
        closed -= opens(tokens[at]);
        let between = matches!(tokens[at], Token::U | Token::Implies);
        if closed < 0 || (closed == 0 && between) {
            return at + 1;
        }
    }
    0
}
