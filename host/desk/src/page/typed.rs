//! The words and signs of formulas as they stand on a page, with their places.

use std::collections::HashMap;

use super::markdown::{is_blank, Piece};
use super::sides::{is_name, proposition, LOGIC, NAMES};
use crate::design::{Side, SIDES, SIDE_LABELS, SIDE_WORDS};
use crate::mistakes::{suggested, Mistake};

/// What a temporal prefix says of a path.
#[derive(Clone, Copy, Debug, PartialEq, Eq)]
pub enum Path {
    /// The next step.
    Next,
    /// Every step.
    Always,
    /// Some step.
    Finally,
}

/// A word or a sign of a formula.
#[derive(Clone, Copy, Debug, PartialEq, Eq)]
pub enum Sign {
    /// `TRUE`.
    True,
    /// `FALSE`.
    False,
    /// A label or `p0` to `p47`.
    Name(u8),
    /// `!`.
    Not,
    /// `AX`, `AG`, `AF`.
    Every(Path),
    /// `EX`, `EG`, `EF`.
    Some(Path),
    /// `A`, in front of `[`.
    A,
    /// `E`, in front of `[`.
    E,
    /// `U`.
    U,
    /// `&`.
    And,
    /// `|`.
    Or,
    /// `->`.
    Implies,
    /// `(`.
    Round,
    /// `)`.
    RoundEnd,
    /// `[`.
    Square,
    /// `]`.
    SquareEnd,
}

/// A word or a sign with its place.
#[derive(Clone, Copy, Debug)]
pub struct Token<'a> {
    /// What it is.
    pub sign: Sign,
    /// Where it stands.
    pub piece: Piece<'a>,
}

/// The labels of a page.
pub struct Labels<'a> {
    sides: &'a [Option<Side>; SIDES],
    /// The sides that have a label, with its number there.
    propositions: HashMap<&'a str, Vec<(usize, u8)>>,
}

impl<'a> Labels<'a> {
    /// The labels of these sides.
    pub fn new(sides: &'a [Option<Side>; SIDES]) -> Labels<'a> {
        let mut propositions: HashMap<&str, Vec<(usize, u8)>> = HashMap::new();
        for (number, side) in sides.iter().enumerate() {
            let labels = side.iter().flat_map(|side| &side.labels).enumerate();
            for (bit, label) in labels {
                // A label that is too many is told where it stands, and is known all the same.
                let proposition = (SIDE_LABELS * number + bit.min(SIDE_LABELS - 1)) as u8;
                propositions.entry(label).or_default().push((number, proposition));
            }
        }
        Labels { sides, propositions }
    }

    /// A word that is none of the logic, or what is wrong with it.
    fn sign(&self, word: &str) -> Result<Sign, String> {
        if let Some(proposition) = proposition(word) {
            return Ok(Sign::Name(proposition));
        }
        match word.split_once('.') {
            None if is_name(word) => self.label(word),
            Some((side, label)) if is_name(side) && is_name(label) => self.of_side(side, label),
            _ => Err(format!(
                "'{word}' is no word of formulas, and no label can be called so: {NAMES} (19)"
            )),
        }
    }

    fn label(&self, word: &str) -> Result<Sign, String> {
        match self.propositions.get(word).map(Vec::as_slice) {
            Some(&[(_, proposition)]) => Ok(Sign::Name(proposition)),
            Some(several) => {
                let sides: Vec<&str> = several.iter().map(|&(side, _)| SIDE_WORDS[side]).collect();
                let whole: Vec<String> =
                    sides.iter().map(|side| format!("{side}.{word}")).collect();
                let (sides, whole) = (sides.join(" and "), whole.join(" or "));
                Err(format!("'{word}' is a label of {sides}: write {whole}"))
            }
            None => {
                let known = (0..SIDES).flat_map(|side| self.known(side));
                let near = suggested(word, known.chain(LOGIC));
                Err(format!("no label '{word}'{near} (7)"))
            }
        }
    }

    fn of_side(&self, side: &str, label: &str) -> Result<Sign, String> {
        let known = |&number: &usize| self.sides[number].is_some();
        let sides: Vec<usize> = (0..SIDES).filter(known).collect();
        let Some(&number) = sides.iter().find(|&&number| SIDE_WORDS[number] == side) else {
            let near = suggested(side, sides.iter().map(|&number| SIDE_WORDS[number]));
            return Err(format!("no label '{side}.{label}': no side is called '{side}'{near} (7)"));
        };
        let here = self.propositions.get(label).into_iter().flatten();
        match here.into_iter().find(|&&(other, _)| other == number) {
            Some(&(_, proposition)) => Ok(Sign::Name(proposition)),
            None => {
                let near = suggested(label, self.known(number));
                Err(format!("no label '{label}' in {side}{near} (7)"))
            }
        }
    }

    /// The labels of a side by name.
    fn known(&self, side: usize) -> impl Iterator<Item = &str> {
        let labels = self.sides[side].iter().flat_map(|side| &side.labels);
        labels.map(String::as_str).take(SIDE_LABELS)
    }
}

/// The words and signs of the lines of a formula, whether there are such or not.
pub fn pieces<'a>(lines: &[Piece<'a>]) -> Vec<Piece<'a>> {
    let in_word = |sign: char| sign.is_alphanumeric() || sign == '_' || sign == '.';
    let mut pieces = Vec::new();
    for line in lines {
        let (mut rest, mut column) = (line.text, line.column);
        while let Some(first) = rest.chars().next() {
            let length = match first {
                _ if in_word(first) => rest.find(|sign| !in_word(sign)).unwrap_or(rest.len()),
                '-' if rest.starts_with("->") => 2,
                _ => first.len_utf8(),
            };
            let (text, behind) = rest.split_at(length);
            if !is_blank(first) {
                pieces.push(Piece { line: line.line, column, text });
            }
            (rest, column) = (behind, column + text.chars().count());
        }
    }
    pieces
}

/// The words and signs of a formula, or none where one of them is unknown.
pub fn tokens<'a>(
    pieces: &[Piece<'a>],
    labels: &Labels,
    mistakes: &mut Vec<Mistake>,
) -> Option<Vec<Token<'a>>> {
    let before = mistakes.len();
    let mut tokens = Vec::new();
    for &piece in pieces {
        match sign(piece.text, labels) {
            Ok(sign) => tokens.push(Token { sign, piece }),
            Err(what) => mistakes.push(piece.mistake(what)),
        }
    }
    (mistakes.len() == before).then_some(tokens)
}

fn sign(text: &str, labels: &Labels) -> Result<Sign, String> {
    Ok(match text {
        "TRUE" => Sign::True,
        "FALSE" => Sign::False,
        "!" => Sign::Not,
        "AX" => Sign::Every(Path::Next),
        "AG" => Sign::Every(Path::Always),
        "AF" => Sign::Every(Path::Finally),
        "EX" => Sign::Some(Path::Next),
        "EG" => Sign::Some(Path::Always),
        "EF" => Sign::Some(Path::Finally),
        "A" => Sign::A,
        "E" => Sign::E,
        "U" => Sign::U,
        "&" => Sign::And,
        "|" => Sign::Or,
        "->" => Sign::Implies,
        "(" => Sign::Round,
        ")" => Sign::RoundEnd,
        "[" => Sign::Square,
        "]" => Sign::SquareEnd,
        word if word.starts_with(|first: char| first.is_alphanumeric() || "_.".contains(first)) => {
            return labels.sign(word)
        }
        sign => return Err(format!("there is no sign '{sign}' in formulas{} (19)", meant(sign))),
    })
}

/// The sign that was meant by one that other languages have.
fn meant(sign: &str) -> String {
    let meant = match sign {
        "~" | "¬" => "!",
        "∧" | "*" => "&",
        "∨" | "+" => "|",
        "-" | "=" | "<" | ">" | "→" | "⇒" => "->",
        "{" => "(",
        "}" => ")",
        _ => return String::new(),
    };
    format!("; there is '{meant}'")
}

/// A formula as the library reads it, with a blank between two words or signs.
pub fn text(tokens: &[Token]) -> String {
    let word = |token: &Token| match token.sign {
        Sign::Name(proposition) => format!("p{proposition}"),
        _ => token.piece.text.to_string(),
    };
    tokens.iter().map(word).collect::<Vec<String>>().join(" ") + "\n"
}

/// How many formula records a formula makes: one for each name, constant and connective, and two
/// for `AF`; `!` and brackets make none.
pub fn records(tokens: &[Token]) -> usize {
    let records = |token: &Token| match token.sign {
        Sign::Every(Path::Finally) => 2,
        Sign::True | Sign::False | Sign::Name(_) | Sign::Every(_) | Sign::A => 1,
        Sign::And | Sign::Or | Sign::Implies => 1,
        _ => 0,
    };
    tokens.iter().map(records).sum()
}
