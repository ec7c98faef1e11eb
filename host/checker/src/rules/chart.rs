//! Every way in which the grammar reads some tokens.
//!
//! The lines of the grammar stand here as data. For each stretch of tokens, from the shortest
//! on, and for each sort of thing that a line makes, all readings are put down, by every line and
//! by every way of cutting the stretch into what the line asks for. Nothing is known here of
//! what binds closer than what, but by the lines. Work grows with a power of the length, so that
//! this is for short rules.

use super::typed::{Part, Typed};
use super::words::Token;

/// What a line of the grammar makes.
#[derive(Clone, Copy, PartialEq)]
enum Sort {
    /// A rule, or what stands right of `->`.
    Rule,
    /// What stands left of `->`, or of `|`.
    Ors,
    /// What stands right of `|`, or left of `&`.
    Ands,
    /// What stands right of `&`, or behind a prefix.
    Closest,
}

/// The sorts, those first of which others may consist.
const SORTS: [Sort; 4] = [Sort::Closest, Sort::Ands, Sort::Ors, Sort::Rule];

/// What a line asks for, one after the other.
enum Piece {
    /// This token.
    Is(Token),
    /// Tokens of this sort.
    Of(Sort),
}

use Piece::{Is, Of};

/// A line of the grammar: what it makes of which pieces, and the part that joins the operands
/// among them, if there is one.
type Line = (Sort, &'static [Piece], Option<Part>);

/// The grammar, but for the names, each of which is of the closest sort.
const GRAMMAR: [Line; 18] = [
    (Sort::Rule, &[Of(Sort::Ors)], None),
    (Sort::Rule, &[Of(Sort::Ors), Is(Token::Implies), Of(Sort::Rule)], Some(Part::Implies)),
    (Sort::Ors, &[Of(Sort::Ands)], None),
    (Sort::Ors, &[Of(Sort::Ors), Is(Token::Or), Of(Sort::Ands)], Some(Part::Or)),
    (Sort::Ands, &[Of(Sort::Closest)], None),
    (Sort::Ands, &[Of(Sort::Ands), Is(Token::And), Of(Sort::Closest)], Some(Part::And)),
    (Sort::Closest, &[Is(Token::Open), Of(Sort::Rule), Is(Token::Close)], None),
    (Sort::Closest, &[Is(Token::True)], Some(Part::True)),
    (Sort::Closest, &[Is(Token::False)], Some(Part::False)),
    (Sort::Closest, &[Is(Token::Not), Of(Sort::Closest)], Some(Part::Not)),
    (Sort::Closest, &[Is(Token::AX), Of(Sort::Closest)], Some(Part::AX)),
    (Sort::Closest, &[Is(Token::AG), Of(Sort::Closest)], Some(Part::AG)),
    (Sort::Closest, &[Is(Token::AF), Of(Sort::Closest)], Some(Part::AF)),
    (Sort::Closest, &[Is(Token::EX), Of(Sort::Closest)], Some(Part::EX)),
    (Sort::Closest, &[Is(Token::EG), Of(Sort::Closest)], Some(Part::EG)),
    (Sort::Closest, &[Is(Token::EF), Of(Sort::Closest)], Some(Part::EF)),
    (Sort::Closest, UNTIL_ON_ALL_PATHS, Some(Part::AU)),
    (Sort::Closest, UNTIL_ON_SOME_PATH, Some(Part::EU)),
];

const UNTIL_ON_ALL_PATHS: &[Piece] = &[
    Is(Token::A),
    Is(Token::OpenSquare),
    Of(Sort::Rule),
    Is(Token::U),
    Of(Sort::Rule),
    Is(Token::CloseSquare),
];

const UNTIL_ON_SOME_PATH: &[Piece] = &[
    Is(Token::E),
    Is(Token::OpenSquare),
    Of(Sort::Rule),
    Is(Token::U),
    Of(Sort::Rule),
    Is(Token::CloseSquare),
];

/// The readings of every stretch of some tokens, by sort.
struct Chart<'a> {
    tokens: &'a [Token],
    /// For each place where a stretch may begin, each where it may end, and each sort.
    readings: Vec<Vec<Typed>>,
}

impl Chart<'_> {
    /// Where the readings of a stretch as a sort stand.
    fn place(&self, sort: Sort, from: usize, to: usize) -> usize {
        (from * (self.tokens.len() + 1) + to) * SORTS.len() + sort as usize
    }

    /// The readings of a stretch as a sort.
    fn of(&self, sort: Sort, from: usize, to: usize) -> &[Typed] {
        &self.readings[self.place(sort, from, to)]
    }

    /// Every way in which a stretch is these pieces: the operands among them.
    fn ways(&self, pieces: &[Piece], from: usize, to: usize) -> Vec<Vec<Typed>> {
        let Some((first, rest)) = pieces.split_first() else {
            return if from == to { vec![vec![]] } else { vec![] };
        };
        if to - from < pieces.len() {
            return vec![];
        }
        match first {
            Is(token) if self.tokens[from] == *token => self.ways(rest, from + 1, to),
            Is(_) => vec![],
            Of(sort) => {
                let mut ways = Vec::new();
                // Each of the other pieces has a token at least.
                for cut in from + 1..=to - rest.len() {
                    for operand in self.of(*sort, from, cut) {
                        for others in self.ways(rest, cut, to) {
                            ways.push([vec![operand.clone()], others].concat());
                        }
                    }
                }
                ways
            }
        }
    }

    /// The readings of a stretch by one line.
    fn by_line(&self, (_, pieces, join): &Line, from: usize, to: usize) -> Vec<Typed> {
        let joined = |operands: Vec<Typed>| match join {
            Some(part) => Typed::new(*part, operands),
            None => operands.into_iter().next().expect("such a line has one operand"),
        };
        self.ways(pieces, from, to).into_iter().map(joined).collect()
    }
}

/// Every reading of some tokens as one rule.
pub fn readings(tokens: &[Token]) -> Vec<Typed> {
    let count = tokens.len();
    let places = (count + 1) * (count + 1) * SORTS.len();
    let mut chart = Chart { tokens, readings: vec![Vec::new(); places] };
    for length in 1..=count {
        for from in 0..=count - length {
            let to = from + length;
            if let [Token::Name(number)] = tokens[from..to] {
                let place = chart.place(Sort::Closest, from, to);
                chart.readings[place].push(Typed::new(Part::Name(number), []));
            }
            for sort in SORTS {
                let place = chart.place(sort, from, to);
                for line in GRAMMAR.iter().filter(|(made, ..)| *made == sort) {
                    let read = chart.by_line(line, from, to);
                    chart.readings[place].extend(read);
                }
            }
        }
    }
    chart.of(Sort::Rule, 0, count).to_vec()
}
