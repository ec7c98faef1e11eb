//! The words and signs of a line.

use crate::bytes::PROPOSITIONS;

/// A word or a sign.
#[derive(Clone, Copy, Debug, PartialEq, Eq, PartialOrd, Ord)]
pub enum Token {
    /// A name, p0 to p47.
    Name(u8),
    /// `TRUE`.
    True,
    /// `FALSE`.
    False,
    /// `!`.
    Not,
    /// `AX`.
    AX,
    /// `AG`.
    AG,
    /// `AF`.
    AF,
    /// `EX`.
    EX,
    /// `EG`.
    EG,
    /// `EF`.
    EF,
    /// `A`, in front of `[`.
    A,
    /// `E`, in front of `[`.
    E,
    /// `U`, between `[` and `]`.
    U,
    /// `&`.
    And,
    /// `|`.
    Or,
    /// `->`.
    Implies,
    /// `(`.
    Open,
    /// `)`.
    Close,
    /// `[`.
    OpenSquare,
    /// `]`.
    CloseSquare,
}

/// Every token but the names, and how it is typed.
pub const TOKENS: [(Token, &str); 19] = [
    (Token::True, "TRUE"),
    (Token::False, "FALSE"),
    (Token::Not, "!"),
    (Token::AX, "AX"),
    (Token::AG, "AG"),
    (Token::AF, "AF"),
    (Token::EX, "EX"),
    (Token::EG, "EG"),
    (Token::EF, "EF"),
    (Token::A, "A"),
    (Token::E, "E"),
    (Token::U, "U"),
    (Token::And, "&"),
    (Token::Or, "|"),
    (Token::Implies, "->"),
    (Token::Open, "("),
    (Token::Close, ")"),
    (Token::OpenSquare, "["),
    (Token::CloseSquare, "]"),
];

/// How a token is typed.
pub fn spelled(token: Token) -> String {
    if let Token::Name(number) = token {
        return format!("p{number}");
    }
    let (_, typed) = TOKENS.iter().find(|(known, _)| *known == token).expect("all are listed");
    typed.to_string()
}

/// The tokens of a line, unless something in it is none. Letters and digits that touch are one
/// word, and the space is the only blank.
pub fn tokens(line: &[u8]) -> Option<Vec<Token>> {
    let mut tokens = Vec::new();
    let mut rest = line;
    while !rest.is_empty() {
        let in_word = rest.iter().take_while(|byte| byte.is_ascii_alphanumeric()).count();
        let length = match rest[0] {
            b'-' => rest.len().min(2),
            _ => in_word.max(1),
        };
        let (piece, behind) = rest.split_at(length);
        if piece != b" " {
            tokens.push(token(piece)?);
        }
        rest = behind;
    }
    Some(tokens)
}

/// The token that is typed so.
fn token(piece: &[u8]) -> Option<Token> {
    let listed = TOKENS.iter().find(|(_, typed)| typed.as_bytes() == piece);
    listed.map_or_else(|| name(piece), |&(token, _)| Some(token))
}

/// The name that is typed so: a `p`, then a number as one writes it, with no zero in front.
fn name(piece: &[u8]) -> Option<Token> {
    let digits = str::from_utf8(piece.strip_prefix(b"p")?).ok()?;
    let number: u8 = digits.parse().ok()?;
    let named = usize::from(number) < PROPOSITIONS && number.to_string() == digits;
    named.then_some(Token::Name(number))
}

/// The most brackets that are open together, round and square ones. Where they don't match
/// each other it is some number.
pub fn depth(tokens: &[Token]) -> usize {
    let (mut open, mut most) = (0_usize, 0);
    for token in tokens {
        match token {
            Token::Open | Token::OpenSquare => open += 1,
            Token::Close | Token::CloseSquare => open = open.saturating_sub(1),
            _ => {}
        }
        most = most.max(open);
    }
    most
}
