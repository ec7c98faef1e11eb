//! The lines of a page, and pieces of lines that know where they stand.

use super::Place;

/// The bytes that may stand in front of a text and are passed over.
const BYTE_ORDER_MARK: &[u8] = "\u{feff}".as_bytes();

/// A piece of a line.
#[derive(Clone, Debug)]
pub(super) struct Piece {
    /// Where its first character stands.
    pub place: Place,
    /// What it is.
    pub text: String,
}

/// Whether a character is one of the two blanks.
pub(super) fn is_blank(letter: char) -> bool {
    letter == ' ' || letter == '\t'
}

impl Piece {
    /// What is left of it behind so many characters.
    pub fn behind(&self, count: usize) -> Piece {
        let place = Place { column: self.place.column + count, ..self.place };
        Piece { place, text: self.text.chars().skip(count).collect() }
    }

    /// The same without the blanks around it.
    pub fn trimmed(&self) -> Piece {
        let before = self.text.chars().take_while(|&letter| is_blank(letter)).count();
        let mut left = self.behind(before);
        left.text.truncate(left.text.trim_end_matches(is_blank).len());
        left
    }

    /// What lies between the characters that are such, without the blanks around.
    pub fn split(&self, is_such: impl Fn(char) -> bool) -> Vec<Piece> {
        let mut pieces = Vec::new();
        let mut column = self.place.column;
        for text in self.text.split(is_such) {
            let piece = Piece { place: Place { column, ..self.place }, text: text.to_string() };
            column += text.chars().count() + 1;
            pieces.push(piece.trimmed());
        }
        pieces
    }

    /// The same, and what is empty is passed over.
    pub fn parts(&self, is_such: impl Fn(char) -> bool) -> Vec<Piece> {
        let mut parts = self.split(is_such);
        parts.retain(|part| !part.text.is_empty());
        parts
    }

    /// Whether there is nothing in it but blanks.
    pub fn is_empty(&self) -> bool {
        self.text.chars().all(is_blank)
    }

    /// How far its first character that isn't a blank is indented. A tab goes on to the next
    /// multiple of four.
    pub fn indent(&self) -> usize {
        let blanks = self.text.chars().take_while(|&letter| is_blank(letter)).count();
        self.width(blanks)
    }

    /// How wide so many of its characters are.
    pub fn width(&self, count: usize) -> usize {
        let wider = |width, letter| if letter == '\t' { (width / 4 + 1) * 4 } else { width + 1 };
        self.text.chars().take(count).fold(0, wider)
    }
}

/// The lines of a page without what ends them, or the place of the first byte that isn't text.
pub(super) fn lines(page: &[u8]) -> Result<Vec<Piece>, Place> {
    let page = page.strip_prefix(BYTE_ORDER_MARK).unwrap_or(page);
    let text = str::from_utf8(page).map_err(|error| {
        let before = str::from_utf8(&page[..error.valid_up_to()]).expect("it is text up to there");
        let line = before.split('\n').count();
        let last = before.rsplit('\n').next().unwrap_or_default();
        Place { line, column: last.chars().count() + 1 }
    })?;
    let mut texts: Vec<&str> = text.split('\n').collect();
    let last = texts.len() - 1;
    for ended in &mut texts[..last] {
        *ended = ended.strip_suffix('\r').unwrap_or(ended);
    }
    let numbered = texts.into_iter().enumerate();
    let line = |(before, text): (usize, &str)| Piece {
        place: Place { line: before + 1, column: 1 },
        text: text.to_string(),
    };
    Ok(numbered.map(line).collect())
}
