//! The lines of a page and what they are: headings and sections, fences, items of numbered lists, tables. Everything keeps its place.

use std::ops::Range;

use crate::mistakes::Mistake;

/// A piece of a line, with its place.
#[derive(Clone, Copy, Debug, PartialEq, Eq)]
pub struct Piece<'a> {
    /// The line, from 1.
    pub line: usize,
    /// The column of its first character, from 1.
    pub column: usize,
    /// The characters.
    pub text: &'a str,
}

impl<'a> Piece<'a> {
    /// A mistake with this piece marked.
    pub fn mistake(self, what: impl Into<String>) -> Mistake {
        let length = self.text.chars().count().max(1);
        Mistake { line: self.line, column: self.column, length, what: what.into() }
    }

    /// What is left without its first bytes.
    fn behind(self, bytes: usize) -> Piece<'a> {
        let (before, text) = self.text.split_at(bytes);
        Piece { column: self.column + before.chars().count(), text, ..self }
    }

    /// The piece without such characters at its ends.
    pub fn trimmed(self, outer: fn(char) -> bool) -> Piece<'a> {
        let begin = self.text.len() - self.text.trim_start_matches(outer).len();
        let piece = self.behind(begin);
        Piece { text: piece.text.trim_end_matches(outer), ..piece }
    }

    /// The pieces between such characters, empty ones too.
    pub fn split(self, between: fn(char) -> bool) -> impl Iterator<Item = Piece<'a>> {
        let mut next = self.column;
        self.text.split(between).map(move |text| {
            let column = next;
            next += text.chars().count() + 1;
            Piece { column, text, ..self }
        })
    }

    /// The pieces between such characters, without empty ones.
    pub fn words(self, between: fn(char) -> bool) -> impl Iterator<Item = Piece<'a>> {
        self.split(between).filter(|piece| !piece.text.is_empty())
    }
}

/// The section whose lists are rules.
pub const RULES: &str = "Rules";

/// A blank: a space or a tab.
pub fn is_blank(sign: char) -> bool {
    sign == ' ' || sign == '\t'
}

/// What a line is.
#[derive(Clone, Copy, Debug, PartialEq, Eq)]
pub enum Kind {
    /// It has blanks at most.
    Empty,
    /// It has words.
    Words,
    /// It begins a fence.
    Opens,
    /// It stands in a fence.
    Fenced,
    /// It ends a fence.
    Closes,
}

/// A line.
#[derive(Clone, Copy, Debug)]
pub struct Line<'a> {
    /// The line without its end.
    pub piece: Piece<'a>,
    /// The byte of the page at which it begins.
    pub start: usize,
    /// What it is.
    pub kind: Kind,
}

impl<'a> Line<'a> {
    /// The columns before its first word.
    pub fn indent(&self) -> usize {
        indent(self.piece.text, 0)
    }

    /// The beginning of the line, where mistakes of the whole line are told.
    pub fn beginning(&self) -> Piece<'a> {
        let first = self.piece.text.chars().next().map_or(0, char::len_utf8);
        Piece { text: &self.piece.text[..first], ..self.piece }
    }

    /// The line from its first word on.
    pub fn words(&self) -> Piece<'a> {
        self.piece.trimmed(is_blank)
    }

    /// Whether it may be a line of a table.
    pub fn in_table(&self) -> bool {
        let words = self.piece.text.trim_start_matches(is_blank);
        self.kind == Kind::Words && words.starts_with('|') && self.indent() <= 3
    }

    /// The cells of a line of a table.
    pub fn cells(&self) -> Vec<Piece<'a>> {
        let mut cells: Vec<Piece> = self.piece.split(|sign| sign == '|').skip(1).collect();
        if cells.last().is_some_and(|last| last.text.chars().all(is_blank)) {
            cells.pop();
        }
        cells.into_iter().map(|cell| cell.trimmed(is_blank)).collect()
    }
}

/// The column at which the first word of a text stands that begins at column `from`; columns count
/// from 0 here, and a tab goes to the next multiple of four.
fn indent(text: &str, from: usize) -> usize {
    let blanks = text.chars().take_while(|&sign| is_blank(sign));
    blanks.fold(from, |column, sign| if sign == '\t' { column / 4 * 4 + 4 } else { column + 1 })
}

/// A heading.
#[derive(Clone, Copy, Debug)]
pub struct Heading<'a> {
    /// The number of `#` signs in front.
    pub level: usize,
    /// All of it.
    pub text: &'a str,
    /// What stands before the first colon.
    pub name: Piece<'a>,
    /// What stands behind it.
    pub title: &'a str,
    /// The line, as a place in the list of lines.
    pub at: usize,
}

/// The heading that a line is.
fn heading(line: Piece, at: usize) -> Option<Heading> {
    let level = line.text.chars().take_while(|&sign| sign == '#').count();
    let all = line.behind(level);
    if !(1..=6).contains(&level) || !(all.text.is_empty() || all.text.starts_with(is_blank)) {
        return None;
    }
    let mut text = all.text.trim_end_matches(is_blank);
    let open = text.trim_end_matches('#');
    if open.ends_with(is_blank) {
        text = open;
    }
    let all = Piece { text, ..all }.trimmed(is_blank);
    let (name, title) = all.text.split_once(':').unwrap_or((all.text, ""));
    let name = Piece { text: name, ..all }.trimmed(is_blank);
    Some(Heading { level, text: all.text, name, title: title.trim_matches(is_blank), at })
}

/// An item of a numbered list.
#[derive(Clone, Debug)]
pub struct Item<'a> {
    /// Its number as it is typed.
    pub number: Piece<'a>,
    /// What stands behind the number in its first line.
    pub first: Piece<'a>,
    /// The columns before its first word.
    pub indent: usize,
    /// Its lines, as places in the list of lines.
    pub lines: Range<usize>,
}

/// The item that a line begins.
pub fn item(line: Piece, at: usize) -> Option<Item> {
    let before = line.text.len() - line.text.trim_start_matches(' ').len();
    let marked = line.behind(before);
    let digits = marked.text.bytes().take_while(u8::is_ascii_digit).count();
    let behind = marked.text[digits..].strip_prefix(['.', ')']);
    let ended = behind.is_some_and(|behind| behind.is_empty() || behind.starts_with(is_blank));
    let behind = behind.unwrap_or("");
    if before > 3 || !(1..=9).contains(&digits) || !ended {
        return None;
    }
    let number = Piece { text: &marked.text[..digits], ..marked };
    let first = marked.behind(digits + 1).trimmed(is_blank);
    let mark = before + digits + 1;
    let indent = if first.text.is_empty() { mark + 1 } else { indent(behind, mark) };
    Some(Item { number, first, indent, lines: at..at + 1 })
}

/// The sign and the count of a fence.
type Fence = (char, usize);

/// The fence that a text without its indent begins.
fn opened(text: &str) -> Option<Fence> {
    let sign = text.chars().next().filter(|&sign| sign == '`' || sign == '~')?;
    let count = text.chars().take_while(|&other| other == sign).count();
    (count >= 3).then_some((sign, count))
}

/// Whether a text without its indent ends a fence.
fn closes(text: &str, (sign, count): Fence) -> bool {
    let text = text.trim_end_matches(is_blank);
    text.chars().count() >= count && text.chars().all(|other| other == sign)
}

/// A section: its heading, and the lines below it.
#[derive(Clone, Debug)]
pub struct Section<'a> {
    /// The heading's name.
    pub name: Piece<'a>,
    /// The heading's title.
    pub title: &'a str,
    /// The lines, as places in the list of lines.
    pub body: Range<usize>,
}

/// A page as lines.
#[derive(Debug, Default)]
pub struct Document<'a> {
    /// All lines.
    pub lines: Vec<Line<'a>>,
    /// All headings.
    pub headings: Vec<Heading<'a>>,
    /// All items of numbered lists in sections called Rules.
    pub items: Vec<Item<'a>>,
    /// The fence that is open at the end of the page.
    pub fence: Option<Fence>,
    /// Whether the last line stands in a section called Rules.
    rules: bool,
    /// Whether the last item goes on.
    open: bool,
}

impl<'a> Document<'a> {
    /// Reads the lines of a page.
    pub fn new(text: &'a str) -> Document<'a> {
        let mut document = Document::default();
        let mut start = 0;
        for whole in text.split_inclusive('\n') {
            let line = whole.strip_suffix('\n').unwrap_or(whole);
            let ended = line.len() < whole.len();
            let text = line.strip_suffix('\r').filter(|_| ended).unwrap_or(line);
            document.line(Piece { line: document.lines.len() + 1, column: 1, text }, start);
            start += whole.len();
        }
        document
    }

    fn line(&mut self, piece: Piece<'a>, start: usize) {
        let kind = self.kind(piece);
        self.lines.push(Line { piece, start, kind });
        if self.open {
            let end = self.lines.len();
            self.items.last_mut().into_iter().for_each(|item| item.lines.end = end);
        }
    }

    /// What the next line is. Its heading and the item that it begins are put down.
    fn kind(&mut self, piece: Piece<'a>) -> Kind {
        let words = piece.text.trim_start_matches(is_blank);
        let left = indent(piece.text, 0);
        let at = self.lines.len();
        if let Some(fence) = self.fence {
            if !(self.fences(left) && closes(words, fence)) {
                return Kind::Fenced;
            }
            self.fence = None;
            return Kind::Closes;
        }
        if words.is_empty() {
            return Kind::Empty;
        }
        let behind_empty = self.lines.last().is_some_and(|line| line.kind == Kind::Empty);
        if behind_empty && self.inner().is_some_and(|indent| left < indent) {
            self.open = false;
        }
        if let Some(heading) = heading(piece, at) {
            if heading.level <= 2 {
                self.rules = heading.level == 2 && heading.name.text == RULES;
            }
            self.open = false;
            self.headings.push(heading);
        }
        if let Some(item) = item(piece, at).filter(|_| self.rules) {
            self.items.push(item);
            self.open = true;
        } else if self.fences(left) {
            self.fence = opened(words);
        }
        self.fence.map_or(Kind::Words, |_| Kind::Opens)
    }

    /// The indent of the item that is open.
    fn inner(&self) -> Option<usize> {
        self.items.last().filter(|_| self.open).map(|item| item.indent)
    }

    /// Whether a fence may begin or end behind such an indent.
    fn fences(&self, left: usize) -> bool {
        left <= 3 || self.inner().is_some_and(|inner| (inner..=inner + 3).contains(&left))
    }

    /// The first section with this name.
    pub fn section(&self, name: &str) -> Option<Section<'a>> {
        let mut headings = self.headings.iter().filter(|heading| heading.level <= 2);
        let heading = headings.find(|heading| heading.level == 2 && heading.name.text == name)?;
        let end = headings.next().map_or(self.lines.len(), |next| next.at);
        Some(Section { name: heading.name, title: heading.title, body: heading.at + 1..end })
    }
}

/// A line of a table below its line of dashes.
#[derive(Clone, Debug)]
pub struct Row<'a> {
    /// The beginning of the line.
    pub beginning: Piece<'a>,
    /// The cells.
    pub cells: Vec<Piece<'a>>,
}

/// The lines below the columns of the first table, or none where there is no table. Mistakes of its
/// form are put down; a line with too few or too many cells is among the lines all the same.
pub fn table<'a>(
    lines: &[Line<'a>],
    columns: &[&str],
    mistakes: &mut Vec<Mistake>,
) -> Option<Vec<Row<'a>>> {
    let lines = lines.iter().skip_while(|line| !line.in_table());
    let mut lines = lines.take_while(|line| line.in_table()).peekable();
    let header = lines.next()?;
    let second = lines.peek().map(|line| line.cells()).unwrap_or_default();
    let dashes = second.iter().filter(|cell| is_dashes(cell.text)).count();
    if let Some(wrong) = other_column(&header.cells(), columns) {
        let what = format!("{wrong}: the columns are {}, in this order", columns.join(", "));
        mistakes.push(header.beginning().mistake(what));
    } else if dashes != second.len() || dashes != columns.len() {
        let example = "|---".repeat(columns.len());
        let what = format!("no line of dashes below the columns: write {example}| there");
        mistakes.push(header.beginning().mistake(what));
    }
    let mut rows = Vec::new();
    // A line with dashes in some cell is meant as the line of dashes.
    for line in lines.skip(usize::from(dashes > 0)) {
        let row = Row { beginning: line.beginning(), cells: line.cells() };
        if row.cells.len() != columns.len() {
            let few = if row.cells.len() < columns.len() { "few" } else { "many" };
            let what = format!(
                "too {few} cells, {}: a line has one for each of {}",
                row.cells.len(),
                columns.join(", ")
            );
            mistakes.push(row.beginning.mistake(what));
        }
        rows.push(row);
    }
    Some(rows)
}

/// What is wrong with the columns that are typed, at the first that is another.
fn other_column(typed: &[Piece], columns: &[&str]) -> Option<String> {
    let typed: Vec<&str> = typed.iter().map(|cell| cell.text).collect();
    let same = typed.iter().zip(columns).take_while(|(typed, column)| typed == column).count();
    match (typed.get(same), columns.get(same)) {
        (None, None) => None,
        (None, Some(column)) => Some(format!("the column '{column}' is missing")),
        (Some(typed), None) => Some(format!("the column '{typed}' is one too many")),
        (Some(typed), Some(column)) => Some(format!("the column '{typed}' isn't '{column}'")),
    }
}

/// Whether a cell is one of a line of dashes: dashes, perhaps with colons at their ends.
fn is_dashes(text: &str) -> bool {
    let text = text.strip_prefix(':').unwrap_or(text);
    let text = text.strip_suffix(':').unwrap_or(text);
    !text.is_empty() && text.chars().all(|sign| sign == '-')
}
