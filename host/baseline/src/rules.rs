//! Typed rules, read in one pass over the text.
//!
//! Records are put down as the parts come, each behind its operands, as if nothing were denied.
//! Where a part turns out to be denied, by a `!` before it or a `->` behind it, its records stand
//! together at the end and are exchanged there: true for false, a name for its denial, and for or.
//! Past the last record that there is room for, records are only counted.

use crate::{check, demand};

/// The most records and rules.
const RECORDS: usize = 64;
const RULES: usize = 16;
/// The most brackets that are open together.
const DEPTH: usize = 32;
/// The most that a name's number is below.
const NAMES: u8 = 48;

/// Kinds of records.
const TRUE: u8 = 1;
const FALSE: u8 = 2;
const NAME: u8 = 3;
const AND: u8 = 5;
const OR: u8 = 6;
const NEXT: u8 = 7;
const UNTIL: u8 = 8;
const ALWAYS: u8 = 9;

/// Bytes of the two blocks.
const BLOCKS: usize = 1_024;

/// Reads a text and writes the blocks of its formulas and of its rules. The number of rules, or 19,
/// 20, 21 and 12.
pub fn rules(text: &[u8], blocks: &mut [u8]) -> Result<usize, u8> {
    let mut reader = Reader::new(text);
    let (mut rules, mut count) = ([0; RULES], 0);
    while reader.at < text.len() {
        reader.line().ok_or(19)?;
        if let Some(rule) = rules.get_mut(count) {
            *rule = (reader.count - 1) as u8;
        }
        count += 1;
    }
    demand(!reader.some_path, 20)?;
    demand(reader.count <= RECORDS && count <= RULES, 21)?;
    demand(blocks.len() >= BLOCKS, 12)?;
    let formulas = reader.records[..reader.count].as_flattened();
    let (first, second) = blocks[..BLOCKS].split_at_mut(BLOCKS / 2);
    write(first, 3, reader.count, formulas);
    write(second, 4, count, &rules[..count]);
    Ok(count)
}

/// Writes a block.
fn write(block: &mut [u8], kind: u8, count: usize, records: &[u8]) {
    block.fill(0);
    block[0] = kind;
    block[1] = count as u8;
    block[4..4 + records.len()].copy_from_slice(records);
    let sum = check(block);
    block[510..].copy_from_slice(&sum.to_le_bytes());
}

/// What stands before an operand and takes it.
#[derive(Clone, Copy, PartialEq)]
enum Prefix {
    /// `!`, an odd number of times.
    Odd,
    /// `!`, an even number of times.
    Even,
    Next,
    Always,
    Finally,
}

/// A text that is being read.
struct Reader<'a> {
    text: &'a [u8],
    /// Where it is read.
    at: usize,
    /// How many brackets are open.
    depth: usize,
    /// The first records, and how many there are.
    records: [[u8; 4]; RECORDS],
    count: usize,
    /// How many records there were when the last temporal one was put.
    temporal: usize,
    /// Whether something says "some path", or denies what is temporal.
    some_path: bool,
    /// Prefixes that wait for their operands, and how many records there were before each.
    prefixes: Vec<(Prefix, usize)>,
    /// What stands left of each `->` that waits for its right: the number of its last record.
    premises: Vec<usize>,
}

impl<'a> Reader<'a> {
    fn new(text: &'a [u8]) -> Reader<'a> {
        Reader {
            text,
            at: 0,
            depth: 0,
            records: [[0; 4]; RECORDS],
            count: 0,
            temporal: 0,
            some_path: false,
            prefixes: Vec::new(),
            premises: Vec::new(),
        }
    }

    /// The next byte that isn't a space, which isn't taken; 0 at the end.
    #[inline]
    fn peek(&mut self) -> u8 {
        loop {
            match self.text.get(self.at) {
                Some(b' ') => self.at += 1,
                Some(&byte) => return byte,
                None => return 0,
            }
        }
    }

    /// Takes a byte that has to come.
    #[inline]
    fn expect(&mut self, byte: u8) -> Option<()> {
        let comes = self.peek() == byte;
        self.at += usize::from(comes);
        comes.then_some(())
    }

    /// Takes the word that comes; there may be none.
    #[inline]
    fn word(&mut self) -> &'a [u8] {
        self.peek();
        let rest = &self.text[self.at..];
        let end = rest.iter().position(|byte| !byte.is_ascii_alphanumeric()).unwrap_or(rest.len());
        self.at += end;
        &rest[..end]
    }

    /// Puts a record.
    #[inline]
    fn put(&mut self, kind: u8, a: usize, b: usize) {
        if let Some(record) = self.records.get_mut(self.count) {
            *record = [kind, a as u8, b as u8, 0];
        }
        self.count += 1;
    }

    /// Puts a temporal record.
    #[inline]
    fn put_temporal(&mut self, kind: u8, a: usize, b: usize) {
        self.put(kind, a, b);
        self.temporal = self.count;
    }

    /// Denies what the records from this one on say.
    #[inline]
    fn deny(&mut self, from: usize) {
        let end = self.count.min(RECORDS);
        for record in &mut self.records[from.min(end)..end] {
            // 1 and 2, 3 and 4, 5 and 6.
            record[0] = ((record[0] - 1) ^ 1) + 1;
        }
    }

    /// Notes that the records from this one on may not be temporal.
    #[inline]
    fn of_one_state(&mut self, from: usize) {
        self.some_path |= self.temporal > from;
    }

    /// A line.
    fn line(&mut self) -> Option<()> {
        self.rule()?;
        self.expect(b'\n')
    }

    /// A rule.
    fn rule(&mut self) -> Option<()> {
        let waiting = self.premises.len();
        loop {
            let from = self.count;
            self.ors()?;
            if self.peek() != b'-' {
                break;
            }
            if self.text.get(self.at + 1) != Some(&b'>') {
                return None;
            }
            self.at += 2;
            self.of_one_state(from);
            self.deny(from);
            self.premises.push(self.count - 1);
        }
        while self.premises.len() > waiting {
            let premise = self.premises.pop()?;
            self.put(OR, premise, self.count - 1);
        }
        Some(())
    }

    /// What stands on a side of `->`.
    #[inline]
    fn ors(&mut self) -> Option<()> {
        self.ands()?;
        while self.peek() == b'|' {
            self.at += 1;
            let left = self.count - 1;
            self.ands()?;
            self.put(OR, left, self.count - 1);
        }
        Some(())
    }

    /// What stands on a side of `|`.
    #[inline]
    fn ands(&mut self) -> Option<()> {
        self.closest()?;
        while self.peek() == b'&' {
            self.at += 1;
            let left = self.count - 1;
            self.closest()?;
            self.put(AND, left, self.count - 1);
        }
        Some(())
    }

    /// Prefixes and what they take.
    fn closest(&mut self) -> Option<()> {
        let waiting = self.prefixes.len();
        while self.prefix_or_operand(waiting)? {}
        while self.prefixes.len() > waiting {
            let (prefix, from) = self.prefixes.pop()?;
            let operand = self.count - 1;
            match prefix {
                Prefix::Odd => {
                    self.of_one_state(from);
                    self.deny(from);
                }
                Prefix::Even => self.of_one_state(from),
                Prefix::Next => self.put_temporal(NEXT, operand, 0),
                Prefix::Always => self.put_temporal(ALWAYS, operand, 0),
                Prefix::Finally => self.put_temporal(UNTIL, from, operand),
            }
        }
        Some(())
    }

    /// Reads a prefix or an operand, and tells whether it was a prefix. So many prefixes wait for
    /// other operands.
    #[inline]
    fn prefix_or_operand(&mut self, waiting: usize) -> Option<bool> {
        match self.peek() {
            b'!' => {
                self.at += 1;
                self.not(waiting);
                return Some(true);
            }
            b'(' => {
                self.at += 1;
                self.open()?;
                self.rule()?;
                self.expect(b')')?;
                self.depth -= 1;
                return Some(false);
            }
            _ => {}
        }
        let word = self.word();
        let prefix = match word {
            b"AX" | b"EX" => Prefix::Next,
            b"AG" | b"EG" => Prefix::Always,
            b"AF" | b"EF" => Prefix::Finally,
            b"A" | b"E" => {
                self.some_path |= word == b"E";
                self.until()?;
                return Some(false);
            }
            b"TRUE" => {
                self.put(TRUE, 0, 0);
                return Some(false);
            }
            b"FALSE" => {
                self.put(FALSE, 0, 0);
                return Some(false);
            }
            _ => {
                self.put(NAME, usize::from(name(word)?), 0);
                return Some(false);
            }
        };
        self.some_path |= word[0] == b'E';
        self.prefixes.push((prefix, self.count));
        if prefix == Prefix::Finally {
            self.put(TRUE, 0, 0);
        }
        Some(true)
    }

    /// One `!` more. Those that follow each other are one prefix.
    #[inline]
    fn not(&mut self, waiting: usize) {
        match self.prefixes[waiting..].last_mut() {
            Some((last @ Prefix::Odd, _)) => *last = Prefix::Even,
            Some((last @ Prefix::Even, _)) => *last = Prefix::Odd,
            _ => self.prefixes.push((Prefix::Odd, self.count)),
        }
    }

    /// What comes behind `A` and `E`.
    fn until(&mut self) -> Option<()> {
        self.expect(b'[')?;
        self.open()?;
        self.rule()?;
        let left = self.count - 1;
        if self.word() != b"U" {
            return None;
        }
        self.rule()?;
        self.expect(b']')?;
        self.depth -= 1;
        self.put_temporal(UNTIL, left, self.count - 1);
        Some(())
    }

    /// A bracket is opened.
    #[inline]
    fn open(&mut self) -> Option<()> {
        self.depth += 1;
        (self.depth <= DEPTH).then_some(())
    }
}

/// The number of a name.
#[inline]
fn name(word: &[u8]) -> Option<u8> {
    let digit = |byte: u8| byte.is_ascii_digit().then(|| byte - b'0');
    let number = match *word {
        [b'p', one] => digit(one)?,
        [b'p', ten, one] if ten != b'0' => 10 * digit(ten)? + digit(one)?,
        _ => return None,
    };
    (number < NAMES).then_some(number)
}
