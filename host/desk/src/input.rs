//! What the program is handed: pages, designs and converters, from files or from standard input.

use std::fs;
use std::io::{self, Read};
use std::path::Path;

use gorzhani::{Refused, BLOCK};

use crate::design::{self, Design, Side, MOST_SIGNALS, SIDES};
use crate::library;
use crate::mistakes::{told, Mistake};
use crate::page::{self, Page};
use crate::records::Record;

/// A file's bytes, and what it is called in messages.
pub struct File {
    /// Its path as it was given, or `<stdin>`.
    pub name: String,
    bytes: Vec<u8>,
}

/// What a file holds.
pub enum Input {
    /// A page.
    Page(Box<Page>),
    /// A design of bytes.
    Design(Box<Design>),
    /// A converter of bytes.
    Converter(Vec<Record>),
}

impl File {
    /// Reads a file, or standard input for `-`.
    pub fn read(path: &str) -> Result<File, String> {
        let (name, read) = match path {
            "-" => {
                let mut bytes = Vec::new();
                ("<stdin>", io::stdin().read_to_end(&mut bytes).map(|_| bytes))
            }
            _ => (path, fs::read(path)),
        };
        let bytes = read.map_err(|error| format!("{name}: {error}"))?;
        Ok(File { name: name.to_string(), bytes })
    }

    /// The file's name without folder and ending.
    pub fn stem(&self) -> String {
        let stem = Path::new(&self.name).file_stem().map(|stem| stem.to_string_lossy().to_string());
        stem.filter(|_| self.name != "<stdin>").unwrap_or("design".to_string())
    }

    /// What the file holds: by the ending of its name or, where that tells nothing, by its bytes: whole blocks with a byte 0 among them are no page.
    pub fn input(&self, colours: bool) -> Result<Input, String> {
        let ending = Path::new(&self.name).extension().and_then(|ending| ending.to_str());
        let blocks = self.bytes.len().is_multiple_of(BLOCK) && self.bytes.contains(&0);
        match ending {
            Some("converter") => self.converter(),
            Some("design") => self.design(),
            Some("md" | "markdown") => self.page(colours),
            _ if blocks && self.bytes[0] == 5 => self.converter(),
            _ if blocks => self.design(),
            _ => self.page(colours),
        }
    }

    fn page(&self, colours: bool) -> Result<Input, String> {
        let page = page::read(&self.bytes).map_err(|mistakes| self.told(&mistakes, colours))?;
        Ok(Input::Page(Box::new(page)))
    }

    fn design(&self) -> Result<Input, String> {
        match gorzhani::positions(&self.bytes) {
            Ok(_) | Err(Refused::POSITIONS) => {
                Ok(Input::Design(Box::new(design::from_bytes(&self.bytes, &self.stem()))))
            }
            Err(refused) => Err(format!("{}: {refused}", self.name)),
        }
    }

    fn converter(&self) -> Result<Input, String> {
        let records = library::read(&self.bytes);
        records.map(Input::Converter).map_err(|refused| format!("{}: {refused}", self.name))
    }

    /// The mistakes of a page in words.
    pub fn told(&self, mistakes: &[Mistake], colours: bool) -> String {
        told(&self.name, &String::from_utf8_lossy(&self.bytes), mistakes, colours)
    }
}

/// The names for a converter of which no design is known: numbers, and no tables.
pub fn nameless(records: &[Record], title: &str) -> Design {
    let third = |record: &Record| {
        record.states[2] != 0 || record.links.iter().any(|link| link.events[2] != 0)
    };
    let sides = if records.iter().any(third) { SIDES } else { SIDES - 1 };
    Design {
        title: title.to_string(),
        sides: vec![Side::default(); sides],
        signals: (1..=MOST_SIGNALS).map(|signal| format!("x{signal}")).collect(),
        ..Design::default()
    }
}
