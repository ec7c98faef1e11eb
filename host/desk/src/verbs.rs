//! The verbs. Each answers with what goes to standard output and an exit status.

use std::fs;
use std::io::{self, BufRead, BufReader, IsTerminal, Write};
use std::path::{Path, PathBuf};

use gorzhani::{Refused, MOST};

use crate::call::{Call, Verb};
use crate::columns::grouped;
use crate::design::Design;
use crate::input::{nameless, File, Input};
use crate::notes::notes;
use crate::page::Page;
use crate::records::Record;
use crate::verdict::{converter, noted, rules, verdict, waited, Outcome};
use crate::{draw, explain, library, play, print, sizes, unmatched, why};

/// Yes, or found.
pub const YES: u8 = 0;
/// No, or none.
pub const NO: u8 = 1;
/// A mistake in the input or the call.
pub const MISTAKE: u8 = 2;

/// From so many positions on a search is announced.
const LARGE: u128 = 4_096;
/// More records than these take long to be drawn.
const MOST_DRAWN: usize = 60;
/// So many records that aren't matched are told.
const MOST_TOLD: usize = 10;

/// Says something on standard error, if anybody listens.
pub fn say(words: &str) {
    let _ = writeln!(io::stderr(), "{}", words.trim_end());
}

/// What a verb answers.
pub struct Answer {
    /// For standard output.
    pub out: Vec<u8>,
    /// The exit status.
    pub status: u8,
}

/// A design, and the page on which it stands if it does.
struct Desk {
    file: File,
    design: Design,
    page: Option<Box<Page>>,
    colours: bool,
}

/// Carries out a call; a mistake in words.
pub fn answer(call: &Call, colours: bool) -> Result<Answer, String> {
    match call.verb {
        Verb::Search => search(call, colours),
        Verb::Judge => judge(call, colours),
        Verb::Why => why_none(call, colours),
        Verb::Show => show(call, colours),
        Verb::Run => run(call, colours),
    }
}

fn done(out: impl Into<Vec<u8>>, status: u8) -> Result<Answer, String> {
    Ok(Answer { out: out.into(), status })
}

impl Desk {
    /// The design of a page or of a file of bytes.
    fn open(path: &str, colours: bool) -> Result<Desk, String> {
        Desk::of(File::read(path)?, colours)
    }

    fn of(file: File, colours: bool) -> Result<Desk, String> {
        match file.input(colours)? {
            Input::Page(page) => {
                Ok(Desk { file, design: page.design.clone(), page: Some(page), colours })
            }
            Input::Design(design) => Ok(Desk { file, design: *design, page: None, colours }),
            Input::Converter(_) => {
                Err(format!("{}: a converter, where a design is wanted", file.name))
            }
        }
    }

    /// The converter of the page, if one stands there.
    fn own(&self) -> Result<Option<Vec<Record>>, String> {
        let Some(page) = &self.page else { return Ok(None) };
        page.converter().map_err(|mistakes| self.file.told(&mistakes, self.colours))
    }

    /// The converter of a file, or else of the page.
    fn converter(&self, path: Option<&String>) -> Result<Option<Vec<Record>>, String> {
        let Some(path) = path else { return self.own() };
        let file = File::read(path)?;
        match file.input(self.colours)? {
            Input::Converter(records) => Ok(Some(records)),
            _ => Err(format!("{}: no converter file", file.name)),
        }
    }

    /// What the search finds: a converter or none.
    fn searched(&self) -> Result<Option<Vec<Record>>, String> {
        let size = sizes::of(&self.design);
        if (LARGE..=MOST as u128).contains(&size.positions) {
            say(&format!("{}: searching {} positions", self.file.name, grouped(size.positions)));
        }
        match library::search(&self.design.bytes()) {
            Ok(records) => Ok(Some(records)),
            Err(Refused::NO_CONVERTER) => Ok(None),
            Err(refused) => Err(self.refused(refused)),
        }
    }

    /// Why the library refuses the design.
    fn refused(&self, refused: Refused) -> String {
        match refused {
            Refused::POSITIONS => {
                format!("{}: {}", self.file.name, sizes::of(&self.design).too_large(&self.design))
            }
            refused => format!("{}: {refused}", self.file.name),
        }
    }

    /// The file with this ending in a folder, called as the page is.
    fn beside(&self, folder: &Path, ending: &str) -> PathBuf {
        folder.join(format!("{}.{ending}", self.file.stem()))
    }
}

fn write(path: &Path, bytes: &[u8]) -> Result<(), String> {
    fs::write(path, bytes).map_err(|error| format!("{}: {error}", path.display()))
}

/// Replaces a file by way of another beside it, so that it is never there in part.
fn replace(path: &Path, bytes: &[u8]) -> Result<(), String> {
    let told = |error: io::Error| format!("{}: {error}", path.display());
    let path = fs::canonicalize(path).map_err(told)?;
    let mut name = path.file_name().unwrap_or_default().to_os_string();
    name.push(".part");
    let part = path.with_file_name(name);
    let permissions = fs::metadata(&path).map_err(told)?.permissions();
    let written = fs::write(&part, bytes)
        .and_then(|()| fs::set_permissions(&part, permissions))
        .and_then(|()| fs::rename(&part, &path));
    written.map_err(|error| {
        let _ = fs::remove_file(&part);
        told(error)
    })
}

fn search(call: &Call, colours: bool) -> Result<Answer, String> {
    let desk = Desk::open(&call.files[0], colours)?;
    let design = &desk.design;
    if call.write && desk.page.is_none() {
        return Err(format!("{}: --write fills in a page, and this is none", desk.file.name));
    }
    if call.write && call.svg && call.files[0] == "-" {
        return Err("--svg draws beside the page: name its file".to_string());
    }
    let found = desk.searched()?;
    let outcome = match &found {
        Some(records) => {
            let waits = library::judge(&design.bytes(), records);
            Outcome::Found(records, waits.map_err(|refused| desk.refused(refused))?)
        }
        None => Outcome::None,
    };
    // What can't be drawn isn't written.
    let picture = if call.svg { Some(svg(design, found.as_deref())?) } else { None };
    if let Some(folder) = &call.out {
        write_files(&desk, Path::new(folder), found.as_deref(), picture.as_deref())?;
    }
    let status = if found.is_some() { YES } else { NO };
    match &desk.page {
        Some(page) if call.write => {
            done(fill_in(call, &desk, page, &outcome, picture.as_deref())?, status)
        }
        _ => done(printed(call, design, &outcome), status),
    }
}

/// The bodies of the sections Verdict and Converter, with notes, and with a picture if there is a file of one.
fn bodies(design: &Design, outcome: &Outcome, picture: Option<&str>) -> (String, String) {
    let notes = match outcome {
        Outcome::Found(records, _) | Outcome::Judged(records, Ok(_)) => {
            noted(design, records, &notes(design, records))
        }
        _ => String::new(),
    };
    (verdict(design, outcome, &notes), converter(design, outcome, picture))
}

/// Fills in a page, and answers in a line; of a page from standard input, the page is the answer.
fn fill_in(
    call: &Call,
    desk: &Desk,
    page: &Page,
    outcome: &Outcome,
    picture: Option<&[u8]>,
) -> Result<String, String> {
    let shown = picture.map(|_| format!("{}.svg", desk.file.stem()));
    let (verdict, converter) = bodies(&desk.design, outcome, shown.as_deref());
    let text = page.with(&verdict, &converter);
    if call.files[0] == "-" {
        return Ok(text);
    }
    let path = Path::new(&call.files[0]);
    if let Some(picture) = picture {
        let folder = path.parent().unwrap_or(Path::new("."));
        write(&desk.beside(folder, "svg"), picture)?;
    }
    if text != page.text {
        replace(path, text.as_bytes())?;
    }
    Ok(format!("{}: {}\n", desk.file.name, outcome.sentence(&desk.design)))
}

/// The answer of a search: rules, verdict and converter.
fn printed(call: &Call, design: &Design, outcome: &Outcome) -> String {
    let (verdict, converter) = bodies(design, outcome, None);
    let mut out = format!("# {}\n\n## Rules\n\n{}", print::title(design), rules(design));
    out += &format!("## Verdict\n\n{verdict}\n\n## Converter\n\n{converter}\n");
    if let Outcome::None = outcome {
        out += &format!("\n`gorzhani why {}` says what stands against it.\n", call.files[0]);
    }
    out
}

/// The files of the library: the design and, where one was found, the converter; a picture where one is wanted.
fn write_files(
    desk: &Desk,
    folder: &Path,
    found: Option<&[Record]>,
    picture: Option<&[u8]>,
) -> Result<(), String> {
    fs::create_dir_all(folder).map_err(|error| format!("{}: {error}", folder.display()))?;
    write(&desk.beside(folder, "design"), &desk.design.bytes())?;
    let converter = desk.beside(folder, "converter");
    match found {
        Some(records) => {
            let blocks = library::write(records).map_err(|refused| desk.refused(refused))?;
            write(&converter, &blocks)?;
        }
        None if converter.exists() => {
            say(&format!(
                "{}: from before; no converter belongs to this design",
                converter.display()
            ));
        }
        None => {}
    }
    picture.map_or(Ok(()), |picture| write(&desk.beside(folder, "svg"), picture))
}

fn judge(call: &Call, colours: bool) -> Result<Answer, String> {
    let desk = Desk::open(&call.files[0], colours)?;
    let Some(records) = desk.converter(call.files.get(1))? else {
        let page =
            if desk.page.is_some() { ", or put one on the page with search --write" } else { "" };
        return Err(format!("{}: no converter to judge: name its file{page}", desk.file.name));
    };
    let answer = library::judge(&desk.design.bytes(), &records);
    let outcome = Outcome::Judged(&records, answer.clone());
    let mut out = outcome.sentence(&desk.design) + "\n";
    let status = match answer {
        Ok(_) => {
            let notes = noted(&desk.design, &records, &notes(&desk.design, &records));
            for part in [waited(&desk.design, &outcome), notes] {
                if !part.is_empty() {
                    out += &format!("\n{part}");
                }
            }
            YES
        }
        Err(Refused::UNMATCHED) => {
            out += &told_unmatched(&desk.design, &records);
            NO
        }
        Err(Refused::RULE) => {
            out += &match explain::first_failing(&desk.design, &records) {
                Some(rule) => format!("\n{}", explain::rule_fails(&desk.design, &records, rule)),
                None => format!("\nNo rule fails alone: {}\n", explain::UNCONFIRMED),
            };
            NO
        }
        Err(refused) => return Err(desk.refused(refused)),
    };
    done(out, status)
}

fn told_unmatched(design: &Design, records: &[Record]) -> String {
    let unmatched = unmatched::unmatched(design, records);
    let told = unmatched.iter().take(MOST_TOLD).map(|(_, sentence)| format!("{sentence}\n"));
    let mut out = format!("\n{}", told.collect::<String>());
    if unmatched.is_empty() {
        out += &format!("No record is found that isn't matched: {}\n", explain::UNCONFIRMED);
    }
    match unmatched.len().saturating_sub(MOST_TOLD) {
        0 => {}
        1 => out += "And 1 more record isn't matched.\n",
        more => out += &format!("And {} more records aren't matched.\n", grouped(more as u128)),
    }
    out
}

fn why_none(call: &Call, colours: bool) -> Result<Answer, String> {
    let desk = Desk::open(&call.files[0], colours)?;
    let large = sizes::of(&desk.design).positions >= LARGE;
    let mut say = |words: &str| {
        if large {
            say(&format!("{}: {words}", desk.file.name));
        }
    };
    match why::why(&desk.design, &mut say) {
        Ok(None) => done("A converter exists: the library's search found one.\n", YES),
        Ok(Some(why)) => done(why.text(&desk.design), NO),
        Err(refused) => Err(desk.refused(refused)),
    }
}

fn show(call: &Call, colours: bool) -> Result<Answer, String> {
    let first = File::read(&call.files[0])?;
    if let Input::Converter(records) = first.input(colours)? {
        if let Some(further) = call.files.get(1) {
            return Err(format!(
                "show takes the design first, and then its converter: '{further}'"
            ));
        }
        return show_records(call, &nameless(&records, &first.stem()), &records);
    }
    let desk = Desk::of(first, colours)?;
    let records = desk.converter(call.files.get(1))?;
    let design = &desk.design;
    if call.dot || call.svg {
        return drawing(call, design, records.as_deref());
    }
    let answer = records.as_ref().map(|records| library::judge(&design.bytes(), records));
    let outcome = match (&records, answer) {
        (Some(records), Some(answer)) => Outcome::Judged(records, answer),
        _ => Outcome::Unasked,
    };
    let (verdict, converter) = bodies(design, &outcome, None);
    match &desk.page {
        // A verdict without a converter stays as it is: nothing is asked.
        Some(page) if records.is_none() && page.has_verdict() => done(page.text.clone(), YES),
        Some(page) => {
            let text = page.with(&verdict, &converter);
            let again = crate::page::read(text.as_bytes()).and_then(|page| page.converter());
            if again != Ok(records) {
                say(&format!("{}: read again, this page gives another converter: that of the file isn't of this design", desk.file.name));
            }
            done(text, YES)
        }
        None => {
            let source = print::page(design).map_err(|rule| {
                format!(
                    "{}: rule {rule} is too long for a page; --dot and --svg draw the sides",
                    desk.file.name
                )
            })?;
            if let Some(other) = other_when_read(&source, design) {
                say(&format!("{}: {other}", desk.file.name));
            }
            done(format!("{source}\n## Verdict\n\n{verdict}\n\n## Converter\n\n{converter}\n"), YES)
        }
    }
}

/// What becomes of a printed page when it is read again, if it isn't the same design.
fn other_when_read(source: &str, design: &Design) -> Option<&'static str> {
    match crate::page::read(source.as_bytes()) {
        Ok(page) if page.design.bytes() == design.bytes() => None,
        Ok(_) => Some("read again, this page gives other bytes: a page numbers names as they appear, and shares no formulas"),
        Err(_) => Some("this page can't be read again: written out, its rules are over a limit of pages"),
    }
}

/// A converter of which no design is known.
fn show_records(call: &Call, design: &Design, records: &[Record]) -> Result<Answer, String> {
    if call.dot || call.svg {
        return drawing(call, design, Some(records));
    }
    done(format!("# {}\n\n{}", design.title, print::converter_table(design, records)), YES)
}

fn drawing(call: &Call, design: &Design, records: Option<&[Record]>) -> Result<Answer, String> {
    if call.dot {
        return done(draw::dot(design, records), YES);
    }
    done(svg(design, records)?, YES)
}

/// The picture that Graphviz draws, which takes it long where there are many records.
fn svg(design: &Design, records: Option<&[Record]>) -> Result<Vec<u8>, String> {
    let count = records.map_or(0, <[Record]>::len);
    if count > MOST_DRAWN {
        say(&format!("drawing {count} records: this may take Graphviz long"));
    }
    draw::svg(&draw::dot(design, records))
}

fn run(call: &Call, colours: bool) -> Result<Answer, String> {
    let desk = Desk::open(&call.files[0], colours)?;
    let design = &desk.design;
    let records = match desk.own()? {
        Some(records) => records,
        None => match desk.searched()? {
            Some(records) => records,
            None => return done(Outcome::None.sentence(design) + "\n", NO),
        },
    };
    match library::judge(&design.bytes(), &records) {
        Ok(_) => {}
        Err(Refused::RULE) => {
            say(&format!(
                "{}: the judge says that some rule fails (15); it runs all the same",
                desk.file.name
            ));
        }
        Err(Refused::UNMATCHED) => {
            let sentence = Outcome::Judged(&records, Err(Refused::UNMATCHED)).sentence(design);
            return done(format!("{sentence}\n{}", told_unmatched(design, &records)), NO);
        }
        Err(refused) => return Err(desk.refused(refused)),
    }
    let (name, mut input, prompt): (&str, Box<dyn BufRead>, bool) =
        match call.files.get(1).map(String::as_str) {
            None | Some("-") => {
                ("<stdin>", Box::new(BufReader::new(io::stdin())), io::stdin().is_terminal())
            }
            Some(path) => {
                let file = fs::File::open(path).map_err(|error| format!("{path}: {error}"))?;
                (path, Box::new(BufReader::new(file)), false)
            }
        };
    let (out, errors) = (&mut io::stdout().lock(), &mut io::stderr().lock());
    let played = play::play(design, &records, name, &mut *input, prompt, out, errors);
    match played.and_then(|played| out.flush().map(|()| played)) {
        Ok(played) if played.mistakes > 0 && !prompt => done("", MISTAKE),
        Ok(played) if played.refused > 0 && !prompt => done("", NO),
        Ok(_) => done("", YES),
        Err(error) if error.kind() == io::ErrorKind::BrokenPipe => done("", YES),
        Err(error) => Err(format!("standard output: {error}")),
    }
}
