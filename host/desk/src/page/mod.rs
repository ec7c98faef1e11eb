//! Pages: Markdown that holds a design, and the converter and the verdict that the desk writes.

mod converter;
mod grammar;
mod markdown;
mod passed;
mod rules;
mod sides;
mod typed;

use crate::design::{Design, SIDE_HEADINGS};
use crate::mistakes::{distance, Mistake};
use crate::records::Record;
use markdown::{is_blank, Document, Heading, Kind, Piece, RULES};

/// The sections that stand on a page once at most.
const SECTIONS: [&str; 6] = ["Kernel", "Host", "Third", RULES, "Verdict", "Converter"];
/// What may stand in front of a page.
const BYTE_ORDER_MARK: char = '\u{feff}';

/// A page that was read.
#[derive(Clone, Debug, PartialEq, Eq)]
pub struct Page {
    /// All of it.
    pub text: String,
    /// The design that it holds.
    pub design: Design,
}

/// Reads a page; all mistakes at once, in the order of the page.
pub fn read(bytes: &[u8]) -> Result<Page, Vec<Mistake>> {
    let text =
        std::str::from_utf8(bytes).map_err(|wrong| vec![not_text(bytes, wrong.valid_up_to())])?;
    let document = Document::new(body(text));
    let mut mistakes = headings(&document);
    mistakes.extend(passed::passed_over(&document));
    let (sides, signals) = sides::sides(&document, &mut mistakes);
    let title = document.headings.iter().find(|heading| heading.level == 1);
    let title = title.map_or(String::new(), |heading| heading.text.to_string());
    let mut design = Design { title, signals, ..Design::default() };
    mistakes.extend(rules::rules(&document, &typed::Labels::new(&sides), &mut design));
    if !mistakes.is_empty() {
        mistakes.sort_by_key(|mistake| (mistake.line, mistake.column));
        return Err(mistakes);
    }
    design.sides = sides.into_iter().flatten().collect();
    Ok(Page { text: text.to_string(), design })
}

/// A page without its byte order mark.
fn body(text: &str) -> &str {
    text.strip_prefix(BYTE_ORDER_MARK).unwrap_or(text)
}

/// The mistake of a byte that isn't text. What stands before it is.
fn not_text(bytes: &[u8], at: usize) -> Mistake {
    let before = String::from_utf8_lossy(&bytes[..at]);
    let before = body(&before);
    let line = before.split('\n').count();
    let column = before.chars().rev().take_while(|&sign| sign != '\n').count() + 1;
    let what = format!("the byte {} isn't UTF-8 text: save the page as UTF-8", bytes[at]);
    Mistake { line, column, length: 1, what }
}

/// The mistakes of headings: sections that are missing, and sections that stand twice.
fn headings(document: &Document) -> Vec<Mistake> {
    let mut mistakes = Vec::new();
    for name in SECTIONS {
        let mut same = document.headings.iter().filter(|other| is_section(other, name));
        if same.next().is_none() && (name == RULES || SIDE_HEADINGS.contains(&name)) {
            mistakes.extend(missing(document, name));
        }
        let what = format!("the section {name} stands here for the second time: a page has one");
        mistakes.extend(same.map(|second| second.name.mistake(what.as_str())));
    }
    mistakes
}

fn is_section(heading: &Heading, name: &str) -> bool {
    heading.level == 2 && heading.name.text == name
}

/// What is told of a section that is missing. The third side and rules may be, unless a heading
/// looks as if it was meant to be theirs.
fn missing(document: &Document, name: &str) -> Option<Mistake> {
    let near = document.headings.iter().find(|heading| nearly(heading.name.text, name));
    let typed = |heading: &Heading| format!("{} {}", "#".repeat(heading.level), heading.name.text);
    let near = near.map(|heading| (heading.name, typed(heading))).into_iter();
    let under = underlined(document, name).map(|name| (name, name.text.to_string()));
    match near.chain(under).min_by_key(|(near, _)| near.line) {
        Some((near, typed)) => {
            let what = format!("no section {name}, and '{typed}' is nearly so: write '## {name}'");
            Some(near.mistake(what))
        }
        None if name == "Kernel" || name == "Host" => {
            let page = Piece { line: 1, column: 1, text: "" };
            let what =
                format!("no section {name}: write '## {name}', and below it the side's table");
            Some(page.mistake(what))
        }
        None => None,
    }
}

/// Whether a heading's name is nearly that of a section.
fn nearly(typed: &str, name: &str) -> bool {
    let (typed, name) = (typed.to_lowercase(), name.to_lowercase());
    let near = typed.chars().count() <= name.len() + 2 && distance(&typed, &name) <= 2;
    let mut words = typed.split(|sign: char| !sign.is_alphabetic());
    let rules = name == "rules" && words.any(|word| word == "rule" || word == "rules");
    near || rules || (name == "third" && typed == "third side")
}

/// The name of a section above a line of dashes or of equals signs, which others read as a heading.
fn underlined<'a>(document: &Document<'a>, name: &str) -> Option<Piece<'a>> {
    let lines =
        document.lines.windows(2).filter(|two| two.iter().all(|line| line.kind == Kind::Words));
    let mut named = lines.filter_map(|two| {
        let under = two[1].words().text;
        let line = under.chars().all(|sign| sign == '-') || under.chars().all(|sign| sign == '=');
        let name = two[0].words().split(|sign| sign == ':').next()?;
        line.then(|| name.trimmed(is_blank))
    });
    named.find(|typed| typed.text.eq_ignore_ascii_case(name))
}

impl Page {
    /// The converter on the page, or none where the section Converter is missing or has no table.
    pub fn converter(&self) -> Result<Option<Vec<Record>>, Vec<Mistake>> {
        converter::converter(&Document::new(body(&self.text)), &self.design)
    }

    /// Whether the section Verdict is on the page.
    pub fn has_verdict(&self) -> bool {
        Document::new(body(&self.text)).section("Verdict").is_some()
    }

    /// The page with the bodies of its sections Verdict and Converter replaced; every other byte is
    /// as it was. A section that is missing is put at the end.
    pub fn with(&self, verdict: &str, converter: &str) -> String {
        let text = body(&self.text);
        let first = text.split_inclusive('\n').next().unwrap_or("");
        let end = if first.ends_with("\r\n") { "\r\n" } else { "\n" };
        let bodies = [("Verdict", verdict), ("Converter", converter)];
        let (mut out, missing) = replaced(text, bodies, end);
        if !missing.is_empty() {
            out += line_end(&out, end);
        }
        for (name, body) in missing {
            if !out.is_empty() && !ends_empty(&out) {
                out += end;
            }
            out += &format!("## {name}{end}{}", written(body, end));
        }
        self.text[..self.text.len() - text.len()].to_string() + &out
    }
}

/// A section's name and its new body.
type Body<'a> = (&'a str, &'a str);

/// A text with the bodies of its sections replaced, and the sections that it hasn't.
fn replaced<'b>(text: &str, bodies: [Body<'b>; 2], end: &str) -> (String, Vec<Body<'b>>) {
    let document = Document::new(text);
    let start = |at: usize| document.lines.get(at).map_or(text.len(), |line| line.start);
    let mut found = Vec::new();
    let mut missing = Vec::new();
    for (name, body) in bodies {
        match document.section(name) {
            Some(section) => found.push((start(section.body.start), start(section.body.end), body)),
            None => missing.push((name, body)),
        }
    }
    found.sort();
    let (mut out, mut at) = (String::new(), 0);
    for (from, to, body) in found {
        out += &text[at..from];
        out += line_end(&out, end);
        out += &written(body, end);
        if to < text.len() {
            out += end;
        }
        at = to;
    }
    (out + &text[at..], missing)
}

/// The end that a text's last line is without.
fn line_end<'e>(text: &str, end: &'e str) -> &'e str {
    if text.is_empty() || text.ends_with('\n') {
        ""
    } else {
        end
    }
}

/// Whether a text's last line is empty.
fn ends_empty(text: &str) -> bool {
    text.lines().last().is_some_and(|line| line.chars().all(is_blank))
}

/// A body as it stands below its heading: behind an empty line.
fn written(body: &str, end: &str) -> String {
    let body = body.trim_matches(['\r', '\n']);
    let lines = body.lines().map(|line| format!("{line}{end}"));
    if body.is_empty() {
        String::new()
    } else {
        end.to_string() + &lines.collect::<String>()
    }
}
