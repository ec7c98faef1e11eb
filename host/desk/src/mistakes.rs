//! Mistakes of a page: where they are, how they are shown, and which name may have been meant.

/// A mistake with its place. Lines and columns count from 1, columns in characters.
#[derive(Clone, Debug, PartialEq, Eq)]
pub struct Mistake {
    /// The line.
    pub line: usize,
    /// The first character that is marked.
    pub column: usize,
    /// How many characters are marked, at least 1.
    pub length: usize,
    /// What is wrong.
    pub what: String,
}

/// Of a longer line so many characters are shown, about the place.
const WIDEST: usize = 400;

/// All mistakes of the page called `name`, each with its line and with marks under what is meant.
/// With `colours` the place is bold and the marks are red.
pub fn told(name: &str, text: &str, mistakes: &[Mistake], colours: bool) -> String {
    let text = text.strip_prefix('\u{feff}').unwrap_or(text);
    let lines: Vec<&str> = text.split('\n').collect();
    let painted = |words: String, colour: &str| match colours {
        true => format!("\x1b[{colour}m{words}\x1b[0m"),
        false => words,
    };
    let mut out = String::new();
    // The characters of the line at which the last mistake was: several may be in one line.
    let (mut at, mut line) = (0, Vec::new());
    for mistake in mistakes {
        if at != mistake.line {
            at = mistake.line;
            let text = lines.get(at.saturating_sub(1)).copied().unwrap_or("");
            line = plain(text.strip_suffix('\r').unwrap_or(text)).chars().collect();
        }
        let place = painted(format!("{name}:{at}:{}:", mistake.column), "1");
        let (shown, before, length) =
            excerpt(&line, mistake.column.saturating_sub(1), mistake.length);
        let marks = painted("^".repeat(length), "31");
        let margin = " ".repeat(at.to_string().len());
        out += &format!("{place} {}\n", plain(&mistake.what));
        out += format!("  {at} | {shown}").trim_end();
        out += &format!("\n  {margin} | {before}{marks}\n");
    }
    out
}

/// What is shown of a line, the blanks before its marks, and how many marks there are.
fn excerpt(line: &[char], from: usize, length: usize) -> (String, String, usize) {
    let begin = if line.len() > WIDEST { from.saturating_sub(WIDEST / 2) } else { 0 };
    let begin = begin.min(line.len());
    let end = line.len().min(begin + WIDEST);
    let cut = |here: bool| if here { "…" } else { "" };
    let shown: String = line[begin..end].iter().collect();
    // Tabs stay, so that marks stand below what they mark.
    let blank = |&sign: &char| if sign == '\t' { '\t' } else { ' ' };
    let before: String = line[begin..from.min(end)].iter().map(blank).collect();
    let indent = if begin > 0 { " " } else { "" };
    (
        format!("{}{shown}{}", cut(begin > 0), cut(end < line.len())),
        format!("{indent}{before}"),
        length.min(end.saturating_sub(from)).max(1),
    )
}

/// A text without signs that steer a terminal.
fn plain(text: &str) -> String {
    let sign = |sign: char| if sign.is_control() && sign != '\t' { '\u{fffd}' } else { sign };
    text.chars().map(sign).collect()
}

/// How many letters have to be put in, left out or exchanged to make one word the other.
pub fn distance(one: &str, other: &str) -> usize {
    let other: Vec<char> = other.chars().collect();
    let mut row: Vec<usize> = (0..=other.len()).collect();
    for (above, letter) in one.chars().enumerate() {
        let mut corner = above;
        row[0] = above + 1;
        for (at, &wanted) in other.iter().enumerate() {
            let exchanged = corner + usize::from(letter != wanted);
            corner = row[at + 1];
            row[at + 1] = exchanged.min(corner + 1).min(row[at] + 1);
        }
    }
    row[other.len()]
}

/// The name that is nearest to a word, if one is near: two letters away at most, or a third of the
/// letters of a longer word. Capitals decide only between names that are equally near.
pub fn nearest<'a>(word: &str, names: impl IntoIterator<Item = &'a str>) -> Option<&'a str> {
    let letters = word.chars().count();
    let most = (letters / 3).max(2).min(letters.saturating_sub(1));
    let small = word.to_lowercase();
    let far = |name: &str| {
        // Names of quite another length aren't near, however long the word is.
        if name.chars().count().abs_diff(letters) > most {
            return None;
        }
        let away = distance(&small, &name.to_lowercase());
        (away <= most).then(|| (away, distance(word, name)))
    };
    let near = names.into_iter().filter_map(|name| Some((far(name)?, name)));
    near.min_by_key(|&(away, _)| away).map(|(_, name)| name)
}

/// The end of a message: a name that is near, if there is one.
pub fn suggested<'a>(word: &str, names: impl IntoIterator<Item = &'a str>) -> String {
    nearest(word, names).map_or(String::new(), |name| format!("; there is '{name}'"))
}
