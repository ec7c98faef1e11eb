//! Text in columns.

/// How a column is set.
#[derive(Clone, Copy, Debug, PartialEq, Eq)]
pub enum Align {
    /// At the left.
    Left,
    /// At the right.
    Right,
}

/// Rows as lines, two spaces between columns; a column for which nothing is said is set at the left. Lines end with their last word.
pub fn columns(rows: &[Vec<String>], align: &[Align]) -> Vec<String> {
    let count = rows.iter().map(Vec::len).max().unwrap_or(0);
    let width = |column: usize| {
        let cells = rows.iter().filter_map(|row| row.get(column));
        cells.map(|cell| cell.chars().count()).max().unwrap_or(0)
    };
    let widths: Vec<usize> = (0..count).map(width).collect();
    let line = |row: &Vec<String>| {
        let cells = row.iter().enumerate().map(|(column, cell)| match align.get(column) {
            Some(Align::Right) => format!("{}{cell}", blanks(cell, widths[column])),
            _ => padded(cell, widths[column]),
        });
        cells.collect::<Vec<String>>().join("  ").trim_end().to_string()
    };
    rows.iter().map(line).collect()
}

/// A cell with blanks behind it, up to a width.
pub fn padded(cell: &str, width: usize) -> String {
    format!("{cell}{}", blanks(cell, width))
}

/// The blanks that a cell is short of a width.
fn blanks(cell: &str, width: usize) -> String {
    " ".repeat(width.saturating_sub(cell.chars().count()))
}

/// Rows as a table of Markdown, its cells padded; the first row is the header.
pub fn table(rows: &[Vec<String>]) -> String {
    let count = rows.iter().map(Vec::len).max().unwrap_or(0);
    let width = |column: usize| {
        let cells = rows.iter().filter_map(|row| row.get(column));
        cells.map(|cell| cell.chars().count()).max().unwrap_or(0).max(3)
    };
    let widths: Vec<usize> = (0..count).map(width).collect();
    let mut out = String::new();
    for (number, row) in rows.iter().enumerate() {
        let cells =
            row.iter().zip(&widths).map(|(cell, &width)| format!(" {} |", padded(cell, width)));
        out += &format!("|{}\n", cells.collect::<String>());
        if number == 0 {
            let dashes = widths.iter().map(|&width| format!("{}|", "-".repeat(width + 2)));
            out += &format!("|{}\n", dashes.collect::<String>());
        }
    }
    out
}

/// Some names as a list in words: "2", "2 and 3", "1, 2 and 3".
pub fn listed(names: &[String]) -> String {
    match names {
        [] => String::new(),
        [name] => name.clone(),
        [before @ .., last] => format!("{} and {last}", before.join(", ")),
    }
}

/// A number with a comma before each group of three digits.
pub fn grouped(number: u128) -> String {
    match (number / 1_000, number % 1_000) {
        (0, low) => low.to_string(),
        (high, low) => format!("{},{low:03}", grouped(high)),
    }
}
