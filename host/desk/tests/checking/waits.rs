//! How long rules wait: each number is that of the second checker, stands beside its rule, and none
//! is missing.

use checker::bytes::converter_bytes;
use gorzhani::{CELL, MOST_RULES, NO_WAIT};

use super::formulas::Tree;
use super::{demand, number, Case, Checked, Seen};

/// The line above the waits.
pub const HEAD: &str = "How long rules wait at the most, by the library's judge:";

/// The rules that have a wait, counted from 0, each with it, by the second checker. They are those
/// that are untils.
fn due(case: &Case) -> Checked<Vec<(usize, u32)>> {
    let converter = converter_bytes(&case.converter);
    let (mut work, mut waits) = (vec![0; CELL * case.converter.len()], [NO_WAIT; MOST_RULES]);
    checker::judge(&case.page.read.design, &converter, &mut work, &mut waits)
        .map_err(|refusal| format!("the second checker says {refusal}"))?;
    let due: Vec<(usize, u32)> = (0..).zip(waits).filter(|(_, wait)| *wait != NO_WAIT).collect();
    let rules = case.page.rules();
    let untils = (0..rules.len()).filter(|&rule| matches!(rules[rule], Tree::Until(..)));
    assert!(untils.eq(due.iter().map(|(rule, _)| *rule)), "{due:?} of {rules:?}");
    Ok(due)
}

/// A line of the list: the rule, counted from 0, and its wait.
fn told(case: &Case, line: &str) -> Checked<(usize, u32)> {
    let unknown = || format!("'{line}' tells no wait");
    let (rule, rest) =
        line.strip_prefix("- rule ").and_then(|line| line.split_once(", `")).ok_or_else(unknown)?;
    let (formula, ticks) = rest.split_once("`: ").ok_or_else(unknown)?;
    let rule = number(rule)?.checked_sub(1).ok_or_else(unknown)?;
    let rules = case.page.rules();
    let own = rules.get(rule).ok_or_else(|| format!("no rule for '{line}'"))?;
    demand(case.said(formula)?.tree == *own, || format!("'{formula}' isn't its rule"))?;
    let wait = match (ticks.split_once(", since `"), own) {
        (Some(("0 ticks", since)), Tree::Until(_, g)) => {
            let reached = since.strip_suffix("` holds at the start").ok_or_else(unknown)?;
            let said = case.said(reached)?;
            demand(said.tree == **g, || format!("the rule doesn't wait for '{reached}'"))?;
            demand(said.holding.contains(&0), || format!("'{reached}' doesn't hold there"))?;
            0
        }
        _ if ticks == "1 tick" => 1,
        _ => {
            let ticks =
                number(&ticks.strip_suffix(" ticks").ok_or_else(unknown)?.replace(',', ""))?;
            demand(ticks > 1, unknown)?;
            ticks as u32
        }
    };
    Ok((rule, wait))
}

/// Checks the waits in a text that says yes, and answers what is left of it without them.
pub fn check(case: &Case, text: &str) -> Checked<(Seen, String)> {
    let lines: Vec<&str> = text.lines().collect();
    let due = due(case)?;
    let mut seen = Seen::new();
    let Some(head) = lines.iter().position(|line| *line == HEAD) else {
        demand(due.is_empty(), || format!("the waits {due:?} are due"))?;
        return Ok((seen, text.to_string()));
    };
    demand(lines.get(head + 1) == Some(&""), || "no empty line behind the head".to_string())?;
    let list: Vec<&str> =
        lines[head + 2..].iter().copied().take_while(|line| !line.is_empty()).collect();
    let told = list.iter().map(|line| told(case, line)).collect::<Checked<Vec<_>>>()?;
    demand(!told.is_empty() && told == due, || format!("{told:?} are told, and {due:?} are due"))?;
    for (_, wait) in told {
        let kind = ["waits of none", "waits of one", "waits of two"].get(wait as usize);
        *seen.entry(kind.unwrap_or(&"longer waits")).or_default() += 1;
    }
    let left = [&lines[..head], &lines[head + 2 + list.len()..]].concat();
    Ok((seen, left.join("\n")))
}

/// Checks the waits in the section Verdict of a page that says yes: they stand behind the size and
/// before the notes and the numbers.
pub fn check_page(case: &Case, page: &str) -> Checked<Seen> {
    let (_, verdict) = page.split_once("\n## Verdict\n").ok_or("no verdict")?;
    let (verdict, _) = verdict.split_once("\n## Converter\n").ok_or("no converter")?;
    let place = |is: &dyn Fn(&str) -> bool| verdict.lines().position(is);
    if let Some(head) = place(&|line| line == HEAD) {
        let size = place(&|line| line.ends_with(" positions."));
        demand(size == head.checked_sub(2), || "waits stand behind the size".to_string())?;
        let behind = place(&|line| line.starts_with("Note: ") || line == "Numbers:");
        demand(behind > Some(head), || "waits stand before the notes".to_string())?;
    }
    check(case, verdict).map(|(seen, _)| seen)
}
