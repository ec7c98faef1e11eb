//! Designs, each with a converter that is matched to it: drawn, or found by the library.

use checker::bytes::{converter_bytes, positions, read_converter_memory, Design, Formula, Record};
use checker::generate::{
    any_design, damaged_converter, design, matched_converter, nearly_matched_converter,
    progress_design, ruled_design, Random, Shape,
};
use gorzhani::MOST_FORMULAS;

use super::found;
use super::graphs::{self, graph, holding, sides, waiting};

/// Puts some untils behind the formulas, over any of them, half of them with "true" before what is
/// to come.
fn with_untils(random: &mut Random, formulas: &mut Vec<Formula>) {
    formulas.truncate(MOST_FORMULAS / 2);
    formulas.push(Formula::True);
    let always_true = formulas.len() - 1;
    for _ in 0..random.from_to(1, MOST_FORMULAS / 2 - 1) {
        let (a, b) = (random.below(formulas.len()), random.below(formulas.len()));
        let before = if random.once_in(2) { always_true } else { a };
        formulas.push(Formula::Until(before, b));
    }
}

/// A design of any sort but without rules, and a converter matched to it.
fn matched(random: &mut Random, round: usize) -> (Design, Vec<Record>) {
    let mut made = match round % 16 {
        0 => design(random, &Shape::FULL),
        1..=5 => design(random, &Shape::SMALL),
        _ => any_design(random),
    };
    with_untils(random, &mut made.formulas);
    made.rules.clear();
    let spare = random.below(12);
    let converter = matched_converter(random, &made, spare);
    (made, converter)
}

/// A design, of whose rules some are untils, and the converter that the library finds for it, if it
/// does.
pub fn searched(random: &mut Random, round: usize) -> Option<(Design, Vec<Record>)> {
    let mut made = match round % 3 {
        0 => progress_design(random, &Shape::TINY),
        1 => ruled_design(random, &Shape::TINY),
        _ => ruled_design(random, &Shape::SMALL),
    };
    if random.once_in(2) {
        made.rules.clear();
    }
    let at = made.formulas.len();
    if at + 2 > MOST_FORMULAS {
        return None;
    }
    made.formulas.extend([Formula::True, Formula::Until(at, random.below(at))]);
    made.rules.insert(random.below(made.rules.len() + 1), at as u8 + 1);
    if positions(&made) > 1 << 10 {
        return None;
    }
    let table = found(&made.to_bytes())?;
    Some((made, read_converter_memory(&table).expect("a converter found is right in itself")))
}

/// Places from each of which one to three lead on, none of them far, the last to itself.
fn leading_on(random: &mut Random, places: usize) -> Vec<Vec<usize>> {
    let far = random.from_to(1, 6);
    let ahead = |random: &mut Random, at: usize| (at + random.from_to(1, far)).min(places - 1);
    (0..places).map(|at| (0..random.from_to(1, 3)).map(|_| ahead(random, at)).collect()).collect()
}

/// A design without rules, and a converter in the shape of a graph.
fn in_no_order(random: &mut Random, round: usize) -> (Design, Vec<Record>) {
    let places = random.from_to(2, 60);
    let next = if round % 3 == 0 { graph(random, places) } else { leading_on(random, places) };
    let mut held = holding(random, places);
    held[places - 1][0] = 1;
    let mut made = Design { sides: sides(), formulas: waiting(random), rules: vec![] };
    with_untils(random, &mut made.formulas);
    let converter = graphs::converter(random, &next, &held);
    (made, converter)
}

/// A design without rules, which leaves them to the caller: of any sort, or one whose converter is
/// in the shape of a graph, from round to round.
pub fn drawn(random: &mut Random, round: usize) -> (Design, Vec<Record>) {
    match round % 2 {
        0 => matched(random, round / 2),
        _ => in_no_order(random, round / 2),
    }
}

/// The bytes of this converter, once in `times` damaged, and as often those of another that is
/// nearly matched to the design.
pub fn mostly_sound(
    random: &mut Random,
    design: &Design,
    records: &[Record],
    times: usize,
) -> Vec<u8> {
    match random.below(times) {
        0 => damaged_converter(random, records),
        1 => converter_bytes(&nearly_matched_converter(random, design, 3)),
        _ => converter_bytes(records),
    }
}
