//! What a refusal says of itself, and that the wrapper's constants are those of the C header.

mod common;

use std::collections::BTreeSet;
use std::error::Error;

use checker::{bytes, ranges, refusal, rules, waits};
use common::header;
use gorzhani::{
    Refused, BLOCK, BLOCK_RECORDS, CELL, ENTRY, FIVE_BLOCKS, FOUR_BLOCKS, LAST_NAME, MOST,
    MOST_BRACKETS, MOST_FORMULAS, MOST_RULES, MOST_WAITS, NO_GREATEST, NO_WAIT, RECORD,
    RULE_BLOCKS,
};

/// The numbers that there are.
fn numbers() -> impl Iterator<Item = u8> {
    (1..=17).chain(19..=23)
}

/// What stands behind the number.
fn wrong(number: u8) -> String {
    let said = Refused(number).to_string();
    let before = format!("refused {number}: ");
    said.strip_prefix(&before).unwrap_or_else(|| panic!("{said}")).to_string()
}

#[test]
fn each_number_says_what_is_wrong() {
    // Words of the specification's list that stand in one sentence alone.
    let words = [
        "2,048 or 2,560 bytes",
        "a block's check",
        "kind or first record",
        "a block's record count",
        "a target that isn't a state",
        "neither input, output-only nor delayed",
        "a proposition over 47",
        "an unused byte outside converter records",
        "over 65,536 positions",
        "a converter in memory is empty",
        "an event triple twice",
        "the lent result is too short",
        "the lent work is too short",
        "isn't matched to the sides",
        "some rule doesn't hold",
        "no converter exists",
        "a shown event is above 0 or below -63",
        "the grammar of rules",
        "a temporal part under `!`",
        "over 64 formulas or over 16 rules",
        "a list of ranges",
        "over 16 states after replacement",
    ];
    assert_eq!(numbers().count(), words.len());
    for (own, word) in numbers().zip(words) {
        let saying: Vec<u8> = (0..=255).filter(|&number| wrong(number).contains(word)).collect();
        assert_eq!(saying, [own], "{word}");
    }
}

#[test]
fn other_numbers_are_unknown() {
    let known: BTreeSet<String> = numbers().map(wrong).collect();
    assert_eq!(known.len(), numbers().count());
    let others = (0..=255).filter(|&number| numbers().all(|known| known != number));
    let unknown: BTreeSet<String> = others.map(wrong).collect();
    assert_eq!(unknown.len(), 1);
    assert!(unknown.is_disjoint(&known));
}

#[test]
fn a_refusal_is_an_error() {
    let search = || -> Result<usize, Box<dyn Error>> {
        Ok(gorzhani::search(&[0; 2_047], &mut [], &mut [])?)
    };
    let error = search().expect_err("the design is too short");
    assert_eq!(error.downcast_ref(), Some(&Refused::LENGTH));
    assert!(error.to_string().starts_with("refused 1: "));
}

/// The constants by their names, each beside the second checker's.
#[test]
fn constants() {
    let named = [
        ("LENGTH", Refused::LENGTH, refusal::LENGTH),
        ("CHECK", Refused::CHECK, refusal::CHECK),
        ("HEADER", Refused::HEADER, refusal::HEADER),
        ("COUNT", Refused::COUNT, refusal::COUNT),
        ("TRANSITIONS", Refused::TRANSITIONS, refusal::TRANSITIONS),
        ("STATE_KIND", Refused::STATE_KIND, refusal::STATE_KIND),
        ("FORMULA", Refused::FORMULA, refusal::FORMULA),
        ("UNUSED_BYTE", Refused::UNUSED_BYTE, refusal::UNUSED),
        ("POSITIONS", Refused::POSITIONS, refusal::POSITIONS),
        ("CONVERTER_LENGTH", Refused::CONVERTER_LENGTH, refusal::CONVERTER_LENGTH),
        ("RECORD", Refused::RECORD, refusal::RECORD),
        ("SHORT_RESULT", Refused::SHORT_RESULT, refusal::RESULT),
        ("SHORT_WORK", Refused::SHORT_WORK, refusal::WORK),
        ("UNMATCHED", Refused::UNMATCHED, refusal::UNMATCHED),
        ("RULE", Refused::RULE, refusal::RULE),
        ("NO_CONVERTER", Refused::NO_CONVERTER, refusal::NONE),
        ("TICK", Refused::TICK, refusal::TICK),
        ("TEXT", Refused::TEXT, refusal::TEXT),
        ("SOME_PATH", Refused::SOME_PATH, refusal::SOME_PATH),
        ("TOO_MANY_FORMULAS", Refused::TOO_MANY_FORMULAS, refusal::TOO_MANY_FORMULAS),
        ("RANGES", Refused::RANGES, refusal::RANGES),
        ("TOO_MANY_STATES", Refused::TOO_MANY_STATES, refusal::TOO_MANY_STATES),
    ];
    assert_eq!(numbers().count(), named.len());
    for (own, (name, Refused(number), other)) in numbers().zip(named) {
        let declared = header(&format!("GORZHANI_REFUSED_{name}"));
        assert_eq!((number, other, declared), (own, own, usize::from(own)), "{name}");
    }
    for (name, size) in [
        ("FOUR_BLOCK_DESIGN_BYTES", FOUR_BLOCKS),
        ("FIVE_BLOCK_DESIGN_BYTES", FIVE_BLOCKS),
        ("RECORD_BYTES", RECORD),
        ("BLOCK_BYTES", BLOCK),
        ("BLOCK_RECORDS", BLOCK_RECORDS),
        ("CELL_BYTES", CELL),
        ("MOST_POSITIONS", MOST),
        ("MOST_RECORDS", MOST),
        ("MOST_BLOCKS", MOST.div_ceil(9)),
        ("MOST_TABLE_BYTES", 52 * 65_536),
        ("MOST_WORK_BYTES", 16 * 65_536),
        ("MOST_BLOCKS_BYTES", 512 * 7_282),
        ("ENTRY_BYTES", ENTRY),
        ("MOST_WAITS", usize::from(MOST_WAITS)),
        ("NO_GREATEST", usize::from(NO_GREATEST)),
        ("RULE_BLOCKS_BYTES", RULE_BLOCKS),
        ("MOST_FORMULAS", MOST_FORMULAS),
        ("MOST_RULES", MOST_RULES),
        ("MOST_BRACKETS", MOST_BRACKETS),
        ("LAST_NAME", usize::from(LAST_NAME)),
        ("NO_WAIT", NO_WAIT as usize),
    ] {
        assert_eq!(header(&format!("GORZHANI_{name}")), size, "{name}");
    }
    assert_eq!([NO_WAIT, waits::NO_WAIT], [4_294_967_295; 2]);
    assert_eq!(
        (ENTRY, MOST_WAITS, NO_GREATEST),
        (ranges::ENTRY_BYTES, ranges::MOST_WAITS, ranges::NO_GREATEST)
    );
    assert_eq!(
        (RULE_BLOCKS, MOST_FORMULAS, MOST_RULES, MOST_BRACKETS, usize::from(LAST_NAME) + 1),
        (
            bytes::RULE_BLOCKS,
            bytes::MOST_FORMULAS,
            bytes::MOST_RULES,
            rules::MOST_DEPTH,
            bytes::PROPOSITIONS
        )
    );
}
