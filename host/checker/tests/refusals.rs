//! Refusal numbers and their order: each number is tried over the whole input
//! before the next, so that of several faults the lowest number answers,
//! wherever it stands.

mod samples;

use std::array::from_fn;
use std::collections::BTreeSet;

use checker::bytes::{
    converter_bytes, read_blocks, read_converter_memory, read_design, seal, write_blocks, Design,
    Formula, Record, SIDES,
};
use checker::generate::{loose_converter, Random};
use checker::tick::Runner;
use samples::{
    figure_five, four_rules, handshake, judged, judged_waits, pattern, record, ruled_handshake,
    state, state_at, with_faults, BEYOND,
};

/// Bytes that get other values, and the number with which they are then refused.
struct Fault {
    number: u8,
    changes: Vec<(usize, u8)>,
}

fn fault(number: u8, changes: &[(usize, u8)]) -> Fault {
    Fault { number, changes: changes.to_vec() }
}

impl Fault {
    fn apply(&self, bytes: &mut [u8]) {
        for &(at, value) in &self.changes {
            assert_ne!(bytes[at], value, "a fault changes bytes");
            bytes[at] = value;
        }
    }

    fn overlaps(&self, other: &Fault) -> bool {
        let places = |fault: &Fault| fault.changes.iter().map(|c| c.0).collect::<BTreeSet<usize>>();
        !places(self).is_disjoint(&places(other))
    }
}

/// A design whose bytes are made wrong. It has two states on each side, 36 formulas and
/// 4 rules.
struct Sample {
    design: Design,
    /// The kinds of its blocks.
    kinds: Vec<u8>,
}

impl Sample {
    fn bytes(&self) -> Vec<u8> {
        let bytes = self.design.to_bytes();
        assert_eq!(bytes.len(), 512 * self.kinds.len());
        bytes
    }

    /// The sides that have a block.
    fn sides(&self) -> usize {
        self.kinds.len() - 2
    }

    /// Where a formula record begins.
    fn formula_at(&self, formula: usize) -> usize {
        512 * self.sides() + 4 + 4 * formula
    }

    /// Where the block of the rules begins.
    fn rules_at(&self) -> usize {
        512 * (self.sides() + 1)
    }
}

/// H with the four rules, and the same beside a third side.
fn samples_of_designs() -> [Sample; 2] {
    let third = vec![state(&[0], &[(0, 0), (-3, 1)]), state(&[], &[(4, 0)])];
    let mut three_sided = ruled_handshake(false);
    three_sided.sides[2] = third;
    [
        Sample { design: ruled_handshake(false), kinds: vec![1, 2, 3, 4] },
        Sample { design: three_sided, kinds: vec![1, 2, 6, 3, 4] },
    ]
}

/// Faults of a sample, numbers 3 to 8.
fn design_faults(sample: &Sample) -> Vec<Fault> {
    let mut faults = Vec::new();
    for (block, &own) in sample.kinds.iter().enumerate() {
        let start = 512 * block;
        let other_kinds = (0..8).filter(|&kind| kind != own);
        faults.extend(other_kinds.map(|kind| fault(3, &[(start, kind)])));
        faults.push(fault(3, &[(start + 2, 1)]));
        faults.push(fault(3, &[(start + 3, 1)]));
        faults.push(fault(8, &[(start + 509, 1)]));
        faults.push(fault(8, &[(start + 400, 255)]));
        let counts: &[u8] = match own {
            3 => &[65, 255],
            4 => &[17],
            _ => &[0, 17, 255],
        };
        faults.extend(counts.iter().map(|&count| fault(4, &[(start + 1, count)])));
    }
    for side in 0..sample.sides() {
        for state in 0..2 {
            let at = state_at(side, state);
            faults.push(fault(5, &[(at + 2, 0)]));
            faults.push(fault(5, &[(at + 2, 9)]));
            faults.push(fault(5, &[(at + 4, 64)]));
            faults.push(fault(5, &[(at + 4, 128)]));
            faults.push(fault(5, &[(at + 4, 192)]));
            faults.push(fault(5, &[(at + 5, 2)]));
            faults.push(fault(8, &[(at + 3, 1)]));
            faults.push(fault(8, &[(at + 8, 1)]));
            faults.push(fault(8, &[(at + 19, 1)]));
        }
        // Two transitions with the same event.
        faults.push(fault(5, &[(state_at(side, 0) + 4, 5), (state_at(side, 0) + 6, 5)]));
        // Right behind the last record.
        faults.push(fault(8, &[(state_at(side, 2), 1)]));
    }
    // s0 reads beside -1, and s1 beside -2; s1 sends twice.
    faults.push(fault(6, &[(state_at(0, 0) + 4, 7)]));
    faults.push(fault(6, &[(state_at(0, 1) + 4, 7)]));
    faults.push(fault(6, &[(state_at(0, 1) + 4, 255)]));
    // t0 reads and sends; t0 ticks, reads and sends.
    faults.push(fault(6, &[(state_at(1, 0) + 4, 2), (state_at(1, 0) + 6, 255)]));
    faults.push(fault(6, &[(state_at(1, 0) + 2, 3), (state_at(1, 0) + 8, 254)]));
    // t1 sends a second event, a third transition beside those of a delayed state.
    let third = state_at(1, 1);
    faults.push(fault(6, &[(third + 2, 3), (third + 6, 0xFE), (third + 8, 0xFD)]));
    if sample.sides() == 3 {
        // The same of the third side's states: the one ticks and sends, the other reads.
        faults.push(fault(6, &[(state_at(2, 0) + 4, 7)]));
        faults.push(fault(6, &[(state_at(2, 0) + 2, 3), (state_at(2, 0) + 8, 9)]));
        faults.push(fault(6, &[(state_at(2, 1) + 2, 2), (state_at(2, 1) + 6, 255)]));
    }

    let formula_at = |formula: usize| sample.formula_at(formula);
    for kind in [0, 10, 255] {
        faults.push(fault(7, &[(formula_at(35), kind)]));
        faults.push(fault(7, &[(formula_at(0), kind)]));
    }
    // Formula 0 is a literal, 2 an or, 6 a next, 8 an always.
    for over in [48, 63, 64, 255] {
        faults.push(fault(7, &[(formula_at(0) + 1, over)]));
        faults.push(fault(7, &[(formula_at(0), 3), (formula_at(0) + 1, over)]));
    }
    faults.push(fault(7, &[(formula_at(2) + 1, 2)]));
    faults.push(fault(7, &[(formula_at(2) + 2, 2)]));
    faults.push(fault(7, &[(formula_at(2) + 2, 35)]));
    faults.push(fault(7, &[(formula_at(6) + 1, 6)]));
    faults.push(fault(7, &[(formula_at(8), 8), (formula_at(8) + 2, 8)]));
    faults.push(fault(7, &[(formula_at(8) + 1, 64)]));
    faults.push(fault(7, &[(sample.rules_at() + 4, 36)]));
    faults.push(fault(7, &[(sample.rules_at() + 6, 255)]));
    // Byte 3 of a formula, and absent operands.
    faults.push(fault(8, &[(formula_at(2) + 3, 1)]));
    faults.push(fault(8, &[(formula_at(0) + 2, 1)]));
    faults.push(fault(8, &[(formula_at(6) + 2, 1)]));
    faults.push(fault(8, &[(formula_at(8) + 2, 1)]));
    faults.push(fault(8, &[(formula_at(4), 1)]));
    // Right behind the last record.
    faults.push(fault(8, &[(formula_at(36), 1)]));
    faults.push(fault(8, &[(sample.rules_at() + 8, 1)]));
    // A lower count leaves a record behind that isn't used any more.
    faults.push(fault(8, &[(sample.rules_at() + 1, 3)]));
    faults
}

#[test]
fn faults_of_a_design() {
    for sample in samples_of_designs() {
        let sound = sample.bytes();
        assert_eq!(read_design(&sound), Ok(sample.design.clone()));
        for fault in design_faults(&sample) {
            let mut bytes = sound.clone();
            fault.apply(&mut bytes);
            seal(&mut bytes);
            assert_eq!(read_design(&bytes), Err(fault.number), "{:?}", fault.changes);
            // Without its check repaired, the check is what is wrong.
            bytes = sound.clone();
            fault.apply(&mut bytes);
            assert_eq!(read_design(&bytes), Err(2), "{:?}", fault.changes);
        }
    }
}

#[test]
fn a_delayed_states_tick_leads_anywhere() {
    for sample in samples_of_designs() {
        let sides = sample.design.sides.iter().take(sample.sides()).enumerate();
        let states = sides.flat_map(|(side, states)| (0..states.len()).map(move |own| (side, own)));
        let mut delayed = 0;
        for (side, own) in states {
            let transitions = &sample.design.sides[side][own].transitions;
            let [sent, tick] = [-1, 0].map(|sign: i8| {
                transitions.iter().position(|transition| transition.event.signum() == sign)
            });
            let (Some(sent), Some(tick)) = (sent, tick) else { continue };
            delayed += 1;
            for (target, turned) in [(0, false), (1, false), (0, true), (1, true)] {
                let mut made = sample.design.clone();
                made.sides[side][own].transitions[tick].target = target;
                if turned {
                    made.sides[side][own].transitions.swap(sent, tick);
                }
                assert_eq!(read_design(&made.to_bytes()), Ok(made), "{side} {own} {target}");
            }
        }
        // s0 and s1, and a state of the third side.
        assert_eq!(delayed, sample.sides());
    }
}

#[test]
fn of_two_faults_of_a_design_the_lower_number_answers() {
    for sample in samples_of_designs() {
        let sound = sample.bytes();
        let faults = design_faults(&sample);
        let mut pairs = 0;
        for (at, first) in faults.iter().enumerate() {
            for second in faults[at + 1..].iter().filter(|second| !second.overlaps(first)) {
                let mut bytes = sound.clone();
                first.apply(&mut bytes);
                second.apply(&mut bytes);
                seal(&mut bytes);
                let lower = first.number.min(second.number);
                let changes = (&first.changes, &second.changes);
                assert_eq!(read_design(&bytes), Err(lower), "{changes:?}");
                pairs += 1;
            }
        }
        assert!(pairs > 5_000, "{pairs}");
    }
}

#[test]
fn a_wrong_check_wins_over_all_but_the_length() {
    for sample in samples_of_designs() {
        let sound = sample.bytes();
        for fault in design_faults(&sample) {
            for block in 0..sample.kinds.len() {
                for byte in [510, 511] {
                    let mut bytes = sound.clone();
                    fault.apply(&mut bytes);
                    seal(&mut bytes);
                    bytes[512 * block + byte] ^= 1;
                    assert_eq!(read_design(&bytes), Err(2));
                    bytes.push(0);
                    assert_eq!(read_design(&bytes), Err(1));
                    bytes.truncate(sound.len() - 1);
                    assert_eq!(read_design(&bytes), Err(1));
                }
            }
        }
    }
}

#[test]
fn lengths_of_a_design() {
    for sample in samples_of_designs() {
        let sound = sample.bytes();
        assert!(read_design(&sound).is_ok());
        for length in [0, 1, 511, 512, 1536, 2047, 2049, 2304, 2559, 2561, 3072, 4096] {
            let mut bytes = sound.clone();
            bytes.resize(length, 0);
            assert_eq!(read_design(&bytes), Err(1), "{length} bytes");
        }
    }
}

#[test]
fn a_block_more_or_less() {
    let [four, five] = samples_of_designs().map(|sample| sample.bytes());
    // The third side's block is what one has and the other hasn't.
    let mut with_third = four.clone();
    with_third.splice(1024..1024, five[1024..1536].to_vec());
    assert_eq!(with_third, five);
    for place in (0..=2048).step_by(512) {
        // A block of zeros, whose check is right, or one of the four once more.
        let blocks = four.chunks(512).map(<[u8]>::to_vec).chain([vec![0; 512]]);
        for block in blocks {
            let mut more = four.clone();
            more.splice(place..place, block);
            assert_eq!(read_design(&more), Err(3), "at {place}");
        }
        if place != 1024 {
            let mut more = four.clone();
            more.splice(place..place, five[1024..1536].to_vec());
            assert_eq!(read_design(&more), Err(3), "at {place}");
            let mut less = five.clone();
            less.drain(place..place + 512);
            assert_eq!(read_design(&less), Err(3), "without {place}");
        }
    }
}

#[test]
fn limits_of_a_design() {
    // Sixteen states with eight transitions, 64 formulas and 16 rules are taken.
    let transitions: Vec<(i8, u8)> = (0..8).map(|event| (event, 15)).collect();
    let side = vec![state(&[0, 15], &transitions); 16];
    let mut design = handshake(vec![Formula::True; 64], vec![63; 16]);
    design.sides = from_fn(|_| side.clone());
    design.formulas[63] = Formula::And(62, 0);
    design.formulas[62] = Formula::Proposition(47);
    assert_eq!(read_design(&design.to_bytes()), Ok(design.clone()));
    // No formulas and no rules are taken too, and rules without formulas are not.
    design.formulas.clear();
    assert_eq!(read_design(&design.to_bytes()), Err(7));
    design.rules.clear();
    assert_eq!(read_design(&design.to_bytes()), Ok(design));
}

/// A converter of 30 records that are right in themselves. The first, the third
/// of block 2 and the last have room for a further transition.
fn thirty_records() -> Vec<Record> {
    let mut records = loose_converter(&mut Random::new(30), 30);
    for at in [0, 20, 29] {
        records[at] = record([1, 2, 3], &[([1, -1, 2], 29), ([1, -1, -2], 0)]);
    }
    records
}

/// Faults of a record that has two transitions, as changes within it.
fn record_faults() -> Vec<Vec<(usize, u8)>> {
    vec![
        vec![(0, 16)],
        vec![(1, 255)],
        vec![(2, 16)],
        vec![(3, 0)],
        vec![(3, 9)],
        vec![(4, 64)],
        vec![(5, 192)],
        vec![(6, 128)],
        vec![(12, 64)],
        // The second place's events are made those of the first.
        vec![(12, 2)],
        // The zero inside a used place.
        vec![(7, 1)],
        vec![(13, 255)],
        // The next record isn't there.
        vec![(8, 30)],
        vec![(9, 1)],
        vec![(15, 255)],
        // Unused places: the third, its zero, the last, and one that a lower count leaves.
        vec![(16, 1)],
        vec![(19, 1)],
        vec![(51, 1)],
        vec![(3, 1)],
    ]
}

#[test]
fn faults_of_a_converter_in_memory() {
    let sound = converter_bytes(&thirty_records());
    assert_eq!(read_converter_memory(&sound), Ok(thirty_records()));
    for changes in record_faults() {
        for at in [0, 20, 29] {
            let mut bytes = sound.clone();
            for &(byte, value) in &changes {
                assert_ne!(bytes[52 * at + byte], value);
                bytes[52 * at + byte] = value;
            }
            assert_eq!(read_converter_memory(&bytes), Err(11), "{changes:?}");
            let mut lent = pattern(4 * 512);
            assert_eq!(write_blocks(&bytes, &mut lent), Err(11));
            assert_eq!(write_blocks(&bytes, &mut lent[..0]), Err(11));
            assert_eq!(lent, pattern(4 * 512));
            // The length is tried first.
            bytes.push(0);
            assert_eq!(read_converter_memory(&bytes), Err(10));
            assert_eq!(write_blocks(&bytes, &mut lent), Err(10));
            assert_eq!(lent, pattern(4 * 512));
        }
    }
}

#[test]
fn lengths_of_a_converter_in_memory() {
    let sound = converter_bytes(&thirty_records());
    for length in [0, 1, 36, 51, 53, 52 * 30 - 1, 52 * 30 + 1] {
        let mut bytes = sound.clone();
        bytes.resize(length, 0);
        assert_eq!(read_converter_memory(&bytes), Err(10), "{length} bytes");
        assert_eq!(write_blocks(&bytes, &mut pattern(5_000)), Err(10), "{length} bytes");
    }
    let one = record([15; SIDES], &[([63, -63, 63], 0)]);
    let most = one.to_bytes().repeat(65_536);
    assert_eq!(read_converter_memory(&most).map(|records| records.len()), Ok(65_536));
    let over = one.to_bytes().repeat(65_537);
    assert_eq!(read_converter_memory(&over), Err(10));
    assert_eq!(write_blocks(&over, &mut []), Err(10));
    // With 65,536 records every next record is there.
    let mut last = record([0, 0], &[([0, 0], 65_535)]).to_bytes().repeat(65_536);
    assert!(read_converter_memory(&last).is_ok());
    last.truncate(52 * 65_535);
    assert_eq!(read_converter_memory(&last), Err(11));
}

/// The file of the thirty records: 9, 9, 9 and 3.
fn thirty_records_file() -> Vec<u8> {
    let mut file = vec![0; 4 * 512];
    assert_eq!(write_blocks(&converter_bytes(&thirty_records()), &mut file), Ok(4));
    file
}

/// Faults of the file, numbers 3, 4, 8 and 11.
fn file_faults() -> Vec<Fault> {
    let mut faults = Vec::new();
    for block in 0..4 {
        let start = 512 * block;
        for kind in [0, 1, 4, 6] {
            faults.push(fault(3, &[(start, kind)]));
        }
        faults.push(fault(3, &[(start + 2, 13)]));
        faults.push(fault(3, &[(start + 3, 1)]));
        faults.push(fault(4, &[(start + 1, 0)]));
        faults.push(fault(4, &[(start + 1, 10)]));
        // Nine records end before byte 472.
        faults.push(fault(8, &[(start + 472, 1)]));
        faults.push(fault(8, &[(start + 509, 255)]));
    }
    faults.push(fault(4, &[(1, 8)]));
    faults.push(fault(4, &[(513, 1)]));
    // A record behind the last, and a last record that isn't counted any more.
    faults.push(fault(8, &[(1536 + 4 + 156, 1)]));
    faults.push(fault(8, &[(1536 + 1, 2)]));
    for changes in record_faults() {
        for start in [4, 1024 + 4 + 52 * 2, 1536 + 4 + 52 * 2] {
            let changes: Vec<(usize, u8)> =
                changes.iter().map(|&(at, v)| (start + at, v)).collect();
            faults.push(fault(11, &changes));
        }
    }
    faults
}

/// Reads a file into patterned bytes and holds them against the specification.
fn file_read(file: &[u8], lent_length: usize) -> Result<usize, u8> {
    let mut lent = pattern(lent_length);
    let answer = read_blocks(file, &mut lent);
    let written = 52 * answer.unwrap_or(0);
    assert_eq!(lent[written..], pattern(lent_length)[written..], "lent bytes after {answer:?}");
    answer
}

#[test]
fn faults_of_a_converter_file() {
    let sound = thirty_records_file();
    assert_eq!(file_read(&sound, 52 * 30 + BEYOND), Ok(30));
    assert_eq!(file_read(&sound, 52 * 30), Ok(30));
    assert_eq!(file_read(&sound, 52 * 30 - 1), Err(12));
    assert_eq!(file_read(&sound, 0), Err(12));
    let faults = file_faults();
    for (at, first) in faults.iter().enumerate() {
        let mut bytes = sound.clone();
        first.apply(&mut bytes);
        assert_eq!(file_read(&bytes, 52 * 30), Err(2), "{:?}", first.changes);
        seal(&mut bytes);
        assert_eq!(file_read(&bytes, 52 * 30), Err(first.number), "{:?}", first.changes);
        assert_eq!(file_read(&bytes, 0), Err(first.number), "{:?}", first.changes);
        for second in faults[at + 1..].iter().filter(|second| !second.overlaps(first)) {
            let mut both = bytes.clone();
            second.apply(&mut both);
            seal(&mut both);
            let lower = first.number.min(second.number);
            let changes = (&first.changes, &second.changes);
            assert_eq!(file_read(&both, 52 * 30), Err(lower), "{changes:?}");
        }
        for block in 0..4 {
            let mut unsealed = bytes.clone();
            unsealed[512 * block + 511] ^= 128;
            assert_eq!(file_read(&unsealed, 52 * 30), Err(2));
            unsealed.pop();
            assert_eq!(file_read(&unsealed, 52 * 30), Err(1));
        }
    }
}

#[test]
fn lengths_of_a_converter_file() {
    let sound = thirty_records_file();
    for length in [0, 1, 511, 513, 4 * 512 - 1, 4 * 512 + 1] {
        let mut bytes = sound.clone();
        bytes.resize(length, 0);
        assert_eq!(file_read(&bytes, 52 * 30), Err(1), "{length} bytes");
    }
    // Without its last block the file has 27 records, and 29 isn't there.
    assert_eq!(file_read(&sound[..1536], 52 * 30), Err(11));
    // A block of zeros has a right check and a wrong kind.
    let mut longer = sound.clone();
    longer.resize(5 * 512, 0);
    assert_eq!(file_read(&longer, 52 * 30), Err(3));
}

#[test]
fn the_largest_converter_file() {
    let most = record([15; SIDES], &[([63, -63, 63], 65_535)]).to_bytes().repeat(65_536);
    let mut file = pattern(7_282 * 512 + BEYOND);
    assert_eq!(write_blocks(&most, &mut file[..7_282 * 512 - 1]), Err(12));
    assert_eq!(file, pattern(7_282 * 512 + BEYOND));
    assert_eq!(write_blocks(&most, &mut file), Ok(7_282));
    assert_eq!(file[7_282 * 512..], pattern(7_282 * 512 + BEYOND)[7_282 * 512..]);
    file.truncate(7_282 * 512);
    let last = 7_281 * 512;
    assert_eq!(file[last..last + 4], [5, 7, 0xF9, 0xFF]);
    let mut lent = pattern(52 * 65_536 + BEYOND);
    assert_eq!(read_blocks(&file, &mut lent), Ok(65_536));
    assert_eq!(lent[..52 * 65_536], most);
    assert_eq!(lent[52 * 65_536..], pattern(52 * 65_536 + BEYOND)[52 * 65_536..]);
    assert_eq!(read_blocks(&file, &mut lent[..52 * 65_536 - 1]), Err(12));

    // An eighth record in the last block is one too many.
    let mut over = file.clone();
    over[last + 1] = 8;
    let again = over[last + 4..last + 56].to_vec();
    over[last + 368..last + 420].copy_from_slice(&again);
    seal(&mut over);
    assert_eq!(read_blocks(&over, &mut []), Err(4));
    // So is a block more, whatever stands in it.
    let mut longer = file;
    longer.extend([7; 512]);
    assert_eq!(longer.len(), 7_283 * 512);
    assert_eq!(read_blocks(&longer, &mut []), Err(1));
}

/// Every set of at most three of some numbers.
fn sets(numbers: &[u8]) -> Vec<BTreeSet<u8>> {
    let mut sets = BTreeSet::from([BTreeSet::new()]);
    for _ in 0..3 {
        let grown = sets.iter().flat_map(|set: &BTreeSet<u8>| {
            numbers.iter().map(move |&number| set.iter().copied().chain([number]).collect())
        });
        let grown: Vec<BTreeSet<u8>> = grown.collect();
        sets.extend(grown);
    }
    sets.into_iter().collect()
}

/// A design of four or of five blocks that has the faults of a set, of the numbers 1 to 9
/// and 15 or 16.
fn design_with(wrong: &BTreeSet<u8>, blocks: usize) -> Vec<u8> {
    let as_printed = wrong.contains(&15) || wrong.contains(&16);
    let (mut formulas, rules) = four_rules(as_printed);
    if wrong.contains(&9) {
        // Fifteen kept formulas and four joint states.
        formulas.extend([Formula::Always(0); 7]);
    }
    let design = handshake(formulas, rules);
    let bytes = if blocks == 4 { design.to_bytes() } else { design.to_five_blocks() };
    assert_eq!(bytes.len(), 512 * blocks);
    let last_side = blocks - 3;
    with_faults(bytes, last_side, |number| wrong.contains(&number))
}

#[test]
fn order_of_the_judge() {
    for wrong in sets(&[1, 2, 3, 4, 5, 6, 7, 8, 10, 11, 12, 13, 14, 15]) {
        let mut records = figure_five();
        if wrong.contains(&14) {
            records[0].links.pop();
        }
        let mut converter = converter_bytes(&records);
        if wrong.contains(&11) {
            converter[52 * 2 + 7] = 1;
        }
        if wrong.contains(&10) {
            converter.push(0);
        }
        // The four rules are of kind 9.
        let list = 4 - usize::from(wrong.contains(&12));
        let work = 48 - usize::from(wrong.contains(&13));
        let expected = wrong.first().map_or(Ok(vec![u32::MAX; 4]), |&number| Err(number));
        for blocks in [4, 5] {
            let design = design_with(&wrong, blocks);
            let answer = judged_waits(&design, &converter, work, list);
            assert_eq!(answer, expected, "{wrong:?} {blocks}");
        }
    }
}

#[test]
fn order_of_the_search() {
    for wrong in sets(&[1, 2, 3, 4, 5, 6, 7, 8, 9, 12, 13, 16]) {
        let positions: usize = if wrong.contains(&9) { 4 << 15 } else { 4 << 8 };
        let table_length = 52 * positions - usize::from(wrong.contains(&12));
        let work_length = 16 * positions - usize::from(wrong.contains(&13));
        for blocks in [4, 5] {
            let (mut table, mut work) = (pattern(table_length), pattern(work_length));
            let design = design_with(&wrong, blocks);
            let answer = checker::search(&design, &mut table, &mut work);
            assert_eq!(answer.err(), wrong.first().copied(), "{wrong:?} {blocks}");
            if answer.is_err() {
                assert_eq!(table, pattern(table_length), "{wrong:?} {blocks}");
            }
            if answer.is_ok() || answer == Err(16) {
                assert!(work.iter().all(|&byte| byte == 0), "{wrong:?} {blocks}");
            } else {
                assert_eq!(work, pattern(work_length), "{wrong:?} {blocks}");
            }
        }
    }
}

#[test]
fn order_of_the_writer() {
    for wrong in sets(&[10, 11, 12]) {
        let mut converter = converter_bytes(&thirty_records());
        if wrong.contains(&11) {
            converter[52 * 29 + 2] = 16;
        }
        if wrong.contains(&10) {
            converter.pop();
        }
        let mut lent = pattern(4 * 512 - usize::from(wrong.contains(&12)));
        let answer = write_blocks(&converter, &mut lent);
        assert_eq!(answer.err(), wrong.first().copied(), "{wrong:?}");
        assert_eq!(lent == pattern(lent.len()), answer.is_err(), "{wrong:?}");
    }
}

/// Ticks, and holds the runner against the specification where the tick is refused.
fn ticked(converter: &[u8], record: usize, shown: [i8; SIDES]) -> Result<Runner, u8> {
    let start = Runner { record, delivered: [9, -9, 7] };
    let mut runner = start;
    let answer = checker::tick(converter, &mut runner, shown);
    if answer.is_err() {
        assert_eq!(runner, start);
    }
    answer.map(|()| runner)
}

#[test]
fn order_of_the_tick() {
    let sound = converter_bytes(&figure_five());
    let done = Runner { record: 1, delivered: [-1, 0, 0] };
    assert_eq!(ticked(&sound, 0, [-1, 0, 0]), Ok(done));
    // What is shown: above 0, below -63, or fitting nothing.
    for shown in [
        [1, 0, 0],
        [0, 1, 0],
        [0, 0, 1],
        [-1, 127, 0],
        [-1, 0, 127],
        [-64, 0, 0],
        [0, -64, 0],
        [-1, 0, -64],
        [-128, 0, 0],
        [0, 0, -128],
        [-3, 0, 0],
        [-1, -1, 0],
        [-1, 0, -1],
    ] {
        assert_eq!(ticked(&sound, 0, shown), Err(17), "{shown:?}");
    }
    // The record isn't there: 17 comes after 10 and before any 11.
    let mut wrong = sound.clone();
    wrong[52 * 2 + 7] = 1;
    assert_eq!(ticked(&sound, 3, [-1, 0, 0]), Err(17));
    assert_eq!(ticked(&wrong, 3, [-1, 0, 0]), Err(17));
    assert_eq!(ticked(&sound, 65_535, [0, 0, 0]), Err(17));
    // Only the runner's own record is looked at, and 11 comes before a shown event's 17.
    assert_eq!(ticked(&wrong, 0, [-1, 0, 0]), Ok(done));
    assert_eq!(ticked(&wrong, 2, [0, 0, 0]), Err(11));
    assert_eq!(ticked(&wrong, 2, [0, 0, 1]), Err(11));
    assert_eq!(ticked(&wrong, 2, [-7, 0, 0]), Err(11));
    // The length comes first.
    for length in [0, 1, 51, 155] {
        assert_eq!(ticked(&wrong[..length], 2, [1, 0, 0]), Err(10), "{length} bytes");
        assert_eq!(ticked(&wrong[..length], 3, [1, 0, 0]), Err(10), "{length} bytes");
    }
    let over = sound.repeat(21_846);
    assert_eq!(over.len(), 52 * 65_538);
    assert_eq!(ticked(&over, 0, [-1, 0, 0]), Err(10));
    assert_eq!(ticked(&over[..52 * 65_536], 65_535, [-1, 0, 0]), Ok(done));
    // A next record that isn't there is seen even where another is taken.
    let mut far = sound.clone();
    far[14] = 3;
    assert_eq!(ticked(&far, 0, [-1, 0, 0]), Err(11));
}

#[test]
fn the_first_fitting_transition_is_taken() {
    // 0 fits every event that isn't sent, the tick and what is read alike.
    let records = vec![
        record([0; SIDES], &[([1, -2, 0], 1), ([0, -3, 4], 2), ([0, -3, -4], 2), ([0; SIDES], 3)]),
        record([0; SIDES], &[([0; SIDES], 0)]),
        record([0; SIDES], &[([0, 5, 0], 0)]),
        record([0; SIDES], &[([-63, 63, -63], 0)]),
    ];
    let converter = converter_bytes(&records);
    let done = |record, delivered| Ok(Runner { record, delivered });
    assert_eq!(ticked(&converter, 0, [0, 0, 0]), done(2, [0, 3, 4]));
    assert_eq!(ticked(&converter, 0, [0, 0, -4]), done(2, [0, 3, -4]));
    assert_eq!(ticked(&converter, 0, [-1, 0, 0]), done(1, [-1, 2, 0]));
    assert_eq!(ticked(&converter, 0, [-1, 0, -4]), Err(17));
    assert_eq!(ticked(&converter, 2, [0, 0, 0]), Err(17));
    assert_eq!(ticked(&converter, 2, [0, -5, 0]), done(0, [0, -5, 0]));
    assert_eq!(ticked(&converter, 3, [0, -63, 0]), done(0, [63, -63, 63]));
}

/// Whether the judge finds a converter for H unmatched.
fn unmatched(records: &[Record]) -> bool {
    let design = handshake(vec![], vec![]).to_bytes();
    judged(&design, &converter_bytes(records), 16 * records.len() + BEYOND) == Err(14)
}

#[test]
fn what_a_converter_may_do() {
    assert!(!unmatched(&figure_five()));
    // Record 0 names another joint state; one that the sides don't have.
    let mut wrong = figure_five();
    wrong.swap(0, 2);
    assert!(unmatched(&wrong));
    for states in [[2, 0, 0], [0, 2, 0], [0, 0, 1], [0, 0, 15]] {
        let mut wrong = figure_five();
        wrong.push(record(states, &[([0; SIDES], 3)]));
        assert!(unmatched(&wrong), "{states:?}");
    }
    // A next record that names another joint state; an event that isn't a dual.
    let mut wrong = figure_five();
    wrong[0].links[1].next = 2;
    assert!(unmatched(&wrong));
    for events in [[-1, 0, 0], [1, 0, 1], [1, 0, -1]] {
        let mut wrong = figure_five();
        wrong[0].links[0].events = events;
        assert!(unmatched(&wrong), "{events:?}");
    }
    // Two that tick, or two that send, beside an input state.
    let mut wrong = figure_five();
    wrong[0] = record([0, 0], &[([0, 0], 0), ([0, -1], 2)]);
    assert!(unmatched(&wrong));
    let mut wrong = figure_five();
    wrong.push(record([1, 1], &[([0, -2], 1), ([2, -2], 0)]));
    assert!(!unmatched(&wrong));
    wrong[0] = record([0, 0], &[([1, 0], 1), ([1, -1], 3)]);
    assert!(unmatched(&wrong));
    // A record that nothing leads to obeys too, and may name any joint state.
    let mut wrong = figure_five();
    wrong.push(record([1, 1], &[([0, -2], 1)]));
    assert!(unmatched(&wrong));
}
