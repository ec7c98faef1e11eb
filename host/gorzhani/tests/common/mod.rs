//! Lent buffers with guard bytes, a lent list with guard numbers, and each call of the library held
//! against the second checker: the answer, and every byte and number that is lent.

// Each test file uses some of these.
#![allow(dead_code)]

pub mod graphs;
pub mod pairs;

use checker::bytes::{positions, read_blocks, read_design, write_blocks, Design, Formula, SIDES};
use checker::generate::{any_design, design, ruled_design, Random, Shape};
use checker::ranges::like;
use gorzhani::{Refused, Runner, Verdict, BLOCK, CELL, MOST_RULES, NO_WAIT, RECORD, RULE_BLOCKS};

const GUARD: usize = 64;

/// A lent buffer with guard bytes on both sides, and what it held at first.
pub struct Lent {
    bytes: Vec<u8>,
    first: Vec<u8>,
    /// How many guard bytes stand in front.
    front: usize,
}

impl Lent {
    /// A buffer that holds these bytes.
    pub fn holding(bytes: &[u8]) -> Lent {
        let guard = |from: u8| (0..GUARD as u8).map(move |at| at.wrapping_mul(7) ^ from);
        let bytes: Vec<u8> = guard(0xA5).chain(bytes.iter().copied()).chain(guard(0x5A)).collect();
        Lent { first: bytes.clone(), bytes, front: GUARD }
    }

    /// A buffer of this length with a pattern in it that has no zero.
    pub fn new(length: usize) -> Lent {
        let pattern: Vec<u8> = (0..length).map(|at| (at % 251 + 1) as u8).collect();
        Lent::holding(&pattern)
    }

    /// The same buffer at an odd address: three guard bytes fewer stand in front.
    pub fn odd(mut self) -> Lent {
        self.bytes.drain(..3);
        self.first.drain(..3);
        self.front -= 3;
        assert_eq!(self.part().as_ptr() as usize % 2, 1);
        self
    }

    /// The bytes between the guards.
    pub fn part(&self) -> &[u8] {
        &self.bytes[self.front..self.bytes.len() - GUARD]
    }

    /// The same to be written to.
    pub fn part_mut(&mut self) -> &mut [u8] {
        let end = self.bytes.len() - GUARD;
        &mut self.bytes[self.front..end]
    }

    /// Whether the guards and the bytes are as at first, but for `changed` at the front.
    pub fn holds(&self, changed: &[u8]) -> bool {
        let (guard, rest) = self.bytes.split_at(self.front);
        let (front, behind) = rest.split_at(changed.len());
        guard == &self.first[..self.front]
            && front == changed
            && behind == &self.first[self.front + changed.len()..]
    }

    /// Whether nothing changed.
    pub fn untouched(&self) -> bool {
        self.holds(&[])
    }
}

/// A lent list of numbers with guard numbers on both sides, all of them random, and what it held at
/// first.
pub struct Numbers {
    numbers: Vec<u32>,
    first: Vec<u32>,
}

impl Numbers {
    /// A list of this length.
    pub fn new(random: &mut Random, length: usize) -> Numbers {
        let number = |_| (random.bits() >> 16) as u32;
        let numbers: Vec<u32> = (0..length + 2 * GUARD).map(number).collect();
        Numbers { first: numbers.clone(), numbers }
    }

    /// The numbers between the guards.
    pub fn part(&self) -> &[u32] {
        &self.numbers[GUARD..self.numbers.len() - GUARD]
    }

    /// The same to be written to.
    pub fn part_mut(&mut self) -> &mut [u32] {
        let end = self.numbers.len() - GUARD;
        &mut self.numbers[GUARD..end]
    }

    /// Whether the guards and the numbers are as at first, but for `changed` at the front.
    pub fn holds(&self, changed: &[u32]) -> bool {
        let mut expected = self.first.clone();
        expected[GUARD..GUARD + changed.len()].copy_from_slice(changed);
        self.numbers == expected
    }
}

/// A runner with guard bytes on both sides.
#[repr(C)]
#[derive(Clone, Copy, PartialEq)]
struct GuardedRunner {
    before: [u8; 16],
    runner: Runner,
    after: [u8; 16],
}

/// A sound design, of another sort from round to round.
pub fn mixed_design(random: &mut Random, round: usize) -> Design {
    match round % 6 {
        0 => any_design(random),
        1 => design(random, &Shape::FULL),
        2 => ruled_design(random, &Shape { formulas: 20, rules: 5, ..Shape::SMALL }),
        3 => ruled_design(random, &Shape::SMALL),
        _ => ruled_design(random, &Shape::TINY),
    }
}

/// A length that is mostly enough, at times one short, at times more.
pub fn about(random: &mut Random, enough: usize) -> usize {
    match random.below(12) {
        0 => enough.saturating_sub(1),
        1 => enough + random.from_to(1, 100),
        2 => random.below(enough + 1),
        _ => enough,
    }
}

/// How often each answer was given; 0 is any that isn't a refusal.
#[derive(Default)]
pub struct Answers([usize; 24]);

impl Answers {
    /// Counts an answer.
    pub fn count(&mut self, number: u8) {
        self.0[usize::from(number)] += 1;
    }

    /// How many were counted.
    pub fn total(&self) -> usize {
        self.0.iter().sum()
    }

    /// The numbers that came, and how often each.
    pub fn counts(&self) -> Vec<(usize, usize)> {
        let came = |number: usize| (number, self.0[number]);
        (0..self.0.len()).map(came).filter(|&(_, times)| times > 0).collect()
    }

    /// Asks that each of these numbers came so often, and no other came.
    pub fn are(&self, numbers: &[usize], least: usize) {
        for number in 0..self.0.len() {
            let enough = if numbers.contains(&number) {
                self.0[number] >= least
            } else {
                self.0[number] == 0
            };
            assert!(enough, "{number}: {:?}", self.0);
        }
    }
}

fn number<T>(answer: Result<T, Refused>) -> u8 {
    answer.err().map_or(0, |Refused(number)| number)
}

/// A constant of the C header: of an enum, or a number of 32 bits that is defined.
pub fn header(name: &str) -> usize {
    let text = include_str!("../../../../include/gorzhani.h");
    let value = text.lines().find_map(|line| {
        let defined = line.strip_prefix("#define ").and_then(|line| line.strip_suffix(')'));
        let (left, right) = match defined {
            Some(line) => line.split_once(" UINT32_C(")?,
            None => line.trim().trim_end_matches(',').split_once(" = ")?,
        };
        (left == name).then_some(right)
    });
    let value = value.unwrap_or_else(|| panic!("the header has no {name}"));
    value.parse().unwrap_or_else(|_| panic!("{name} = {value} is no number"))
}

/// The positions of the design that these bytes spell, at most `most`.
pub fn size(bytes: &[u8], most: usize) -> usize {
    read_design(bytes).map_or(4, |design| positions(&design).min(most as u128) as usize)
}

/// Counts the positions by both.
pub fn positions_agrees(bytes: &[u8]) -> u8 {
    let design = Lent::holding(bytes);
    let answer = gorzhani::positions(design.part());
    let other = read_design(bytes).and_then(|design| match positions(&design) {
        count @ ..=65_536 => Ok(count as usize),
        _ => Err(9),
    });
    assert!(design.untouched());
    assert_eq!(answer.map_err(|Refused(number)| number), other, "{:?}", read_design(bytes));
    number(answer)
}

/// Searches by both with lent buffers of these lengths.
pub fn search_agrees(bytes: &[u8], table_length: usize, work_length: usize) -> u8 {
    positions_agrees(bytes);
    let design = Lent::holding(bytes);
    let (mut table, mut work) = (Lent::new(table_length), Lent::new(work_length));
    let answer = gorzhani::search(design.part(), table.part_mut(), work.part_mut());
    let mut other_table = vec![0; table_length];
    let other = checker::search(bytes, &mut other_table, &mut vec![0; work_length]);
    assert!(design.untouched());
    assert_eq!(number(answer), other.err().unwrap_or(0), "{:?}", read_design(bytes));
    match answer {
        Ok(records) => {
            let size = size(bytes, usize::MAX);
            assert!((1..=size).contains(&records));
            let found = table.part()[..RECORD * records].to_vec();
            assert!(table.holds(&found), "the table behind the records is as it was");
            assert!(work.holds(&vec![0; CELL * size]));
            assert_eq!(judge_agrees(bytes, &found, CELL * records), 0, "{:?}", read_design(bytes));
            let other = &other_table[..RECORD * other.expect("the other found one too")];
            assert_eq!(judge_agrees(bytes, other, CELL * (other.len() / RECORD)), 0);
        }
        Err(Refused(16)) => {
            assert!(table.untouched() && work.holds(&vec![0; CELL * size(bytes, usize::MAX)]));
        }
        Err(_) => assert!(table.untouched() && work.untouched()),
    }
    number(answer)
}

/// The converter that the library finds, if there is one.
pub fn found(bytes: &[u8]) -> Option<Vec<u8>> {
    let size = size(bytes, usize::MAX);
    let mut table = vec![0; RECORD * size];
    let answer = gorzhani::search(bytes, &mut table, &mut vec![0; CELL * size]);
    match answer {
        Ok(records) => {
            table.truncate(RECORD * records);
            Some(table)
        }
        Err(refused) => {
            assert_eq!(refused, Refused(16));
            None
        }
    }
}

/// How many rules the design has that these bytes spell; as many as there may be if they spell none.
pub fn rule_count(bytes: &[u8]) -> usize {
    read_design(bytes).map_or(MOST_RULES, |design| design.rules.len())
}

/// Judges by both with lent work of this length and a list of waits that is long enough.
pub fn judge_agrees(bytes: &[u8], converter: &[u8], work_length: usize) -> u8 {
    let spare = (converter.len() + work_length) % 4;
    waits_agree(bytes, converter, work_length, rule_count(bytes) + spare).err().unwrap_or(0)
}

/// The number of a verdict; 0 is yes.
pub fn verdict_number(verdict: Verdict) -> u8 {
    match verdict {
        Verdict::Yes => 0,
        Verdict::Fails(_) => 15,
        Verdict::Refused(Refused(number)) => number,
    }
}

/// A verdict of the second checker as the library has it.
fn librarys_verdict(verdict: checker::verdict::Verdict) -> Verdict {
    match verdict {
        checker::verdict::Verdict::Yes => Verdict::Yes,
        checker::verdict::Verdict::Fails(place) => Verdict::Fails(place as u8),
        checker::verdict::Verdict::Refused(number) => Verdict::Refused(Refused(number)),
    }
}

/// Asks both for the verdict alone, with lent work of this length.
pub fn verdict_agrees(bytes: &[u8], converter: &[u8], work_length: usize) -> Verdict {
    let (design, lent) = (Lent::holding(bytes), Lent::holding(converter));
    let mut work = Lent::new(work_length);
    let verdict = gorzhani::verdict(design.part(), lent.part(), work.part_mut());
    let other = librarys_verdict(checker::verdict(bytes, converter, &mut vec![0; work_length]));
    assert!(design.untouched() && lent.untouched());
    assert_eq!(verdict, other, "{:?} {converter:?}", read_design(bytes));
    assert!(judged_work(&work, verdict_number(verdict), converter), "{verdict:?}");
    verdict
}

/// Asks both for the verdict alone, with lent work of this length. The library's judge, with a list
/// of waits that is long enough, says the same. The number.
pub fn quick_agrees(bytes: &[u8], converter: &[u8], work_length: usize) -> u8 {
    let verdict = verdict_agrees(bytes, converter, work_length);
    let (mut work, mut waits) = (vec![0xA5; work_length], [7; MOST_RULES]);
    let judged = number(gorzhani::judge(bytes, converter, &mut work, &mut waits));
    assert_eq!(verdict_number(verdict), judged, "{:?} {converter:?}", read_design(bytes));
    judged
}

/// Searches by both a sound design of at most 65,536 positions. The verdict on what each finds is
/// yes. The library's answer.
pub fn found_well(bytes: &[u8]) -> u8 {
    let Some(first) = found(bytes) else { return 16 };
    let size = size(bytes, usize::MAX);
    let (mut table, mut work) = (vec![0; RECORD * size], vec![0; CELL * size]);
    let records = checker::search(bytes, &mut table, &mut work).expect("the other finds one too");
    for converter in [&first[..], &table[..RECORD * records]] {
        let work = CELL * (converter.len() / RECORD);
        assert_eq!(quick_agrees(bytes, converter, work), 0, "{:?}", read_design(bytes));
    }
    0
}

/// Whether work is as it has to be after this answer: zero for each record after a yes, 14 and 15,
/// and else as it was.
pub fn judged_work(work: &Lent, number: u8, converter: &[u8]) -> bool {
    match number {
        0 | 14 | 15 => work.holds(&vec![0; CELL * (converter.len() / RECORD)]),
        _ => work.untouched(),
    }
}

/// Judges by both with lent work and a list of waits of these lengths. The waits of the rules, or
/// the number.
pub fn waits_agree(
    bytes: &[u8],
    converter: &[u8],
    work_length: usize,
    waits_length: usize,
) -> Result<Vec<u32>, u8> {
    let (design, lent) = (Lent::holding(bytes), Lent::holding(converter));
    let mut work = Lent::new(work_length);
    let seed = converter.iter().map(|&byte| u64::from(byte)).sum::<u64>() + bytes.len() as u64;
    let mut waits = Numbers::new(&mut Random::new(seed), waits_length);
    let mut other_waits = waits.part().to_vec();
    let answer = gorzhani::judge(design.part(), lent.part(), work.part_mut(), waits.part_mut());
    let other = checker::judge(bytes, converter, &mut vec![0; work_length], &mut other_waits);
    assert!(design.untouched() && lent.untouched());
    assert_eq!(number(answer), other.err().unwrap_or(0), "{:?} {converter:?}", read_design(bytes));
    match number(answer) {
        0 | 14 | 15 => assert!(work.holds(&vec![0; CELL * (converter.len() / RECORD)])),
        _ => assert!(work.untouched()),
    }
    if let Err(Refused(number)) = answer {
        assert!(waits.holds(&[]), "{number} {:?}", read_design(bytes));
        return Err(number);
    }
    let made = read_design(bytes).expect("a design that is refused isn't judged well");
    other_waits.truncate(made.rules.len());
    assert!(waits.holds(&other_waits), "{:?} {other_waits:?} {made:?} {converter:?}", waits.part());
    waits_right(&made, converter.len() / RECORD, &other_waits);
    Ok(other_waits)
}

/// Asks that an until has a wait below the count of records, and every other rule has none.
fn waits_right(design: &Design, records: usize, waits: &[u32]) {
    for (&rule, &wait) in design.rules.iter().zip(waits) {
        let right = match design.formulas[usize::from(rule)] {
            Formula::Until(..) => (wait as usize) < records,
            _ => wait == NO_WAIT,
        };
        assert!(right, "{rule} {wait} {design:?}");
    }
}

/// A call that reads some bytes and writes others, and answers how many parts it wrote.
type Copying<Refusal> = fn(&[u8], &mut [u8]) -> Result<usize, Refusal>;

/// Calls both with a lent result of this length. A part that is written has `size` bytes.
fn copying_agrees(
    (library, checker): (Copying<Refused>, Copying<u8>),
    bytes: &[u8],
    length: usize,
    size: usize,
) -> u8 {
    let lent = Lent::holding(bytes);
    let mut result = Lent::new(length);
    let answer = library(lent.part(), result.part_mut());
    let mut other_result = vec![0; length];
    let other = checker(bytes, &mut other_result);
    assert!(lent.untouched());
    assert_eq!(answer.map_err(|Refused(number)| number), other, "{bytes:?}");
    assert!(result.holds(&other_result[..size * other.unwrap_or(0)]));
    number(answer)
}

/// Writes by both to a lent result of this length.
pub fn write_agrees(converter: &[u8], length: usize) -> u8 {
    copying_agrees((gorzhani::write, write_blocks), converter, length, BLOCK)
}

/// Reads by both to a lent result of this length.
pub fn read_agrees(file: &[u8], length: usize) -> u8 {
    copying_agrees((gorzhani::read, read_blocks), file, length, RECORD)
}

/// Replaces states by both, with a lent result of this length. What the library writes is held
/// against the counted waits as well, which know nothing of how a table is made. What is lent to
/// it stands at odd addresses.
pub fn ranges_agrees(bytes: &[u8], list: &[u8], length: usize) -> u8 {
    let (design, entries) = (Lent::holding(bytes).odd(), Lent::holding(list).odd());
    let mut result = Lent::new(length).odd();
    let answer = gorzhani::ranges(design.part(), entries.part(), result.part_mut());
    let mut other_result = vec![0; length];
    let other = checker::ranges(bytes, list, &mut other_result);
    assert!(design.untouched() && entries.untouched());
    let said = answer.map_err(|Refused(number)| number);
    assert_eq!(said, other, "{list:?} {:?}", read_design(bytes));
    if answer.is_ok() {
        let new = &result.part()[..bytes.len()];
        assert_eq!(like(bytes, list, new), Ok(()), "{list:?} {:?}", read_design(bytes));
        assert!(result.holds(&other_result[..bytes.len()]), "{list:?} {:?}", read_design(bytes));
    } else {
        assert!(result.untouched(), "{list:?} {:?}", read_design(bytes));
    }
    number(answer)
}

/// Reads typed rules by both, with a lent result of this length. What is lent stands at odd
/// addresses.
pub fn rules_agrees(text: &[u8], length: usize) -> u8 {
    let lent = Lent::holding(text).odd();
    let mut blocks = Lent::new(length).odd();
    let answer = gorzhani::rules(lent.part(), blocks.part_mut());
    let mut other_blocks = vec![0; length];
    let other = checker::rules(text, &mut other_blocks);
    assert!(lent.untouched());
    assert_eq!(answer.map_err(|Refused(number)| number), other, "{}", beginning(text));
    let written = if answer.is_ok() { RULE_BLOCKS } else { 0 };
    assert!(blocks.holds(&other_blocks[..written]), "{}", beginning(text));
    number(answer)
}

/// The beginning of a text, for a message.
pub fn beginning(text: &[u8]) -> String {
    format!("{:?}", String::from_utf8_lossy(&text[..text.len().min(400)]))
}

/// A runner of the library as the second checker has it.
pub fn checkers_runner(runner: Runner) -> checker::tick::Runner {
    let Runner { record, first, second, third } = runner;
    checker::tick::Runner { record: usize::from(record), delivered: [first, second, third] }
}

/// A runner of the second checker as the library has it.
pub fn librarys_runner(runner: checker::tick::Runner) -> Runner {
    let record = u16::try_from(runner.record).expect("there are at most 65,536 records");
    let [first, second, third] = runner.delivered;
    Runner { record, first, second, third }
}

/// One tick by both, from the same runner.
pub fn tick_agrees(converter: &[u8], runner: &mut Runner, shown: [i8; SIDES]) -> u8 {
    let lent = Lent::holding(converter);
    let first = GuardedRunner { before: [0xA5; 16], runner: *runner, after: [0x5A; 16] };
    let mut guarded = first;
    let answer = gorzhani::tick(lent.part(), &mut guarded.runner, shown);
    let mut other = checkers_runner(*runner);
    let expected = checker::tick(converter, &mut other, shown);
    assert_eq!(number(answer), expected.err().unwrap_or(0), "{converter:?} {runner:?} {shown:?}");
    *runner = librarys_runner(other);
    assert!(lent.untouched() && guarded == GuardedRunner { runner: *runner, ..first });
    number(answer)
}
