//! How far down the stack the calls reach. Each is made on a stack of its own that holds a pattern,
//! over seeded inputs and the largest that there are; the lowest place that lost the pattern tells
//! how much was taken. No call takes more than the C header says.

mod common;
#[path = "../../checker/tests/samples/mod.rs"]
mod samples;
#[path = "../../checker/tests/typed/mod.rs"]
mod typed;
#[path = "../../checker/tests/waits/mod.rs"]
mod waits;

use std::arch::asm;

use checker::bytes::{converter_bytes, Formula, SIDES};
use checker::generate::{
    any_bytes, any_converter, any_ranges, any_text, block_file, damage, damage_text, flawed_list,
    loose_converter, script, text_at_limits, waiting_design, Random,
};
use checker::ranges::list_bytes;
use common::{header, mixed_design, rule_count, Answers};
use gorzhani::{
    Runner, BLOCK, BLOCK_RECORDS, CELL, FIVE_BLOCKS, MOST, MOST_RULES, RECORD, RULE_BLOCKS,
};
use samples::{rings, three_rings};
use typed::{at_the_limits, long_texts};
use waits::rows_at_the_limit;

// The library's functions, to be called by hand.
extern "C" {
    fn gorzhani_positions();
    fn gorzhani_search();
    fn gorzhani_judge();
    fn gorzhani_write();
    fn gorzhani_read();
    fn gorzhani_tick();
    fn gorzhani_ranges();
    fn gorzhani_rules();
}

/// Sixteen bytes of a stack, aligned as the convention asks for.
#[repr(align(16))]
#[derive(Clone, PartialEq)]
struct Place([u64; 2]);

const PATTERN: Place = Place([0xA5C3_96E1_5A3C_691E, 0x1E69_3C5A_E196_C3A5]);

/// The places of a stack of a megabyte.
const PLACES: usize = 1 << 16;

/// One of the functions, the stack that it is called on, and what it answered.
struct Call {
    function: unsafe extern "C" fn(),
    stack: Vec<Place>,
    answers: Answers,
}

impl Call {
    fn new(function: unsafe extern "C" fn()) -> Call {
        Call { function, stack: vec![PATTERN; PLACES], answers: Answers::default() }
    }

    /// Calls the function with these arguments: up to six in registers, two more on the stack.
    ///
    /// # Safety
    /// They are arguments as the C header asks for.
    unsafe fn with<const ARGUMENTS: usize>(&mut self, arguments: [usize; ARGUMENTS]) -> i32 {
        let (first, behind) = arguments.split_at(ARGUMENTS.min(6));
        let mut registers = [0; 6];
        registers[..first.len()].copy_from_slice(first);
        let mut top = self.stack.as_mut_ptr().add(PLACES);
        match *behind {
            [] => {}
            [seventh, eighth] => {
                top = top.sub(1);
                top.write(Place([seventh as u64, eighth as u64]));
            }
            _ => unreachable!("no call has seven arguments or over eight"),
        }
        let answer: i32;
        asm!(
            "mov r12, rsp",
            "mov rsp, {top}",
            "call {function}",
            "mov rsp, r12",
            top = in(reg) top,
            function = in(reg) self.function,
            in("rdi") registers[0],
            in("rsi") registers[1],
            in("rdx") registers[2],
            in("rcx") registers[3],
            in("r8") registers[4],
            in("r9") registers[5],
            out("r12") _,
            lateout("eax") answer,
            clobber_abi("C"),
        );
        self.answers.count((-answer).max(0) as u8);
        answer
    }

    /// The same for a function that answers 0 or a refusal, and nothing else.
    ///
    /// # Safety
    /// As above.
    unsafe fn done<const ARGUMENTS: usize>(&mut self, arguments: [usize; ARGUMENTS]) {
        let answer = self.with(arguments);
        assert!(answer <= 0, "{answer}");
    }

    /// Asks that the answers were these numbers, and that no call took more stack than this
    /// constant of the header.
    fn took(&self, numbers: &[usize], most: &str) {
        self.answers.are(numbers, 10);
        let kept = self.stack.iter().take_while(|&place| *place == PATTERN).count();
        let taken = 16 * (PLACES - kept);
        assert!(taken > 0, "a call leaves its return address");
        assert!(taken <= header(most), "{taken} bytes, {most} is {}", header(most));
    }
}

/// The calls.
struct Calls {
    positions: Call,
    search: Call,
    judge: Call,
    write: Call,
    read: Call,
    tick: Call,
    ranges: Call,
    rules: Call,
}

impl Calls {
    fn new() -> Calls {
        Calls {
            positions: Call::new(gorzhani_positions),
            search: Call::new(gorzhani_search),
            judge: Call::new(gorzhani_judge),
            write: Call::new(gorzhani_write),
            read: Call::new(gorzhani_read),
            tick: Call::new(gorzhani_tick),
            ranges: Call::new(gorzhani_ranges),
            rules: Call::new(gorzhani_rules),
        }
    }

    /// Counts and searches with lent memory of this many positions. The converter, if one is found.
    fn design(&mut self, design: &[u8], lent: usize) -> Option<Vec<u8>> {
        let (mut table, mut work) = (vec![0; RECORD * lent], vec![0; CELL * lent]);
        let [at, length] = read(design);
        let ([table_at, table_length], [work_at, work_length]) =
            (written(&mut table), written(&mut work));
        // SAFETY: the pointers are those of slices that live on, and the functions take these.
        let answer = unsafe {
            self.positions.with([at, length]);
            self.search.with([at, length, table_at, table_length, work_at, work_length])
        };
        table.truncate(RECORD * usize::try_from(answer).ok()?);
        Some(table)
    }

    /// Judges a converter with a list of so many waits lent, writes it and reads it back.
    fn converter(&mut self, design: &[u8], converter: &[u8], lent: usize) {
        let records = converter.len() / RECORD;
        let (mut work, mut waits) = (vec![0; CELL * records], vec![0_u32; lent]);
        let mut file = vec![0; BLOCK * records.div_ceil(BLOCK_RECORDS)];
        let ([design_at, design_length], [at, length]) = (read(design), read(converter));
        let ([work_at, work_length], [waits_at, waits_length]) =
            (written(&mut work), written(&mut waits));
        let [file_at, file_length] = written(&mut file);
        // SAFETY: as above.
        unsafe {
            self.judge.done([
                design_at,
                design_length,
                at,
                length,
                work_at,
                work_length,
                waits_at,
                waits_length,
            ]);
            self.write.with([at, length, file_at, file_length]);
        }
        self.file(&file);
    }

    /// Reads a file of blocks.
    fn file(&mut self, file: &[u8]) {
        let mut memory = vec![0; RECORD * BLOCK_RECORDS * file.len().div_ceil(BLOCK)];
        let ([file_at, file_length], [at, length]) = (read(file), written(&mut memory));
        // SAFETY: as above.
        unsafe { self.read.with([file_at, file_length, at, length]) };
    }

    /// Ticks once.
    fn tick(&mut self, converter: &[u8], runner: &mut Runner, shown: [i8; SIDES]) {
        let [at, length] = read(converter);
        let [first, second, third] = shown.map(|event| event as usize);
        let runner: *mut Runner = runner;
        // SAFETY: as above; the runner is lent and nothing else refers to it.
        unsafe { self.tick.done([at, length, runner as usize, first, second, third]) };
    }

    /// Replaces states with so many bytes lent.
    fn ranges(&mut self, design: &[u8], list: &[u8], lent: usize) {
        let mut result = vec![0; lent];
        let ([at, length], [list_at, list_length]) = (read(design), read(list));
        let [result_at, result_length] = written(&mut result);
        // SAFETY: as above.
        unsafe {
            self.ranges.done([at, length, list_at, list_length, result_at, result_length]);
        }
    }

    /// Reads typed rules with so many bytes lent.
    fn rules(&mut self, text: &[u8], lent: usize) {
        let mut blocks = vec![0; lent];
        let ([at, length], [blocks_at, blocks_length]) = (read(text), written(&mut blocks));
        // SAFETY: as above.
        unsafe { self.rules.with([at, length, blocks_at, blocks_length]) };
    }
}

/// Bytes that are read, as arguments.
fn read(bytes: &[u8]) -> [usize; 2] {
    [bytes.as_ptr() as usize, bytes.len()]
}

/// Bytes or numbers that are written, as arguments.
fn written<Element>(list: &mut [Element]) -> [usize; 2] {
    [list.as_mut_ptr() as usize, list.len()]
}

#[test]
fn no_call_takes_more_than_the_header_says() {
    let mut random = Random::new(601);
    let mut calls = Calls::new();
    for round in 0..10_000 {
        let made = mixed_design(&mut random, round);
        let mut bytes = any_bytes(&mut random, &made);
        if random.once_in(2) {
            damage(&mut random, &mut bytes);
        }
        let found = calls.design(&bytes, 1 << random.below(13));
        for converter in found.into_iter().chain([any_converter(&mut random, &made)]) {
            let waits = rule_count(&bytes).saturating_sub(usize::from(random.once_in(8)));
            calls.converter(&bytes, &converter, waits);
            let mut runner = Runner::default();
            for shown in script(&mut random, &made, &converter, 5) {
                calls.tick(&converter, &mut runner, shown);
            }
        }
        let mut file = block_file(&mut random, 40);
        damage(&mut random, &mut file);
        calls.file(&file);

        let made = waiting_design(&mut random);
        let (mut bytes, ranges) = (any_bytes(&mut random, &made), any_ranges(&mut random, &made));
        let list = match random.below(3) {
            0 => flawed_list(&mut random, &made, &ranges).0,
            _ => list_bytes(&ranges),
        };
        if random.once_in(2) {
            damage(&mut random, &mut bytes);
        }
        let lent = bytes.len().saturating_sub(usize::from(random.once_in(8)));
        calls.ranges(&bytes, &list, lent);

        let mut text = match round % 2 {
            0 => any_text(&mut random).bytes,
            _ => text_at_limits(&mut random).bytes,
        };
        if random.once_in(3) {
            damage_text(&mut random, &mut text);
        }
        calls.rules(&text, RULE_BLOCKS - usize::from(random.once_in(8)));
    }
    // As many brackets as may be open, and all that may be repeated in a text.
    for (text, ..) in at_the_limits() {
        calls.rules(text.as_bytes(), RULE_BLOCKS);
    }
    for (_, text, ..) in long_texts() {
        calls.rules(text.as_bytes(), RULE_BLOCKS);
    }
    // As many states as a side may have, and as many entries as a list.
    for (full, list, _) in rows_at_the_limit() {
        calls.ranges(&full.to_five_blocks(), &list, FIVE_BLOCKS);
    }
    // As many positions and as many records as there may be.
    let most = converter_bytes(&loose_converter(&mut random, MOST));
    for full in [rings(Formula::Always(14)), three_rings(Formula::Always(9))] {
        let bytes = full.to_bytes();
        let found = calls.design(&bytes, MOST).expect("there is a converter");
        calls.converter(&bytes, &found, MOST_RULES);
        calls.converter(&bytes, &most, MOST_RULES);
    }

    calls.positions.took(&[0, 1, 2, 3, 4, 5, 6, 7, 8, 9], "GORZHANI_POSITIONS_STACK");
    calls.search.took(&[0, 1, 2, 3, 4, 5, 6, 7, 8, 9, 12, 16], "GORZHANI_SEARCH_STACK");
    let judged = [0, 1, 2, 3, 4, 5, 6, 7, 8, 10, 11, 12, 14, 15];
    calls.judge.took(&judged, "GORZHANI_JUDGE_STACK");
    calls.write.took(&[0, 10, 11], "GORZHANI_WRITE_STACK");
    calls.read.took(&[0, 1, 2, 3, 4, 8, 11], "GORZHANI_READ_STACK");
    calls.tick.took(&[0, 10, 11, 17], "GORZHANI_TICK_STACK");
    let replaced = [0, 1, 2, 3, 4, 5, 6, 7, 8, 12, 22, 23];
    calls.ranges.took(&replaced, "GORZHANI_RANGES_STACK");
    calls.rules.took(&[0, 12, 19, 20, 21], "GORZHANI_RULES_STACK");
}
