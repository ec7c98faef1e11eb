//! How far down the stack the verdict alone reaches. Each call is made on a stack of its own that
//! holds a pattern, over seeded inputs and the largest that there are; the lowest place that lost
//! the pattern tells how much was taken. No call takes more than the C header says.

mod common;
#[path = "../../checker/tests/samples/mod.rs"]
mod samples;

use std::arch::asm;

use checker::bytes::{converter_bytes, positions, Formula};
use checker::generate::{any_bytes, any_converter, damage, loose_converter, Random};
use common::{found, header, mixed_design, Answers};
use gorzhani::{CELL, MOST, RECORD};
use samples::{rings, three_rings};

// The library's function, to be called by hand.
extern "C" {
    fn gorzhani_verdict();
}

/// Sixteen bytes of a stack, aligned as the convention asks for.
#[repr(align(16))]
#[derive(Clone, PartialEq)]
struct Place([u64; 2]);

const PATTERN: Place = Place([0xA5C3_96E1_5A3C_691E, 0x1E69_3C5A_E196_C3A5]);

/// The places of a stack of a megabyte.
const PLACES: usize = 1 << 16;

/// The stack that the function is called on, and what it answered.
struct Calls {
    stack: Vec<Place>,
    answers: Answers,
}

impl Calls {
    /// Asks for the verdict: six arguments stand in registers, the seventh on the stack.
    fn verdict(&mut self, design: &[u8], converter: &[u8]) {
        let mut work = vec![0_u8; CELL * (converter.len() / RECORD)];
        let mut rule = 0_u8;
        let at: *mut u8 = &mut rule;
        let answer: i32;
        // SAFETY: the pointers are those of slices that live on, and of a byte of this function's
        // own; nothing else refers to what is written. The stack is a megabyte.
        unsafe {
            let top = self.stack.as_mut_ptr().add(PLACES - 1);
            top.write(Place([at as u64, 0]));
            asm!(
                "mov r12, rsp",
                "mov rsp, {top}",
                "call {function}",
                "mov rsp, r12",
                top = in(reg) top,
                function = in(reg) gorzhani_verdict as unsafe extern "C" fn(),
                in("rdi") design.as_ptr(),
                in("rsi") design.len(),
                in("rdx") converter.as_ptr(),
                in("rcx") converter.len(),
                in("r8") work.as_mut_ptr(),
                in("r9") work.len(),
                out("r12") _,
                lateout("eax") answer,
                clobber_abi("C"),
            );
        }
        assert!(answer <= 0, "{answer}");
        self.answers.count(-answer as u8);
    }
}

#[test]
fn the_verdict_takes_no_more_than_the_header_says() {
    let mut random = Random::new(601);
    let mut calls = Calls { stack: vec![PATTERN; PLACES], answers: Answers::default() };
    for round in 0..10_000 {
        let made = mixed_design(&mut random, round);
        let mut bytes = any_bytes(&mut random, &made);
        if positions(&made) <= 1 << 12 {
            if let Some(converter) = found(&bytes) {
                calls.verdict(&bytes, &converter);
            }
        }
        if random.once_in(2) {
            damage(&mut random, &mut bytes);
        }
        calls.verdict(&bytes, &any_converter(&mut random, &made));
    }
    // As many positions and as many records as there may be.
    let most = converter_bytes(&loose_converter(&mut random, MOST));
    for full in [rings(Formula::Always(14)), three_rings(Formula::Always(9))] {
        let bytes = full.to_bytes();
        calls.verdict(&bytes, &found(&bytes).expect("there is a converter"));
        calls.verdict(&bytes, &most);
    }

    calls.answers.are(&[0, 1, 2, 3, 4, 5, 6, 7, 8, 10, 11, 14, 15], 10);
    let kept = calls.stack.iter().take_while(|&place| *place == PATTERN).count();
    let (taken, most) = (16 * (PLACES - kept), header("GORZHANI_VERDICT_STACK"));
    assert!(taken > 16, "a call leaves its return address");
    assert!(taken <= most, "{taken} bytes, GORZHANI_VERDICT_STACK is {most}");
}
