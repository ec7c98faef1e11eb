//! Prints, from one run, the times of the proved library beside those of plain
//! Rust, their ratios, and how they grow with the size. The search is measured
//! against its own steps in plain Rust and against the fast baseline, every
//! other call against the baseline, and the verdict against the library's judge
//! too. All must give the same answer each time, or the run stops.
//!
//! With the argument `smallest` each measurement is made at its smallest size
//! alone, and each call is timed once. Such times say little; the run shows that
//! everything is measured and agrees.

#![forbid(unsafe_code)]

mod inputs;

use std::hint::black_box;
use std::time::{Duration, Instant};

use checker::bytes::{positions, Design};
use gorzhani::{
    Refused, Verdict, BLOCK, BLOCK_RECORDS, CELL, ENTRY, MOST_RULES, RECORD, RULE_BLOCKS,
};
use inputs::{Judged, Ranged, Ruled, Typed};

/// A larger size is left out once a call took this long.
const TOO_LONG: Duration = Duration::from_secs(2);

/// How much is measured.
#[derive(Clone, Copy)]
struct Extent {
    /// How many sizes, from the smallest on.
    sizes: usize,
    /// What is measured is called again until there were so many calls,
    calls: usize,
    /// and until this much time went by.
    spent: Duration,
}

impl Extent {
    const FULL: Extent = Extent { sizes: usize::MAX, calls: 3, spent: Duration::from_millis(500) };
    const SMALLEST: Extent = Extent { sizes: 1, calls: 1, spent: Duration::ZERO };

    /// The shortest time of each of some calls, made in turn.
    fn shortest<const CALLS: usize>(
        self,
        mut calls: [&mut dyn FnMut(); CALLS],
    ) -> [Duration; CALLS] {
        let mut times = [const { Times::NONE }; CALLS];
        while times.iter().any(|times| !times.enough(self)) {
            for (times, call) in times.iter_mut().zip(&mut calls) {
                times.call(self, call);
            }
        }
        times.map(|times| times.best.expect("there was a call"))
    }
}

fn main() -> Result<(), String> {
    let extent = match std::env::args().nth(1).as_deref() {
        None => Extent::FULL,
        Some("smallest") => Extent::SMALLEST,
        Some(other) => return Err(format!("{other} is not the argument `smallest`")),
    };
    header("search", ["same steps", "fast baseline"]);
    for (job, designs) in inputs::searched(extent.sizes) {
        let rows = designs.iter().map(|made| {
            let sizes: Vec<u128> = made.iter().map(positions).collect();
            (sizes.iter().sum::<u128>() / sizes.len() as u128, move || search(extent, made))
        });
        table(job, "positions", rows);
    }
    println!();
    header("other calls", ["baseline"]);
    for (job, judged) in inputs::judged(extent.sizes) {
        let rows = judged.iter().map(|made| {
            let records = made.converter.len() / RECORD;
            (records as u128, move || judge(extent, made))
        });
        table(&format!("judge, {job}"), "records", rows);
    }
    let converters = inputs::converters(extent.sizes);
    for (job, call) in [
        ("block writer", write as fn(Extent, &[u8]) -> [Duration; 2]),
        ("block reader", read),
        ("1,000 ticks", ticks),
    ] {
        let rows = converters.iter().map(|made| {
            let records = made.len() / RECORD;
            (records as u128, move || call(extent, made))
        });
        table(job, "records", rows);
    }
    let lists = inputs::ranges(extent.sizes);
    let rows = lists.iter().map(|made| {
        let entries = made.list.len() / ENTRY;
        (entries as u128, move || ranges(extent, made))
    });
    table("1,000 times ranges", "entries", rows);
    for Typed { job, calls, texts } in inputs::typed(extent.sizes) {
        let rows =
            texts.iter().map(|text| (text.len() as u128, move || rules(extent, text, calls)));
        table(job, "bytes", rows);
    }
    println!();
    header("verdict", ["judge", "baseline"]);
    for Ruled { job, fails, judged } in inputs::ruled(extent.sizes) {
        let rows = judged.iter().map(|made| {
            let records = made.converter.len() / RECORD;
            (records as u128, move || verdict(extent, made, fails))
        });
        table(job, "records", rows);
    }
    Ok(())
}

/// Prints a table's header: the library's time; for each of the others its time
/// and the library's ratio to it; and how the library and the last one grew.
fn header<const OTHERS: usize>(what: &str, others: [&str; OTHERS]) {
    let times = others.map(|other| format!(" {other} | ratio |")).concat();
    let last = others[OTHERS - 1];
    println!("| {what} | size | library |{times} growth, library | growth, {last} |");
    println!("|---|---|---|{}", "---|".repeat(2 * OTHERS + 2));
}

/// Prints a row for each size. The first of its times is the library's.
fn table<const TIMES: usize, Measured: FnOnce() -> [Duration; TIMES]>(
    job: &str,
    unit: &str,
    rows: impl Iterator<Item = (u128, Measured)>,
) {
    let mut before: Option<[Duration; TIMES]> = None;
    for (size, measured) in rows {
        print!("| {job} | {} {unit} |", grouped(size));
        if before.is_some_and(|times| times.iter().any(|&time| time > TOO_LONG)) {
            println!(" left out: too long |{}", " |".repeat(2 * TIMES));
            continue;
        }
        let times = measured();
        print!(" {} |", shown(times[0]));
        for &other in &times[1..] {
            print!(" {} | {:.2} |", shown(other), over(times[0], other));
        }
        for which in [0, TIMES - 1] {
            match before {
                Some(before) => print!(" {:.1} |", over(times[which], before[which])),
                None => print!(" |"),
            }
        }
        println!();
        before = Some(times);
    }
}

fn over(time: Duration, other: Duration) -> f64 {
    time.as_secs_f64() / other.as_secs_f64()
}

/// A number with a comma before each group of three digits.
fn grouped(number: u128) -> String {
    match (number / 1_000, number % 1_000) {
        (0, low) => low.to_string(),
        (high, low) => format!("{},{low:03}", grouped(high)),
    }
}

fn shown(time: Duration) -> String {
    let micros = time.as_secs_f64() * 1e6;
    match micros {
        0.0..1_000.0 => format!("{micros:.1} µs"),
        1_000.0..1_000_000.0 => format!("{:.2} ms", micros / 1e3),
        _ => format!("{:.2} s", micros / 1e6),
    }
}

/// The times of calls of one kind.
struct Times {
    best: Option<Duration>,
    spent: Duration,
    calls: usize,
}

impl Times {
    const NONE: Times = Times { best: None, spent: Duration::ZERO, calls: 0 };

    fn enough(&self, extent: Extent) -> bool {
        let slow = self.best.is_some_and(|best| best > TOO_LONG / 4);
        slow || (self.calls >= extent.calls && self.spent >= extent.spent)
    }

    /// Calls once more, unless there were enough calls.
    fn call(&mut self, extent: Extent, what: &mut impl FnMut()) {
        if self.enough(extent) {
            return;
        }
        let start = Instant::now();
        what();
        let time = start.elapsed();
        self.best = Some(self.best.map_or(time, |best| best.min(time)));
        self.spent += time;
        self.calls += 1;
    }
}

/// Searches some designs, one after the other: the time of all by the library,
/// by its own steps in plain Rust, and by the fast baseline.
fn search(extent: Extent, designs: &[Design]) -> [Duration; 3] {
    let bytes: Vec<Vec<u8>> = designs.iter().map(Design::to_bytes).collect();
    let largest = designs.iter().map(positions).max().expect("there are designs") as usize;
    let lent = || (vec![0; RECORD * largest], vec![0; CELL * largest]);
    for design in &bytes {
        let ((mut table, mut work), (mut same_table, mut same_work)) = (lent(), lent());
        let library = gorzhani::search(design, &mut table, &mut work).map_err(number);
        let same = baseline::same::search(design, &mut same_table, &mut same_work);
        assert_eq!(library, same, "the steps are the same");
        assert!(table == same_table && work == same_work, "the steps are the same");
        if let Ok(records) = library {
            let (mut space, mut waits) = (vec![0; CELL * records], [0; MOST_RULES]);
            let found = &table[..RECORD * records];
            let judged = baseline::judge(design, found, &mut space, &mut waits);
            assert_eq!(judged, Ok(()), "a converter found keeps the rules");
        }
        let fast = baseline::search(design, &mut table, &mut work);
        assert_eq!(library.map(|_| ()), fast.map(|_| ()), "the verdicts agree");
    }
    let all = |search: &mut dyn FnMut(&[u8])| bytes.iter().for_each(|design| search(design));
    let [(mut table, mut work), (mut table_2, mut work_2), (mut table_3, mut work_3)] =
        [lent(), lent(), lent()];
    extent.shortest([
        &mut || {
            all(&mut |design| {
                let _ = black_box(gorzhani::search(design, &mut table, &mut work));
            })
        },
        &mut || {
            all(&mut |design| {
                let _ = black_box(baseline::same::search(design, &mut table_2, &mut work_2));
            })
        },
        &mut || {
            all(&mut |design| {
                let _ = black_box(baseline::search(design, &mut table_3, &mut work_3));
            })
        },
    ])
}

fn number(Refused(number): Refused) -> u8 {
    number
}

fn judge(extent: Extent, made: &Judged) -> [Duration; 2] {
    let Judged { design, converter } = made;
    let mut work = vec![0; CELL * (converter.len() / RECORD)];
    let mut other_work = work.clone();
    let (mut waits, mut other_waits) = ([0; MOST_RULES], [0; MOST_RULES]);
    let library = gorzhani::judge(design, converter, &mut work, &mut waits);
    let baseline = baseline::judge(design, converter, &mut other_work, &mut other_waits);
    assert_eq!(library.map_err(number), baseline, "the verdicts agree");
    assert_eq!(waits, other_waits, "the waits agree");
    extent.shortest([
        &mut || {
            let _ = black_box(gorzhani::judge(design, converter, &mut work, &mut waits));
        },
        &mut || {
            let _ =
                black_box(baseline::judge(design, converter, &mut other_work, &mut other_waits));
        },
    ])
}

/// The verdict, where this rule fails first: the time of the library, that of its judge, which
/// labels every formula, and that of the baseline.
fn verdict(extent: Extent, made: &Judged, fails: Option<u8>) -> [Duration; 3] {
    const NONE: u8 = u8::MAX;
    let Judged { design, converter } = made;
    let lent = || vec![0; CELL * (converter.len() / RECORD)];
    let [mut work, mut judge_work, mut other_work] = [lent(), lent(), lent()];
    let (mut waits, mut rule) = ([0; MOST_RULES], NONE);
    let expected = fails.map_or(Verdict::Yes, Verdict::Fails);
    let judged = fails.map_or(Ok(()), |_| Err(Refused::RULE));
    extent.shortest([
        &mut || {
            let answer = gorzhani::verdict(design, converter, &mut work);
            assert_eq!(black_box(answer), expected);
        },
        &mut || {
            let answer = gorzhani::judge(design, converter, &mut judge_work, &mut waits);
            assert_eq!(black_box(answer), judged);
        },
        &mut || {
            let answer = baseline::verdict(design, converter, &mut other_work, &mut rule);
            assert_eq!(black_box(answer).map_err(Refused), judged);
            assert_eq!(rule, fails.unwrap_or(NONE));
        },
    ])
}

fn write(extent: Extent, converter: &[u8]) -> [Duration; 2] {
    let count = (converter.len() / RECORD).div_ceil(BLOCK_RECORDS);
    let mut blocks = vec![0; BLOCK * count];
    let mut other_blocks = blocks.clone();
    let times = extent.shortest([
        &mut || assert_eq!(gorzhani::write(converter, &mut blocks), Ok(count)),
        &mut || assert_eq!(baseline::write(converter, &mut other_blocks), Ok(count)),
    ]);
    assert!(blocks == other_blocks);
    times
}

fn read(extent: Extent, converter: &[u8]) -> [Duration; 2] {
    let records = converter.len() / RECORD;
    let mut blocks = vec![0; BLOCK * records.div_ceil(BLOCK_RECORDS)];
    baseline::write(converter, &mut blocks).expect("the records are right");
    let (mut memory, mut other_memory) = (vec![0; converter.len()], vec![0; converter.len()]);
    let times = extent.shortest([
        &mut || assert_eq!(gorzhani::read(&blocks, &mut memory), Ok(records)),
        &mut || assert_eq!(baseline::read(&blocks, &mut other_memory), Ok(records)),
    ]);
    assert!(memory == converter && other_memory == converter);
    times
}

fn ticks(extent: Extent, converter: &[u8]) -> [Duration; 2] {
    const TICKS: usize = 1_000;
    // The sides show nothing: what is read or waited for is delivered.
    let library = || {
        let mut runner = gorzhani::Runner::default();
        for _ in 0..TICKS {
            assert_eq!(black_box(gorzhani::tick(converter, &mut runner, [0; 3])), Ok(()));
        }
        (runner.record, [runner.first, runner.second, runner.third])
    };
    let baseline = || {
        let mut runner = baseline::Runner::default();
        for _ in 0..TICKS {
            assert_eq!(black_box(baseline::tick(converter, &mut runner, [0; 3])), Ok(()));
        }
        (runner.record, runner.delivered)
    };
    assert_eq!(library(), baseline(), "the runs agree");
    extent.shortest([
        &mut || {
            black_box(library());
        },
        &mut || {
            black_box(baseline());
        },
    ])
}

fn ranges(extent: Extent, made: &Ranged) -> [Duration; 2] {
    const CALLS: usize = 1_000;
    let mut result = vec![0; made.design.len()];
    let mut other_result = result.clone();
    let times = extent.shortest([
        &mut || {
            for _ in 0..CALLS {
                let answer = gorzhani::ranges(&made.design, &made.list, &mut result);
                assert_eq!(black_box(answer), Ok(()));
            }
        },
        &mut || {
            for _ in 0..CALLS {
                let answer = baseline::ranges(&made.design, &made.list, &mut other_result);
                assert_eq!(black_box(answer), Ok(()));
            }
        },
    ]);
    assert!(result == other_result);
    times
}

fn rules(extent: Extent, text: &[u8], calls: usize) -> [Duration; 2] {
    let (mut blocks, mut other_blocks) = ([0; RULE_BLOCKS], [0; RULE_BLOCKS]);
    let expected = gorzhani::rules(text, &mut blocks).map_err(number);
    assert_eq!(expected, baseline::rules(text, &mut other_blocks), "the answers agree");
    let times = extent.shortest([
        &mut || {
            for _ in 0..calls {
                let answer = gorzhani::rules(text, &mut blocks).map_err(number);
                assert_eq!(black_box(answer), expected);
            }
        },
        &mut || {
            for _ in 0..calls {
                let answer = baseline::rules(text, &mut other_blocks);
                assert_eq!(black_box(answer), expected);
            }
        },
    ]);
    assert!(blocks == other_blocks);
    times
}
