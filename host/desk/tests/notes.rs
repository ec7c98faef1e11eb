//! Notes on converters: hand-made ones, the examples, and random ones against every run over records and balances.

mod made;

use std::collections::BTreeSet;

use checker::bytes::{converter_bytes, positions};
use checker::generate::{design, matched_converter, Random, Shape};
use checker::search::find;
use desk::design::{from_bytes, Design, SIDES};
use desk::notes::{notes, Note, Notes};
use desk::records::{Link, Record};
use made::{example, page};

/// Notes of which all runs were looked at.
fn all(notes: Vec<Note>) -> Notes {
    Notes { notes, complete: true, ticks: 0 }
}

/// The handshake pair under a converter that asks nobody before it delivers.
const BEFORE_SENT: &str = "
    ## Kernel
    | state | holds | transitions |
    |---|---|---|
    | s0 | idle1 | tick to s0; send req to s1 |
    | s1 | rout | tick to s1; send gnt to s0 |

    ## Host
    | state | holds | transitions |
    |---|---|---|
    | t0 | idle2 | tick to t0; read req to t1 |
    | t1 | rin | read gnt to t0 |

    ## Converter
    | record | names | kernel | host | next |
    |---|---|---|---|---|
    | 0 | s0, t0 | send req | tick | 2 |
    |   |        | tick | read req | 1 |
    | 1 | s0, t1 | tick | read gnt | 0 |
    |   |        | send req | read gnt | 2 |
    | 2 | s1, t0 | tick | read req | 3 |
    |   |        | send gnt | tick | 0 |
    | 3 | s1, t1 | tick | read gnt | 2 |
    |   |        | send gnt | read gnt | 0 |
";

#[test]
fn the_handshake_pair_without_rules() {
    let (design, records) = page(BEFORE_SENT);
    // The host reads req at once. Of the two runs of two ticks to a gnt that nobody sent, both by the
    // unsent req, the first is by transition 0 of record 1.
    let req = Note { signal: 1, reader: 1, places: vec![1] };
    let gnt = Note { signal: 2, reader: 1, places: vec![1, 0] };
    assert_eq!(
        req.text(&design, &records),
        "\
Note: 'req' can be delivered to the host more often than it was sent: here 1 time, after 0 sends. That is legal; a rule has to forbid it if it shall not be.
  tick  kernel        host            record  holds
     0  s0            t0              0       idle1, idle2
     1  s0      tick  t1    read req  1       idle1, rin
"
    );
    assert_eq!(notes(&design, &records), all(vec![req, gnt]));
}

#[test]
fn the_handshake_pair_with_its_rules() {
    // Every req and every gnt goes to the host once: the req in the tick of the gnt, the gnt one later.
    let (design, records) = example("handshake");
    let file = include_bytes!("../../../examples/handshake.converter");
    assert_eq!(desk::library::read(file), Ok(records.clone()));
    assert_eq!(notes(&design, &records), all(vec![]));
}

#[test]
fn nobody_sends_what_is_read() {
    for name in ["lock", "mutex", "thumbnails"] {
        let (design, records) = example(name);
        assert_eq!(notes(&design, &records), all(vec![]), "{name}");
    }
}

#[test]
fn a_loop_that_takes_several_rounds() {
    // Kernel and third side send x together, then the kernel once more: three sends in two ticks. Then
    // the host reads x in two of three ticks, and for the fourth time in the sixth tick of the loop.
    let (design, records) = page(
        "
        ## Kernel
        | state | holds | transitions |
        |---|---|---|
        | one | | send x to two |
        | two | | send x to end |
        | end | | tick to end |

        ## Host
        | state | holds | transitions |
        |---|---|---|
        | open | | tick to open; read x to open |

        ## Third
        | state | holds | transitions |
        |---|---|---|
        | one | | send x to end |
        | end | | tick to end |

        ## Converter
        | record | names | kernel | host | third | next |
        |---|---|---|---|---|---|
        | 0 | one, open, one | send x | tick | send x | 1 |
        | 1 | two, open, end | send x | tick | tick | 2 |
        | 2 | end, open, end | tick | read x | tick | 3 |
        | 3 | end, open, end | tick | tick | tick | 4 |
        | 4 | end, open, end | tick | read x | tick | 2 |
        ",
    );
    let note = Note { signal: 1, reader: 1, places: vec![0; 8] };
    let text = note.text(&design, &records);
    assert!(text.contains(": here 4 times, after 3 sends."), "{text}");
    assert_eq!(notes(&design, &records), all(vec![note]));
}

#[test]
fn a_send_counts_at_once_and_that_of_the_reader_not_at_all() {
    // The kernel and the third side send x and read it. What the third side has sent isn't the
    // kernel's, and the other way round: the kernel gets x in the tick in which the third side sends it;
    // the third side in the next one, where the kernel may have sent nothing.
    let (design, records) = page(
        "
        ## Kernel
        | state | holds | transitions |
        |---|---|---|
        | reads | | read x to sends |
        | sends | | tick to reads; send x to reads |

        ## Host
        | state | holds | transitions |
        |---|---|---|
        | idle | | tick to idle |

        ## Third
        | state | holds | transitions |
        |---|---|---|
        | sends | | send x to reads |
        | reads | | read x to sends |

        ## Converter
        | record | names | kernel | host | third | next |
        |---|---|---|---|---|---|
        | 0 | reads, idle, sends | read x | tick | send x | 1 |
        | 1 | sends, idle, reads | send x | tick | read x | 0 |
        |   |                    | tick | tick | read x | 0 |
        ",
    );
    let note = Note { signal: 1, reader: 2, places: vec![0, 1] };
    assert_eq!(
        note.text(&design, &records),
        "\
Note: 'x' can be delivered to the third side more often than it was sent: here 1 time, after 0 sends. That is legal; a rule has to forbid it if it shall not be.
  tick  kernel          host        third          record  holds
     0  reads           idle        sends          0
     1  sends   read x  idle  tick  reads  send x  1
     2  reads   tick    idle  tick  sends  read x  0
"
    );
    assert_eq!(notes(&design, &records), all(vec![note]));
}

/// A kernel that sends x so many times, one tick of two, and then waits in record `2 * sends + 1`
/// while the host reads x in every tick. From there a tail leads on, through which every new least
/// balance runs: with j ticks in the waiting record, j - 1 records of the tail have a new one.
fn sends_and_tail(sends: u16, tail: u16) -> (Design, Vec<Record>) {
    let (design, _) = page(
        "
        ## Kernel
        | state | holds | transitions |
        |---|---|---|
        | pick | | read more to sends; read end to waits |
        | sends | | send x to pick |
        | waits | | tick to waits; send y to done |
        | done | | tick to done |

        ## Host
        | state | holds | transitions |
        |---|---|---|
        | open | | tick to open; read x to open |

        ## Converter
        | record | names | kernel | host | next |
        |---|---|---|---|---|
        | 0 | pick, open | read more | tick | 1 |
        | 1 | sends, open | send x | tick | 0 |
        ",
    );
    let (more, end, x, y) = (1, 2, 3, 4);
    let link = |kernel: i8, host: i8, next: u16| Link { events: [kernel, host, 0], next };
    let record = |kernel: u8, links: Vec<Link>| Record { states: [kernel, 0, 0], links };
    let mut records = Vec::new();
    for round in 0..sends {
        records.push(record(0, vec![link(more, 0, 2 * round + 1)]));
        records.push(record(1, vec![link(-x, 0, 2 * round + 2)]));
    }
    let waits = 2 * sends + 1;
    records.push(record(0, vec![link(end, 0, waits)]));
    records.push(record(2, vec![link(0, x, waits), link(-y, 0, waits + 1)]));
    for at in 1..=tail {
        records.push(record(3, vec![link(0, 0, waits + (at + 1).min(tail))]));
    }
    assert_eq!(desk::library::judge(&design.bytes(), &records), Ok(vec![]));
    (design, records)
}

#[test]
fn long_runs_are_found_up_to_the_limit() {
    // With s sends, 2 s + 1 ticks lead to the waiting record and try a transition each; the j-th tick
    // behind them tries j + 1, so j ticks try j (j + 3) / 2. The read of the (s + 1)-th is one too many.
    // For s = 6,000 that is below 12,001 + 6,001 * 6,004 / 2 = 18,027,003. For s = 6,400, of 20,000,000,
    // 12,801 + 6,321 * 6,324 / 2 = 19,999,803 are tried, and the next tick would try 6,323 more.
    let (design, records) = sends_and_tail(6_000, 6_500);
    let note = Note { signal: 3, reader: 1, places: vec![0; 2 * 6_000 + 1 + 6_001] };
    assert_eq!(notes(&design, &records), all(vec![note]));
    let (design, records) = sends_and_tail(6_400, 6_500);
    let cut = Notes { notes: vec![], complete: false, ticks: 2 * 6_400 + 1 + 6_321 };
    assert_eq!(notes(&design, &records), cut);
}

/// The notes by every run over records and balances, breadth first. A shortest run comes back to a
/// record only with a lower balance, so it has at most two sends for each record before its highest.
/// And how many signals and readers have none.
fn by_all_runs(design: &Design, records: &[Record]) -> (Vec<Note>, usize) {
    let events = |side: usize| {
        let states = design.sides[side].states.iter();
        states.flat_map(|state| &state.transitions).map(|transition| transition.event)
    };
    let sides = design.sides.len();
    let (mut found, mut without) = (Vec::new(), 0);
    for signal in 1..=63 {
        for reader in 0..sides {
            let others = (0..sides).filter(|&side| side != reader);
            let sent = others.flat_map(events).any(|event| event == -signal);
            if sent && events(reader).any(|event| event == signal) {
                match first_below_zero(records, signal, reader) {
                    Some(places) => found.push(Note { signal, reader, places }),
                    None => without += 1,
                }
            }
        }
    }
    (found, without)
}

fn first_below_zero(records: &[Record], signal: i8, reader: usize) -> Option<Vec<usize>> {
    let mut seen = BTreeSet::from([(0, 0)]);
    let mut runs = vec![(0, 0, Vec::new())];
    while !runs.is_empty() {
        let mut longer = Vec::new();
        for (record, balance, places) in runs {
            for (place, link) in records[record].links.iter().enumerate() {
                let sends =
                    (0..SIDES).filter(|&side| side != reader && link.events[side] == -signal);
                let mut balance = balance + sends.count();
                let places = [&places[..], &[place]].concat();
                if link.events[reader] == signal {
                    if balance == 0 {
                        return Some(places);
                    }
                    balance -= 1;
                }
                let next = usize::from(link.next);
                if balance <= 2 * records.len() && seen.insert((next, balance)) {
                    longer.push((next, balance, places));
                }
            }
        }
        runs = longer;
    }
    None
}

#[test]
fn random_converters() {
    let mut random = Random::new(2024);
    let (mut converters, mut with, mut without, mut longest) = (0, 0, 0, 0);
    for round in 0..6_000 {
        let shape = if round % 2 == 0 { Shape::TINY } else { Shape::SMALL };
        let made = design(&mut random, &shape);
        let spare = random.below(12);
        let mut matched = vec![matched_converter(&mut random, &made, spare)];
        if positions(&made) <= 64 {
            matched.extend(find(&made));
        }
        let named = from_bytes(&made.to_five_blocks(), "random");
        for converter in matched {
            let records = desk::records::from_bytes(&converter_bytes(&converter));
            let (expected, none) = by_all_runs(&named, &records);
            let told = notes(&named, &records);
            assert_eq!(told, all(expected), "{made:?} {records:?}");
            converters += 1;
            with += told.notes.len();
            without += none;
            for note in told.notes {
                longest = longest.max(note.places.len());
                assert!(note.text(&named, &records).starts_with("Note: "));
            }
        }
    }
    println!("{converters} converters: {with} notes, {without} without; longest run {longest}");
    assert!(with > 2_000 && without > 2_000 && longest > 8);
}
