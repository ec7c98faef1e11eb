//! Notes on a converter: what is legal and may still surprise. A converter may deliver an input that nobody sent, or once more than it was sent; a note shows the shortest run on which it does.

use std::collections::BTreeSet;

use crate::design::{Design, SIDE_NAMES};
use crate::records::{Link, Record};
use crate::runs::Run;

/// A signal that can be delivered to a side more often than the other sides sent it.
#[derive(Clone, Debug, PartialEq, Eq)]
pub struct Note {
    /// The signal's number.
    pub signal: i8,
    /// The side to which it is delivered.
    pub reader: usize,
    /// The shortest run: the transition that is taken in each record, from record 0 on. Of several it
    /// is the one with the first transitions.
    pub places: Vec<usize>,
}

/// The notes on a converter.
#[derive(Clone, Debug, PartialEq, Eq)]
pub struct Notes {
    /// By their signals, and for each by the side that reads it.
    pub notes: Vec<Note>,
    /// Whether all runs were looked at.
    pub complete: bool,
    /// Where not all were: those of up to so many ticks.
    pub ticks: usize,
}

/// So many transitions are tried in all, each as often as it is tried.
const MOST_TRIED: usize = 20_000_000;

/// The notes on a converter that the library has found matched to the design.
pub fn notes(design: &Design, records: &[Record]) -> Notes {
    let pairs = pairs(design, records);
    let mut left = MOST_TRIED;
    let (mut notes, mut cut) = (Vec::new(), None);
    for (done, &(signal, reader)) in pairs.iter().enumerate() {
        // What a pair leaves is for those behind it.
        let share = left / (pairs.len() - done);
        let (found, tried) = shortest(records, signal, reader, share);
        left -= tried;
        match found {
            Found::Run(places) => notes.push(Note { signal, reader, places }),
            Found::Nothing => {}
            Found::Cut(ticks) => cut = Some(cut.map_or(ticks, |least: usize| least.min(ticks))),
        }
    }
    Notes { notes, complete: cut.is_none(), ticks: cut.unwrap_or(0) }
}

/// The signals that some record delivers and another side sends, each with the side that reads it.
fn pairs(design: &Design, records: &[Record]) -> Vec<(i8, usize)> {
    let links = records.iter().flat_map(|record| &record.links);
    let events = links.flat_map(|link| link.events.into_iter().zip(0..));
    let read: BTreeSet<(i8, usize)> = events.filter(|&(event, _)| event > 0).collect();
    let sends = |side: usize, signal: i8| {
        let states = design.sides[side].states.iter();
        states.flat_map(|state| &state.transitions).any(|own| own.event == -signal)
    };
    let others_send = |&(signal, reader): &(i8, usize)| {
        (0..design.sides.len()).any(|side| side != reader && sends(side, signal))
    };
    read.into_iter().filter(others_send).collect()
}

/// How often a signal is sent by the sides other than its reader, less how often the reader gets it.
fn balance(link: &Link, signal: i8, reader: usize) -> i32 {
    let sides = link.events.iter().enumerate();
    sides.fold(0, |sum, (side, &event)| match side == reader {
        true => sum - i32::from(event == signal),
        false => sum + i32::from(event == -signal),
    })
}

/// What comes of the runs for one signal and one reader.
enum Found {
    /// The shortest run on which the reader gets it more often than it was sent.
    Run(Vec<usize>),
    /// There is no such run.
    Nothing,
    /// There is none of up to so many ticks, and longer ones were not all looked at.
    Cut(usize),
}

/// The last tick of a run: where it leads, by which transition, and the run before it.
struct Last {
    before: u32,
    record: u16,
    place: u8,
}

/// Looks for the shortest run that ends below zero, and counts the transitions that it tries.
///
/// Round k finds the least balance of the runs of at most k ticks to each record; only records whose
/// least has changed in the round before can change others. Each part of a shortest run, from its
/// beginning, has changed a least: with another in its place the run would end below zero earlier.
/// Runs of a round are in the order of their transitions, so the first that ends below zero is the one.
fn shortest(records: &[Record], signal: i8, reader: usize, most: usize) -> (Found, usize) {
    let mut least = vec![i32::MAX; records.len()];
    least[0] = 0;
    let mut runs = vec![Last { before: 0, record: 0, place: 0 }];
    let mut changed = vec![(0, 0)];
    let mut tried = 0;
    for ticks in 0.. {
        let mut reached: Vec<(u32, i32)> = Vec::new();
        for (before, sum) in changed {
            let links = &records[usize::from(runs[before as usize].record)].links;
            if tried + links.len() > most {
                return (Found::Cut(ticks), tried);
            }
            tried += links.len();
            for (link, place) in links.iter().zip(0..) {
                let sum = sum + balance(link, signal, reader);
                let least = &mut least[usize::from(link.next)];
                if sum >= *least {
                    continue;
                }
                *least = sum;
                reached.push((runs.len() as u32, sum));
                runs.push(Last { before, record: link.next, place });
                if sum < 0 {
                    return (Found::Run(places(&runs)), tried);
                }
            }
        }
        // Of several runs to a record, the last one has its least.
        reached.retain(|&(run, sum)| least[usize::from(runs[run as usize].record)] == sum);
        if reached.is_empty() {
            break;
        }
        changed = reached;
    }
    (Found::Nothing, tried)
}

/// The transitions of the last run.
fn places(runs: &[Last]) -> Vec<usize> {
    let mut places = Vec::new();
    let mut at = runs.len() - 1;
    while at > 0 {
        places.push(usize::from(runs[at].place));
        at = runs[at].before as usize;
    }
    places.reverse();
    places
}

impl Note {
    /// The note in words, with its run.
    pub fn text(&self, design: &Design, records: &[Record]) -> String {
        let mut run = Run::new(design, records);
        let (mut reads, mut sum) = (0, 0);
        for &place in &self.places {
            let link = &records[run.record()].links[place];
            reads += i32::from(link.events[self.reader] == self.signal);
            sum += balance(link, self.signal, self.reader);
            run.take(place);
        }
        format!(
            "Note: '{}' can be delivered to {} more often than it was sent: here {}, after {}. That is legal; a rule has to forbid it if it shall not be.\n{}",
            design.signal(self.signal),
            SIDE_NAMES[self.reader],
            counted(reads, "time"),
            counted(sum + reads, "send"),
            run.text(2)
        )
    }
}

/// So many things.
fn counted(number: i32, thing: &str) -> String {
    format!("{number} {thing}{}", if number == 1 { "" } else { "s" })
}
