//! A converter run by hand: a line of text says what the sides show, and the library's tick answers.

use std::io::{self, BufRead, Write};
use std::ops::Range;
use std::str::from_utf8;

use gorzhani::{Refused, Runner};

use crate::columns::{listed, padded};
use crate::design::{Design, Kind, State, SIDES, SIDE_WORDS};
use crate::mistakes::nearest;
use crate::records::{to_bytes, Record};

/// What came of the lines.
#[derive(Clone, Copy, Debug, Default, PartialEq, Eq)]
pub struct Played {
    /// How many ticks were done.
    pub ticks: usize,
    /// How many shows were refused.
    pub refused: usize,
    /// How many mistakes the lines had.
    pub mistakes: usize,
}

/// Runs a converter that the library has found matched to the design, by the lines of an input,
/// which mistakes call by this name.
pub fn play(
    design: &Design,
    records: &[Record],
    name: &str,
    input: &mut dyn BufRead,
    prompt: bool,
    out: &mut dyn Write,
    errors: &mut dyn Write,
) -> io::Result<Played> {
    let mut player = Player::new(design, records);
    let mut played = Played::default();
    if prompt {
        writeln!(out, "'help' lists the words")?;
    }
    write!(out, "{}", player.stand())?;
    for number in 1.. {
        write!(out, "{}", if prompt { "> " } else { "" })?;
        // A program that types the lines gets each answer before it types the next.
        out.flush()?;
        let mut bytes = Vec::new();
        let read = input.read_until(b'\n', &mut bytes).unwrap_or_else(|error| {
            played.mistakes += 1;
            let _ = writeln!(errors, "{name}: {error}");
            0
        });
        if read == 0 {
            write!(out, "{}", if prompt { "\n" } else { "" })?;
            break;
        }
        match text(&bytes, number).and_then(|line| player.read(line)) {
            Ok(Line::Comment) => {}
            Ok(Line::Help) => write!(out, "{}", player.help())?,
            Ok(Line::Quit) => break,
            Ok(Line::Restart) => {
                player.restart();
                write!(out, "{}", player.stand())?;
            }
            Ok(Line::Shows(shows)) => match player.tick(shows) {
                Ok(()) => {
                    played.ticks += 1;
                    write!(out, "{}", player.stand())?;
                }
                Err(refused) => {
                    played.refused += 1;
                    writeln!(out, "{}", player.refusal(refused))?;
                }
            },
            Err(mistakes) => {
                played.mistakes += mistakes.len();
                for (column, wrong) in mistakes {
                    writeln!(errors, "{name}:{number}:{column}: {wrong}")?;
                }
            }
        }
    }
    let Played { ticks, refused, .. } = played;
    let plural = |count| if count == 1 { "" } else { "s" };
    writeln!(out, "{ticks} tick{} done, {refused} show{} refused", plural(ticks), plural(refused))?;
    out.flush()?;
    Ok(played)
}

/// The column of a mistake, and what is wrong.
type Mistake = (usize, String);

/// The text of a line. A byte order mark in front of the first is passed over.
fn text(bytes: &[u8], number: usize) -> Result<&str, Vec<Mistake>> {
    let bytes = match bytes.strip_prefix(b"\xEF\xBB\xBF") {
        Some(behind) if number == 1 => behind,
        _ => bytes,
    };
    from_utf8(bytes).map_err(|error| {
        let before = String::from_utf8_lossy(&bytes[..error.valid_up_to()]);
        vec![(before.chars().count() + 1, "a byte that isn't UTF-8 text".to_string())]
    })
}

/// The words of a line, which blanks and commas separate, with their columns.
fn words(line: &str) -> Vec<(usize, &str)> {
    let mut next = 1;
    let pieces = line.split(|sign: char| sign.is_whitespace() || sign == ',').map(|piece| {
        let column = next;
        next += piece.chars().count() + 1;
        (column, piece)
    });
    pieces.filter(|(_, piece)| !piece.is_empty()).collect()
}

/// The kinds of lines.
enum Line {
    Shows([i8; SIDES]),
    Help,
    Restart,
    Quit,
    Comment,
}

/// The words that stand alone in a line. A signal that is called so is written with its side.
const ALONE: [&str; 5] = ["tick", "help", "?", "restart", "quit"];

const HELP: &str = "\
A line is a tick: the signals that are sent in it, separated by blanks or commas.
A side without a word shows nothing, or what it must send.
  SIGNAL       it is sent, by the one side that can
  SIDE.SIGNAL  it is sent by this side
  SIDE.tick    this side shows nothing
  tick         no side has a word, as in an empty line
  restart      begins again
  quit         ends
  # WORDS      a comment, no tick
  help, ?      these words
";

/// A converter and where it is.
struct Player<'a> {
    design: &'a Design,
    records: &'a [Record],
    bytes: Vec<u8>,
    runner: Runner,
    /// The ticks since the beginning.
    ticks: usize,
    /// The most letters of a state's name and of what a side does.
    widths: [usize; 2],
}

impl<'a> Player<'a> {
    fn new(design: &'a Design, records: &'a [Record]) -> Player<'a> {
        let states = design.sides.iter().flat_map(|side| &side.states);
        let names = states.clone().map(|state| state.name.len());
        let transitions = states.flat_map(|state| &state.transitions);
        let events = transitions.map(|transition| design.event(transition.event).len());
        let widths = [names.max().unwrap_or(0), events.max().unwrap_or(0)];
        let (bytes, runner) = (to_bytes(records), Runner::default());
        Player { design, records, bytes, runner, ticks: 0, widths }
    }

    fn restart(&mut self) {
        (self.runner, self.ticks) = (Runner::default(), 0);
    }

    fn tick(&mut self, shows: [i8; SIDES]) -> Result<(), Refused> {
        gorzhani::tick(&self.bytes, &mut self.runner, shows)?;
        self.ticks += 1;
        Ok(())
    }

    fn sides(&self) -> Range<usize> {
        0..self.design.sides.len()
    }

    /// The record that the converter is at.
    fn record(&self) -> &'a Record {
        &self.records[usize::from(self.runner.record)]
    }

    /// The state that a side is in.
    fn state(&self, side: usize) -> &'a State {
        &self.design.sides[side].states[usize::from(self.record().states[side])]
    }

    /// What a side must show, or may show besides nothing.
    fn may(&self, side: usize) -> String {
        let state = self.state(side);
        let send = |event| match state.kind() {
            Some(Kind::OutputOnly) => format!("must send {}", self.design.signal(event)),
            _ => format!("may send {}", self.design.signal(event)),
        };
        sent(state).map_or("silent".to_string(), send)
    }

    /// Where the converter is, and for each side its state, what it did, and what it may show.
    fn stand(&self) -> String {
        let Runner { record, first, second, third } = self.runner;
        let holding = self.design.holding(self.record().states).join(", ");
        let holds = if holding.is_empty() { "" } else { "; holds " };
        let mut out = format!("tick {}: record {record}{holds}{holding}\n", self.ticks);
        let [name_width, did_width] = self.widths;
        for side in self.sides() {
            let (word, name, may) = (SIDE_WORDS[side], &self.state(side).name, self.may(side));
            let did = match self.ticks {
                0 => String::new(),
                _ => self.design.event([first, second, third][side]),
            };
            let (name, did) = (padded(name, name_width), padded(&did, did_width));
            out += &format!("  {word:<6}  {name}  {did}  {may}\n");
        }
        out
    }

    /// That a show was refused, and what the sides may show.
    fn refusal(&self, Refused(number): Refused) -> String {
        let may = |side| format!("{} {}", SIDE_WORDS[side], self.may(side));
        let sides: Vec<String> = self.sides().map(may).collect();
        format!("refused ({number}), still tick {}: {}", self.ticks, sides.join("; "))
    }

    fn help(&self) -> String {
        let sides = self.sides().map(|side| match self.signals(side).join(", ") {
            none if none.is_empty() => format!("{} sends nothing\n", SIDE_WORDS[side]),
            signals => format!("{} sends {signals}\n", SIDE_WORDS[side]),
        });
        HELP.to_string() + &sides.collect::<String>()
    }

    /// The signals that a side sends.
    fn signals(&self, side: usize) -> Vec<&'a str> {
        let signals = (1..).zip(&self.design.signals);
        let own = signals.filter(|&(signal, _)| self.sends(side, signal));
        own.map(|(_, name)| name.as_str()).collect()
    }

    /// Whether a side sends a signal in some state.
    fn sends(&self, side: usize, signal: i8) -> bool {
        self.design.sides[side].states.iter().any(|state| sent(state) == Some(-signal))
    }

    /// The number of a signal.
    fn signal(&self, name: &str) -> Option<i8> {
        let mut signals = (1..).zip(&self.design.signals);
        signals.find(|&(_, signal)| signal == name).map(|(number, _)| number)
    }

    /// What a line says.
    fn read(&self, line: &str) -> Result<Line, Vec<Mistake>> {
        let words = words(line);
        match words[..] {
            [(_, word), ..] if word.starts_with('#') => Ok(Line::Comment),
            [(_, "help" | "?")] => Ok(Line::Help),
            [(_, "restart")] => Ok(Line::Restart),
            [(_, "quit")] => Ok(Line::Quit),
            [(_, "tick")] => self.shows(&[]),
            _ => self.shows(&words),
        }
    }

    /// What the sides show. One without a word shows nothing, or what it must send.
    fn shows(&self, words: &[(usize, &str)]) -> Result<Line, Vec<Mistake>> {
        let mut told: [Option<i8>; SIDES] = [None; SIDES];
        let mut mistakes = Vec::new();
        for &(column, word) in words {
            match self.show(word) {
                Ok((side, show)) if told[side].is_none() => told[side] = Some(show),
                Ok((side, _)) => {
                    mistakes.push((column, format!("a second word for {}", SIDE_WORDS[side])));
                }
                Err((within, wrong)) => mistakes.push((column + within, wrong)),
            }
        }
        let mut shows = [0; SIDES];
        for side in self.sides() {
            let state = self.state(side);
            let must = sent(state).filter(|_| state.kind() == Some(Kind::OutputOnly));
            shows[side] = told[side].or(must).unwrap_or(0);
        }
        if mistakes.is_empty() {
            Ok(Line::Shows(shows))
        } else {
            Err(mistakes)
        }
    }

    /// Which side a word speaks of, and what that side shows. The column of a mistake is counted
    /// from 0 within the word.
    fn show(&self, word: &str) -> Result<(usize, i8), Mistake> {
        if ALONE.contains(&word) {
            return Err((0, format!("'{word}' stands alone in its line")));
        }
        let Some((side_word, name)) = word.split_once('.') else {
            return self.without_side(word).map_err(|wrong| (0, wrong));
        };
        let Some(side) = self.sides().find(|&side| SIDE_WORDS[side] == side_word) else {
            let near = nearest(side_word, SIDE_WORDS[self.sides()].iter().copied());
            return Err((0, format!("no side '{side_word}'{}", there_is(near))));
        };
        match self.signal(name) {
            // A side may send a signal that is called so.
            signal if name == "tick" => {
                Ok((side, -signal.filter(|&signal| self.sends(side, signal)).unwrap_or(0)))
            }
            Some(signal) => Ok((side, -signal)),
            None => {
                let near = there_is(nearest(name, self.signals(side)));
                Err((side_word.len() + 1, format!("no signal '{name}'{near}")))
            }
        }
    }

    /// The same for a signal without its side: it is the only one that can send it now or, where
    /// none can, that sends it at all.
    fn without_side(&self, word: &str) -> Result<(usize, i8), String> {
        let Some(signal) = self.signal(word) else {
            let signals = self.sides().flat_map(|side| self.signals(side));
            let near = there_is(nearest(word, signals.chain(ALONE)));
            return Err(format!("no word '{word}'{near}"));
        };
        let now = self.sides().filter(|&side| sent(self.state(side)) == Some(-signal));
        let mut sides: Vec<usize> = now.collect();
        if sides.is_empty() {
            sides = self.sides().filter(|&side| self.sends(side, signal)).collect();
        }
        match sides[..] {
            [] => Err(format!("no side sends '{word}'")),
            [side] => Ok((side, -signal)),
            _ => {
                let with = |side: &usize| format!("'{}.{word}'", SIDE_WORDS[*side]);
                let with: Vec<String> = sides.iter().map(with).collect();
                Err(format!("'{word}' needs its side; there are {}", listed(&with)))
            }
        }
    }
}

/// The event that a state sends.
fn sent(state: &State) -> Option<i8> {
    state.transitions.iter().map(|transition| transition.event).find(|&event| event < 0)
}

/// The name that a mistake proposes.
fn there_is(name: Option<&str>) -> String {
    name.map_or(String::new(), |name| format!("; there is '{name}'"))
}
