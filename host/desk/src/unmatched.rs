//! Where a converter isn't matched to the sides, and what is missing or too much there.
//!
//! That it isn't matched is the library's answer (14); here each record is held against the lines of "What a converter may do" in docs/SPECIFICATION.md.

use crate::columns::listed;
use crate::design::{Design, Kind, State, SIDES, SIDE_NAMES};
use crate::records::{Link, Record};

/// What some of the sides do: each a side and its event.
type Doing = Vec<(usize, i8)>;

/// The records that break a line, each with the first one that it breaks, in a sentence.
pub fn unmatched(design: &Design, records: &[Record]) -> Vec<(usize, String)> {
    let sentence = |number: usize| {
        let place = Place { design, records, number };
        let (names, why) = (design.names(place.record().states), place.broken()?);
        Some((number, format!("Record {number} ({names}) isn't matched: {why}.")))
    };
    (0..records.len()).filter_map(sentence).collect()
}

/// A record of a converter.
struct Place<'a> {
    design: &'a Design,
    records: &'a [Record],
    number: usize,
}

impl<'a> Place<'a> {
    fn record(&self) -> &'a Record {
        &self.records[self.number]
    }

    /// The first line that it breaks.
    fn broken(&self) -> Option<String> {
        self.names()
            .or_else(|| self.count())
            .or_else(|| self.record().links.iter().find_map(|link| self.transition(link)))
            .or_else(|| self.choices().iter().find_map(|choice| self.choice(choice)))
    }

    /// It names states that there are, and record 0 names the start.
    fn names(&self) -> Option<String> {
        let states = self.record().states;
        let missing = (0..SIDES).find(|&side| match self.design.sides.get(side) {
            Some(own) => usize::from(states[side]) >= own.states.len(),
            None => states[side] != 0,
        });
        if let Some(side) = missing {
            return Some(format!("{} has no state {}", SIDE_NAMES[side], states[side]));
        }
        let start = format!("record 0 names the start, ({})", self.design.names([0; SIDES]));
        (self.number == 0 && states != [0; SIDES]).then_some(start)
    }

    /// It has a transition, and none twice.
    fn count(&self) -> Option<String> {
        let links = &self.record().links;
        if links.is_empty() {
            return Some("it has no transition".to_string());
        }
        let same = |link: &&Link| links.iter().filter(|other| other.events == link.events).count();
        let twice = links.iter().find(|link| same(link) > 1)?;
        Some(self.too_many(same(&twice), &self.doing(twice)))
    }

    /// A transition of it stands for one of each side, and leads to where these lead.
    fn transition(&self, link: &Link) -> Option<String> {
        let mut targets = [0; SIDES];
        for side in 0..SIDES {
            let event = link.events[side];
            let Some(state) = self.state(side) else {
                if event == 0 {
                    continue;
                }
                return Some(format!("there is no third side to {}", self.does(event, "")));
            };
            let taken = state.transitions.iter().find(|transition| transition.event == event);
            let Some(taken) = taken else {
                let (who, what) = (SIDE_NAMES[side], self.does(event, ""));
                return Some(format!("{who} can't {what} in {}", state.name));
            };
            targets[side] = taken.target as u8;
        }
        let (next, clauses) = (link.next, self.clauses(&self.doing(link)));
        match self.records.get(usize::from(next)).map(|record| record.states) {
            Some(states) if states == targets => None,
            Some([first, second, third]) if [first, second, 0] == targets && self.design.sides.len() < SIDES => {
                Some(format!(
                    "where {clauses} it leads to record {next}, and the third side has no state {third}"
                ))
            }
            Some(states) => Some(format!(
                "where {clauses} it leads to record {next} ({}), which should name ({})",
                self.design.names(states),
                self.design.names(targets)
            )),
            None => Some(format!("where {clauses} it leads to record {next}, which isn't there")),
        }
    }

    /// The choices of the delayed sides, each to send or to tick. For each there is one transition:
    /// where no side is input, these are all transitions of the joint state.
    fn choices(&self) -> Vec<Doing> {
        let mut choices = vec![Doing::new()];
        for side in 0..SIDES {
            let Some(state) = self.state(side) else { continue };
            if state.kind() == Some(Kind::Delayed) {
                let events = state.transitions.iter().map(|transition| transition.event);
                let with = |choice: &Doing, event| [&choice[..], &[(side, event)]].concat();
                choices = choices
                    .iter()
                    .flat_map(|choice| events.clone().map(move |event| with(choice, event)))
                    .collect();
            }
        }
        choices
    }

    /// There is one transition for a choice of the delayed sides. Where no side is delayed, more
    /// are right too.
    fn choice(&self, choice: &Doing) -> Option<String> {
        let made = |link: &&Link| choice.iter().all(|&(side, event)| link.events[side] == event);
        match (&choice[..], self.record().links.iter().filter(made).count()) {
            ([], _) | (_, 1) => None,
            (&[(side, event), ref others @ ..], 0) => {
                let (who, what) = (SIDE_NAMES[side], self.does(event, ""));
                Some(match others {
                    [] => format!("{who} may {what} here, and no transition lets it"),
                    _ => format!(
                        "{who} may {what} here while {}, and no transition lets them",
                        self.clauses(others)
                    ),
                })
            }
            (_, count) => Some(self.too_many(count, choice)),
        }
    }

    /// That so many transitions, two or more, have the sides do this.
    fn too_many(&self, count: usize, doing: &[(usize, i8)]) -> String {
        let count = if count == 2 { "two".to_string() } else { count.to_string() };
        let clauses = self.clauses(doing);
        format!("there are {count} transitions where {clauses}, and there may be one only")
    }

    /// The state that it names of a side; none for a third side that the design hasn't.
    fn state(&self, side: usize) -> Option<&'a State> {
        let states = &self.design.sides.get(side)?.states;
        states.get(usize::from(self.record().states[side]))
    }

    /// What the sides of the design do in a transition.
    fn doing(&self, link: &Link) -> Doing {
        (0..self.design.sides.len()).map(|side| (side, link.events[side])).collect()
    }

    /// "the host sends 'drop' and the third side ticks".
    fn clauses(&self, doing: &[(usize, i8)]) -> String {
        let clause = |&(side, event): &(usize, i8)| {
            format!("{} {}", SIDE_NAMES[side], self.does(event, "s"))
        };
        listed(&doing.iter().map(clause).collect::<Vec<String>>())
    }

    /// "send 'drop'", with this ending behind the verb.
    fn does(&self, event: i8, ending: &str) -> String {
        match event {
            0 => format!("tick{ending}"),
            1.. => format!("read{ending} '{}'", self.design.signal(event)),
            _ => format!("send{ending} '{}'", self.design.signal(event)),
        }
    }
}
