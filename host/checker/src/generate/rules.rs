//! Texts of typed rules, sound, damaged and at the limits.

use super::Random;
use crate::bytes::{MOST_FORMULAS, MOST_RULES, PROPOSITIONS};
use crate::refusal;
use crate::rules::{depth, spelled, Part, Token, Typed, MOST_DEPTH, TOKENS};

/// Which rules are made.
#[derive(Clone, Copy, Debug, PartialEq, Eq)]
pub enum Paths {
    /// Those that speak of all paths alone.
    All,
    /// Any: some say "some path", or deny what is temporal.
    Any,
}

/// Every name that there is.
pub fn every_name() -> Vec<u8> {
    (0..PROPOSITIONS as u8).collect()
}

/// A rule that makes so many records, over these names; with [`Paths::Any`] it would if it spoke
/// of all paths. `!`, which makes no record, may stand everywhere.
pub fn typed_rule(random: &mut Random, names: &[u8], paths: Paths, records: usize) -> Typed {
    let rule = |random: &mut Random, records| typed_rule(random, names, paths, records);
    let any = paths == Paths::Any;
    // What speaks of one state alone makes an odd number of records.
    if random.once_in(8) && (any || records % 2 == 1) {
        let denied = if any { rule(random, records) } else { state_rule(random, names, records) };
        return Typed::new(Part::Not, [denied]);
    }
    if records == 1 {
        return leaf(random, names);
    }
    let some = any && random.once_in(12);
    let all_or_some = |on_all, on_some| if some { on_some } else { on_all };
    let part = match random.below(if records == 2 { 2 } else { 8 }) {
        0 => all_or_some(Part::AX, Part::EX),
        1 => all_or_some(Part::AG, Part::EG),
        2 => all_or_some(Part::AF, Part::EF),
        3 => Part::And,
        4 => Part::Or,
        5 => all_or_some(Part::AU, Part::EU),
        _ => Part::Implies,
    };
    // `AF` makes two.
    let below = records - if matches!(part, Part::AF | Part::EF) { 2 } else { 1 };
    if part.operands() == 1 {
        return Typed::new(part, [rule(random, below)]);
    }
    let left = random.from_to(1, below - 1);
    if part == Part::Implies && !any {
        let odd = (left - 1) | 1;
        return Typed::new(part, [state_rule(random, names, odd), rule(random, below - odd)]);
    }
    Typed::new(part, [rule(random, left), rule(random, below - left)])
}

/// A rule that speaks of one state alone and makes so many records, an odd number.
fn state_rule(random: &mut Random, names: &[u8], records: usize) -> Typed {
    if random.once_in(6) {
        return Typed::new(Part::Not, [state_rule(random, names, records)]);
    }
    if records == 1 {
        return leaf(random, names);
    }
    let part = *random.pick(&[Part::And, Part::Or, Part::Implies]);
    let left = random.below(records / 2) * 2 + 1;
    let operands = [left, records - 1 - left].map(|records| state_rule(random, names, records));
    Typed::new(part, operands)
}

/// A name, at times a constant.
fn leaf(random: &mut Random, names: &[u8]) -> Typed {
    let part = match random.below(12) {
        0 => Part::True,
        1 => Part::False,
        _ => Part::Name(*random.pick(names)),
    };
    Typed::new(part, [])
}

/// A line without its newline that is read as this rule: with needless brackets, as long as
/// they don't go too deep, and with spaces wherever one may stand.
pub fn typed_line(random: &mut Random, rule: &Typed) -> Vec<u8> {
    let rare = *random.pick(&[2, 4, 16]);
    let needless = rule.tokens(|| if random.once_in(rare) { random.from_to(1, 2) } else { 0 });
    let tokens = if depth(&needless) <= MOST_DEPTH { needless } else { rule.tokens(|| 0) };
    spaced(random, &tokens)
}

/// Tokens with spaces around them: anywhere, and at least one where words would touch.
fn spaced(random: &mut Random, tokens: &[Token]) -> Vec<u8> {
    let rare = *random.pick(&[1, 2, 8]);
    let mut space = || if random.once_in(rare) { random.from_to(1, 3) } else { 0 };
    let mut line = vec![b' '; space()];
    for (at, &token) in tokens.iter().enumerate() {
        let touches = at > 0 && is_word(tokens[at - 1]) && is_word(token);
        line.resize(line.len() + space().max(usize::from(touches)), b' ');
        line.extend(spelled(token).bytes());
    }
    line.resize(line.len() + space(), b' ');
    line
}

/// Whether a token is made of letters and digits.
fn is_word(token: Token) -> bool {
    spelled(token).bytes().all(|byte| byte.is_ascii_alphanumeric())
}

/// A text and the rules that stand in it, line by line.
#[derive(Clone, Debug)]
pub struct Text {
    /// The text.
    pub bytes: Vec<u8>,
    /// What its lines are read as.
    pub rules: Vec<Typed>,
}

/// The text of some rules.
fn text_of(random: &mut Random, rules: Vec<Typed>) -> Text {
    let mut bytes = Vec::new();
    for rule in &rules {
        bytes.extend(typed_line(random, rule));
        bytes.push(b'\n');
    }
    Text { bytes, rules }
}

/// A text over these names that isn't refused: at most so many rules, which make at most so many
/// records together. No rule goes too deep, also without needless brackets.
pub fn sound_text(random: &mut Random, names: &[u8], most: usize, records: usize) -> Text {
    let fewest = usize::from(!random.once_in(10));
    let count = random.from_to(fewest, most.min(records));
    let mut left = records;
    let mut rules = Vec::new();
    for rule in 0..count {
        // One record at least remains for each of those that follow.
        let room = left - (count - 1 - rule);
        let share = random.from_to(1, room.min(1 + 2 * room / (count - rule)));
        left -= share;
        rules.push(shallow(random, names, Paths::All, share));
    }
    text_of(random, rules)
}

/// A rule that doesn't go too deep.
fn shallow(random: &mut Random, names: &[u8], paths: Paths, records: usize) -> Typed {
    loop {
        let rule = typed_rule(random, names, paths, records);
        if depth(&rule.tokens(|| 0)) <= MOST_DEPTH {
            return rule;
        }
    }
}

/// A text of the grammar, which may be refused with 20 or 21 all the same.
pub fn any_text(random: &mut Random) -> Text {
    let names = every_name();
    let most = *random.pick(&[1, 3, 6, 20]);
    let fewest = usize::from(!random.once_in(10));
    let rules = (0..random.from_to(fewest, most)).map(|_| {
        let paths = *random.pick(&[Paths::All, Paths::All, Paths::All, Paths::Any]);
        let records = match random.below(16) {
            0 => random.from_to(20, 90),
            1..=8 => random.from_to(1, 4),
            _ => random.from_to(1, 12),
        };
        shallow(random, &names, paths, records)
    });
    let rules = rules.collect();
    text_of(random, rules)
}

/// What is done to a text.
#[derive(Clone, Copy, Debug, PartialEq, Eq, PartialOrd, Ord)]
pub enum TextDamage {
    /// A byte is another one.
    Replaced,
    /// A byte is missing.
    Deleted,
    /// There is a byte more.
    Inserted,
    /// Two bytes that touch stand in the other order.
    Swapped,
    /// A piece is missing.
    Cut,
    /// A piece stands there twice.
    Repeated,
    /// A word or a sign is another one.
    Exchanged,
}

/// Every way to damage a text.
pub const TEXT_DAMAGES: [TextDamage; 7] = [
    TextDamage::Replaced,
    TextDamage::Deleted,
    TextDamage::Inserted,
    TextDamage::Swapped,
    TextDamage::Cut,
    TextDamage::Repeated,
    TextDamage::Exchanged,
];

/// Damages a text, which may happen to be sound afterwards.
pub fn damage_text(random: &mut Random, text: &mut Vec<u8>) -> TextDamage {
    let damage = if text.len() < 2 { TextDamage::Inserted } else { *random.pick(&TEXT_DAMAGES) };
    let at = random.below(text.len().max(1));
    let end = (at + random.from_to(1, 12)).min(text.len());
    match damage {
        TextDamage::Replaced => text[at] = telling_byte(random),
        TextDamage::Deleted => {
            text.remove(at);
        }
        TextDamage::Inserted => {
            let at = random.below(text.len() + 1);
            text.insert(at, telling_byte(random));
        }
        TextDamage::Swapped => {
            let at = at.min(text.len() - 2);
            text.swap(at, at + 1);
        }
        TextDamage::Cut => {
            text.drain(at..end);
        }
        TextDamage::Repeated => {
            let piece = text[at..end].to_vec();
            let to = random.below(text.len() + 1);
            text.splice(to..to, piece);
        }
        TextDamage::Exchanged => {
            let in_word = |byte: &u8| byte.is_ascii_alphanumeric();
            let before = text[..at].iter().rev().take_while(|byte| in_word(byte)).count();
            let behind = text[at..].iter().take_while(|byte| in_word(byte)).count();
            let place = if behind > 0 { at - before..at + behind } else { at..at + 1 };
            text.splice(place, any_token(random).bytes());
        }
    }
    damage
}

/// A word or a sign, a name once in three times.
fn any_token(random: &mut Random) -> String {
    if random.once_in(3) {
        spelled(Token::Name(random.below(PROPOSITIONS) as u8))
    } else {
        random.pick(&TOKENS).1.to_string()
    }
}

/// A byte, mostly one that stands in texts.
fn telling_byte(random: &mut Random) -> u8 {
    match random.below(8) {
        0 => random.byte(),
        1 => *random.pick(b"\t\r\n\0-<>{}_pqePAUX"),
        2..=3 => *random.pick(b"0123456789"),
        _ => *random.pick(b"!&|->()[]  \nAEUXGFTRUEFALSEp"),
    }
}

/// Pieces that are no token, or no token any more where they touch another.
const NO_TOKENS: [&str; 20] = [
    "p48", "p01", "p00", "p", "p100", "p256", "P0", "true", "True", "AXp0", "Ap0", "ax", "AU", "-",
    ">", "\t", "\r", "X", "0", "é",
];

/// A few tokens one behind the other, sound or not, with spaces between most of them, newlines
/// here and there and mostly one at the end.
pub fn token_text(random: &mut Random) -> Vec<u8> {
    let (odd, touching) = (*random.pick(&[10, 60, 1_000]), *random.pick(&[2, 9, 1_000]));
    let mut text = Vec::new();
    let most = *random.pick(&[4, 8, 16]);
    for _ in 0..random.from_to(1, most) {
        if random.once_in(odd) {
            text.extend(random.pick(&NO_TOKENS).bytes());
        } else if random.once_in(16) {
            text.push(b'\n');
        } else {
            text.extend(any_token(random).bytes());
        }
        let space = !random.once_in(touching);
        text.extend(space.then_some(b' '));
    }
    if !random.once_in(10) {
        text.push(b'\n');
    }
    text
}

/// A text at some limits, or just over them, and what it is refused with, if it is.
#[derive(Clone, Debug)]
pub struct AtLimits {
    /// The text.
    pub bytes: Vec<u8>,
    /// How many rules it has.
    pub rules: usize,
    /// How many records it makes, or would make at least if it is refused with 20.
    pub records: usize,
    /// How deep it goes.
    pub depth: usize,
    /// The number of its refusal.
    pub refused: Option<u8>,
}

/// A text with as many rules, records and open brackets as there may be, or with one more or one
/// less of each; what is 19 and what is 20 may stand anywhere beside it.
pub fn text_at_limits(random: &mut Random) -> AtLimits {
    let names = every_name();
    let around = |random: &mut Random, limit: usize| random.from_to(limit - 1, limit + 1);
    let rules = match random.below(3) {
        0 => random.from_to(1, 8),
        _ => around(random, MOST_RULES),
    };
    let records = match random.below(3) {
        0 => random.from_to(rules, 3 * rules),
        _ => around(random, MOST_FORMULAS),
    };
    // Each rule has a record, and the others go anywhere.
    let mut shares = vec![1; rules];
    for _ in rules..records {
        shares[random.below(rules)] += 1;
    }
    let some_path = random.once_in(4).then(|| random.below(rules));
    let deepest = random.once_in(2).then(|| (random.below(rules), around(random, MOST_DEPTH)));
    let (mut bytes, mut found_depth) = (Vec::new(), 0);
    for (own, &share) in shares.iter().enumerate() {
        let mut rule = shallow(random, &names, Paths::All, share);
        if some_path == Some(own) {
            rule = with_some_path(random, rule);
        }
        let mut tokens = rule.tokens(|| 0);
        if let Some((_, deep)) = deepest.filter(|(at, _)| *at == own) {
            while depth(&tokens) < deep {
                tokens = [&[Token::Open], &tokens[..], &[Token::Close]].concat();
            }
        }
        found_depth = found_depth.max(depth(&tokens));
        bytes.extend(spaced(random, &tokens));
        bytes.push(b'\n');
    }
    let flawed = random.once_in(6);
    if flawed {
        // A byte that no text has, anywhere.
        let at = random.below(bytes.len());
        bytes[at] = *random.pick(b"\t\r\0?{}+*=~");
    }
    let refused = if flawed || found_depth > MOST_DEPTH {
        Some(refusal::TEXT)
    } else if some_path.is_some() {
        Some(refusal::SOME_PATH)
    } else {
        let fits = rules <= MOST_RULES && records <= MOST_FORMULAS;
        (!fits).then_some(refusal::TOO_MANY_FORMULAS)
    };
    AtLimits { bytes, rules, records, depth: found_depth, refused }
}

/// A rule that is 20, around one that speaks of all paths. It would make no fewer records.
fn with_some_path(random: &mut Random, rule: Typed) -> Typed {
    let constant = || Typed::new(Part::True, []);
    match random.below(6) {
        0 => Typed::new(Part::EX, [rule]),
        1 => Typed::new(Part::EG, [rule]),
        2 => Typed::new(Part::EF, [rule]),
        3 => Typed::new(Part::EU, [constant(), rule]),
        4 => Typed::new(Part::Not, [Typed::new(Part::AX, [rule])]),
        _ => Typed::new(Part::Implies, [Typed::new(Part::AG, [rule]), constant()]),
    }
}
