//! Rules as people type them: rows from the specification, the refusals in their order, the two
//! ways to read against each other, and the meaning of the records against that of the text.

mod samples;
mod typed;

use std::collections::{BTreeMap, BTreeSet};
use std::slice::from_ref;

use checker::bytes::{read_design, Design, Formula};
use checker::ctl::States;
use checker::generate::{
    any_text, damage_text, every_name, sides, sound_text, text_at_limits, token_text, typed_line,
    typed_rule, Paths, Random, Shape, Text, TEXT_DAMAGES,
};
use checker::refusal;
use checker::rules::chart::readings;
use checker::rules::meaning::Structure;
use checker::rules::{
    depth, read_rule, read_text, records, tokens, Part, Token, Typed, MOST_DEPTH, TOKENS,
};
use samples::{four_rules, pattern, BEYOND};
use typed::{
    at_the_limits, block, handshake_text, long_texts, orders, refused_with_19, refused_with_20,
    rows,
};

/// Reads a text into patterned bytes, and holds every byte against the specification: nothing
/// changes on a refusal, and nothing behind the blocks. The blocks, and the number of rules.
fn read(text: &[u8], length: usize) -> Result<(Vec<u8>, usize), u8> {
    let mut blocks = pattern(length);
    let answer = checker::rules(text, &mut blocks);
    let written = if answer.is_ok() { 1_024 } else { 0 };
    assert_eq!(blocks[written..], pattern(length)[written..], "lent bytes after {answer:?}");
    answer.map(|rules| (blocks[..written].to_vec(), rules))
}

/// Reads a text with bytes to spare.
fn read_well(text: &[u8]) -> Result<(Vec<u8>, usize), u8> {
    let read_with = |length| read(text, length);
    let done = read_with(1_024 + BEYOND);
    assert_eq!(read_with(1_024), done);
    for short in [0, 1_023] {
        assert_eq!(read_with(short), Err(done.as_ref().err().copied().unwrap_or(12)));
    }
    done
}

/// A text for a message, which isn't too long.
fn shown(text: &[u8]) -> String {
    String::from_utf8_lossy(&text[..text.len().min(300)]).into_owned()
}

#[test]
fn rows_are_read() {
    for row in rows() {
        let answer = read_well(row.text.as_bytes());
        assert_eq!(answer, Ok((row.blocks(), row.rules.len())), "{:?}", row.text);
    }
}

/// Whole blocks by hand, with their checks.
#[test]
fn every_byte_of_some_blocks() {
    let bytes = |start: &[u8], check: [u8; 2]| {
        let mut block = start.to_vec();
        block.resize(510, 0);
        block.extend(check);
        block
    };
    let [none, no_rules] = [bytes(&[3], [3, 0]), bytes(&[4], [4, 0])];
    assert_eq!(read_well(b""), Ok(([none, no_rules].concat(), 0)));
    let [name, rule] = [bytes(&[3, 1, 0, 0, 3], [7, 0]), bytes(&[4, 1], [5, 0])];
    assert_eq!(read_well(b"p0\n"), Ok(([name, rule].concat(), 1)));
    let [until, rule] = [
        bytes(&[3, 3, 0, 0, 1, 0, 0, 0, 3, 1, 0, 0, 8, 0, 1], [20, 0]),
        bytes(&[4, 1, 0, 0, 2], [7, 0]),
    ];
    assert_eq!(read_well(b"AF p1\n"), Ok(([until, rule].concat(), 1)));

    // The handshake pair: 36 formulas. For rule k from 0 the kinds add up to 49, the names to 38
    // and the numbers of operands to 72 k + 28, in all 931; its rules are 8, 17, 26 and 35.
    let (blocks, rules) = read_well(handshake_text(false).as_bytes()).expect("it is read");
    assert_eq!((rules, &blocks[..2], &blocks[510..512]), (4, &[3, 36][..], &[163, 3][..]));
    assert_eq!(blocks[512..520], [4, 4, 0, 0, 8, 17, 26, 35]);
    assert_eq!(blocks[1_022..], [94, 0]);
}

/// The rows of the specification have their formulas as the reader makes them.
#[test]
fn the_handshakes_rules() {
    for as_printed in [false, true] {
        let lines = read_text(handshake_text(as_printed).as_bytes()).expect("they are rules");
        let (formulas, rules) = four_rules(as_printed);
        let rules = rules.into_iter().map(usize::from).collect();
        assert_eq!(records(&lines), (formulas, rules));
    }
}

#[test]
fn refused_ones() {
    let texts = [(19, refused_with_19()), (20, refused_with_20())];
    for (number, texts) in texts {
        assert!(texts.len() > 40);
        for text in texts {
            assert_eq!(read_well(&text), Err(number), "{:?}", shown(&text));
            // So it is behind a rule that is read, and before one.
            let behind = [b"p0\n", &text[..]].concat();
            assert_eq!(read_well(&behind), Err(number), "{:?}", shown(&text));
            if text.ends_with(b"\n") {
                let before = [&text[..], b"p0\n"].concat();
                assert_eq!(read_well(&before), Err(number), "{:?}", shown(&text));
            }
        }
    }
}

#[test]
fn limits() {
    for (text, number, rules) in at_the_limits() {
        let answer = read_well(text.as_bytes()).map(|(_, rules)| rules);
        let expected = if number == 0 { Ok(rules) } else { Err(number) };
        assert_eq!(answer, expected, "{:?}", shown(text.as_bytes()));
    }
}

#[test]
fn texts_of_a_megabyte() {
    for (name, text, number, rules) in long_texts() {
        assert!(text.len() >= (1 << 20) - 8, "{name}");
        let answer = read(text.as_bytes(), 1_024);
        let expected = if number == 0 { Ok(rules) } else { Err(number) };
        assert_eq!(answer.as_ref().map(|(_, rules)| *rules).map_err(|&number| number), expected);
    }
}

/// `!` any number of times in front of a name: the name, or its denial.
#[test]
fn denied_again_and_again() {
    for count in (0..600).chain([65_535, 65_536, 65_537, 1_048_575, 1_048_576]) {
        let text = format!("{}p7\n", "!".repeat(count));
        let kind = if count % 2 == 0 { 3 } else { 4 };
        let expected = [block(3, 1, &[kind, 7, 0, 0]), block(4, 1, &[0])].concat();
        assert_eq!(read(text.as_bytes(), 1_024), Ok((expected, 1)), "{count}");
    }
}

#[test]
fn order_of_the_refusals() {
    let mut answers: BTreeMap<Option<u8>, usize> = BTreeMap::new();
    for (text, length, expected) in orders() {
        let answer = read(text.as_bytes(), length).err();
        assert_eq!(answer, expected, "{text} {length}");
        *answers.entry(answer).or_default() += 1;
    }
    let numbers: Vec<Option<u8>> = answers.into_keys().collect();
    assert_eq!(numbers, [None, Some(12), Some(19), Some(20), Some(21)]);
}

/// Every byte in every place of some texts: what isn't in the grammar's alphabet is 19.
#[test]
fn every_byte() {
    let alphabet: BTreeSet<u8> =
        TOKENS.iter().flat_map(|(_, typed)| typed.bytes()).chain(*b" \np0123456789").collect();
    for text in ["p0\n", "AG (p1 -> AF !p2)\nA [ p3 U p46 ]\n"] {
        for at in 0..text.len() {
            for byte in 0..=255 {
                let mut bytes = text.as_bytes().to_vec();
                bytes[at] = byte;
                let answer = read(&bytes, 1_024);
                let other = !alphabet.contains(&byte);
                assert!(!other || answer == Err(19), "{:?}", shown(&bytes));
            }
        }
    }
}

/// The rule that both ways read, if there is one: the chart shows that there is only one.
fn both_ways(tokens: &[Token]) -> Option<Typed> {
    let read = read_rule(tokens);
    let all = readings(tokens);
    assert!(all.len() <= 1, "{tokens:?}: {all:?}");
    assert_eq!(read, all.into_iter().next(), "{tokens:?}");
    read
}

/// Every sequence of so many of these tokens, in both ways. How many are rules.
fn every_sequence(tokens: &[Token], length: usize) -> usize {
    let mut rules = 0;
    let mut places = vec![0; length];
    loop {
        let sequence: Vec<Token> = places.iter().map(|&place| tokens[place]).collect();
        rules += usize::from(both_ways(&sequence).is_some());
        let Some(at) = places.iter().rposition(|&place| place + 1 < tokens.len()) else {
            return rules;
        };
        places[at] += 1;
        places[at + 1..].fill(0);
    }
}

#[test]
fn every_short_sequence_in_both_ways() {
    let all: Vec<Token> =
        TOKENS.iter().map(|&(token, _)| token).chain([Token::Name(5), Token::Name(47)]).collect();
    // Operands: two names and two constants. Prefixes: seven. Chains: three signs.
    let closest = |tokens: usize| 4 * 7_usize.pow(tokens as u32 - 1);
    for length in 0..=4 {
        let expected = match length {
            0 => 0,
            1 | 2 => closest(length),
            // A chain of two, an operand in brackets.
            3 => closest(3) + 3 * 4 * 4 + 4,
            // A chain in which one of the two has a prefix; brackets around a prefix, and behind it.
            _ => closest(4) + 2 * 3 * 7 * 4 * 4 + 2 * 7 * 4,
        };
        assert_eq!(every_sequence(&all, length), expected, "{length}");
    }
    let name = Token::Name(5);
    let mut rules = 0;
    for (few, length) in [
        (vec![name, Token::Not, Token::And, Token::Implies, Token::Open, Token::Close], 6),
        (vec![name, Token::And, Token::Or, Token::Implies], 7),
        (vec![name, Token::A, Token::OpenSquare, Token::U, Token::CloseSquare, Token::Or], 6),
        (vec![name, Token::AX, Token::Or, Token::Open, Token::Close], 7),
    ] {
        rules += every_sequence(&few, length);
    }
    println!("{rules} of the longer ones are rules");
}

/// Random rules with needless brackets, whole and with tokens changed.
#[test]
fn random_sequences_in_both_ways() {
    let mut random = Random::new(61);
    let names = every_name();
    let every: Vec<Token> =
        TOKENS.iter().map(|&(token, _)| token).chain([Token::Name(3)]).collect();
    let (mut rules, mut others) = (0, 0);
    for round in 0..6_000 {
        let records = random.from_to(1, 9);
        let rule = typed_rule(&mut random, &names, Paths::Any, records);
        let mut tokens = rule.tokens(|| usize::from(random.once_in(6)));
        if tokens.len() > 30 {
            continue;
        }
        assert_eq!(both_ways(&tokens), Some(rule));
        for _ in 0..round % 3 {
            let at = random.below(tokens.len());
            match random.below(4) {
                0 => tokens[at] = *random.pick(&every),
                1 => tokens.insert(at, *random.pick(&every)),
                2 if tokens.len() > 1 => {
                    tokens.remove(at);
                }
                _ => {
                    let other = random.below(tokens.len());
                    tokens.swap(at, other);
                }
            }
        }
        match both_ways(&tokens) {
            Some(_) => rules += 1,
            None => others += 1,
        }
    }
    println!("{rules} rules, {others} others");
    assert!(rules > 1_000 && others > 1_000, "{rules} {others}");
}

/// What is printed is read as what it was, with needless brackets and spaces and without.
#[test]
fn printed_and_read_again() {
    let mut random = Random::new(62);
    let names = every_name();
    for _ in 0..20_000 {
        let records = random.from_to(1, 40);
        let rule = typed_rule(&mut random, &names, Paths::Any, records);
        let plain = rule.to_string();
        let plain = tokens(plain.as_bytes()).expect("it has tokens");
        assert_eq!(plain, rule.tokens(|| 0));
        assert_eq!(read_rule(&plain).as_ref(), Some(&rule));
        let line = typed_line(&mut random, &rule);
        let spaced = tokens(&line).expect("it has tokens");
        assert_eq!(read_rule(&spaced).as_ref(), Some(&rule), "{:?}", shown(&line));
        if depth(&plain) <= MOST_DEPTH {
            assert!(depth(&spaced) <= MOST_DEPTH);
            let text = [&line[..], b"\n"].concat();
            assert_eq!(read_text(&text), Some(vec![rule]), "{:?}", shown(&line));
        }
    }
    let as_typed = "AG (p0 & !p18 -> A [ !p1 U AX (p1 | p19) ])";
    let rule = read_text(format!("{as_typed}\n").as_bytes()).expect("it is a rule").remove(0);
    assert_eq!(rule.to_string(), as_typed);
}

/// A line and its blocks, which isn't refused.
fn blocks_of(rule: &Typed) -> Vec<u8> {
    let (blocks, rules) = read_well(format!("{rule}\n").as_bytes()).expect("it is read");
    assert_eq!(rules, 1);
    blocks
}

/// What is left after pushing down: names, constants and connectives, a record each.
#[test]
fn pushed_down() {
    let mut random = Random::new(63);
    let names = every_name();
    for round in 0..10_000 {
        let count = 1 + round % 40;
        let rule = typed_rule(&mut random, &names, Paths::All, count);
        let pushed = rule.pushed_down();
        let parts = pushed.parts();
        let not_above_name =
            |at: usize| parts[at] == Part::Not && !matches!(parts[at - 1], Part::Name(_));
        assert!(!(0..parts.len()).any(not_above_name), "{rule}");
        let left = |part: &&Part| !matches!(part, Part::Not);
        assert_eq!(parts.iter().filter(left).count(), count, "{rule}");
        assert!(!parts.iter().any(|part| matches!(part, Part::AF | Part::Implies)), "{rule}");
        assert_eq!(pushed.pushed_down(), pushed);
        let (formulas, rules) = records(from_ref(&rule));
        assert_eq!((formulas.len(), rules), (count, vec![count - 1]), "{rule}");
        if [&rule, &pushed].iter().all(|rule| depth(&rule.tokens(|| 0)) <= MOST_DEPTH) {
            // Typed so, it makes the same records.
            assert_eq!(blocks_of(&rule), blocks_of(&pushed), "{rule}");
        }
    }
}

/// A small structure. Each state has one to three next ones.
fn structure(random: &mut Random) -> Structure {
    let states = random.from_to(1, 7);
    let mut labels = Vec::new();
    let mut next = Vec::new();
    for _ in 0..states {
        labels.push([(); 3].map(|()| random.below(4) as u16));
        let mut followers: Vec<usize> =
            (0..random.from_to(1, 3)).map(|_| random.below(states)).collect();
        followers.sort_unstable();
        followers.dedup();
        next.push(followers);
    }
    Structure { labels, next }
}

/// Two labels of each side.
const FEW: [u8; 6] = [0, 1, 16, 17, 32, 33];

/// Rule i of the blocks means what line i of the text means, at every state.
#[test]
fn records_mean_what_is_typed() {
    let mut random = Random::new(64);
    let (mut compared, mut holding, mut temporal) = (0, 0, 0);
    for _ in 0..8_000 {
        let records = random.from_to(1, 64);
        let Text { bytes, rules } = sound_text(&mut random, &FEW, 5, records);
        let (blocks, count) = read_well(&bytes).expect("it is sound");
        assert_eq!(count, rules.len());
        assert_eq!(read_text(&bytes).as_ref(), Some(&rules));
        let made = design_of(&blocks);
        let structure = structure(&mut random);
        let model = structure.model().holding(&made.formulas);
        for (line, &rule) in rules.iter().zip(&made.rules) {
            let states = structure.holding(line);
            assert_eq!(model[usize::from(rule)], states, "{line} {structure:?}");
            assert_eq!(structure.holding(&line.pushed_down()), states, "{line} {structure:?}");
            compared += structure.next.len();
            holding += states.len();
            temporal += usize::from(
                line.parts()
                    .iter()
                    .any(|part| matches!(part, Part::AX | Part::AG | Part::AF | Part::AU)),
            );
        }
    }
    println!("{compared} states compared, {holding} hold, {temporal} lines have a temporal part");
    assert!(compared > 50_000 && holding > 10_000 && compared - holding > 10_000);
}

/// A design of idle sides with these blocks behind them, which isn't refused.
fn design_of(blocks: &[u8]) -> Design {
    let idle = samples::design([vec![samples::state(&[], &[(0, 0)])]], vec![], vec![]).to_bytes();
    let bytes = [&idle[..1_024], blocks].concat();
    let made = read_design(&bytes).expect("the blocks are sound");
    assert_eq!(made.to_bytes(), bytes);
    made
}

/// What the meaning by itself says of the parts: each "all paths" is no path on which it fails,
/// and each temporal part is what it says of a state and of the next ones.
#[test]
fn laws_of_the_meaning() {
    let mut random = Random::new(65);
    let rule = |part, operands: &[&Typed]| Typed::new(part, operands.iter().map(|&r| r.clone()));
    let not = |a: &Typed| rule(Part::Not, &[a]);
    let and = |a: &Typed, b: &Typed| rule(Part::And, &[a, b]);
    let or = |a: &Typed, b: &Typed| rule(Part::Or, &[a, b]);
    for _ in 0..3_000 {
        let structure = structure(&mut random);
        let [a, b] = [(); 2].map(|()| typed_rule(&mut random, &FEW, Paths::Any, 5));
        let one = |part| rule(part, &[&a]);
        let until = |part| rule(part, &[&a, &b]);
        let neither = rule(Part::EU, &[&not(&b), &and(&not(&a), &not(&b))]);
        let same = [
            (one(Part::AX), not(&rule(Part::EX, &[&not(&a)]))),
            (one(Part::AG), not(&rule(Part::EF, &[&not(&a)]))),
            (one(Part::AF), not(&rule(Part::EG, &[&not(&a)]))),
            (until(Part::AU), not(&or(&neither, &rule(Part::EG, &[&not(&b)])))),
            (one(Part::AF), rule(Part::AU, &[&Typed::new(Part::True, []), &a])),
            (one(Part::EF), rule(Part::EU, &[&Typed::new(Part::True, []), &a])),
            (one(Part::AG), and(&a, &rule(Part::AX, &[&one(Part::AG)]))),
            (one(Part::EG), and(&a, &rule(Part::EX, &[&one(Part::EG)]))),
            (until(Part::AU), or(&b, &and(&a, &rule(Part::AX, &[&until(Part::AU)])))),
            (until(Part::EU), or(&b, &and(&a, &rule(Part::EX, &[&until(Part::EU)])))),
            (rule(Part::Implies, &[&a, &b]), or(&not(&a), &b)),
        ];
        for (left, right) in same {
            assert_eq!(structure.holding(&left), structure.holding(&right), "{left}, {right}");
        }
    }
}

/// A structure by hand: 0 goes to 1 and to 2, 1 to 0, 2 stays. p0 holds at 0, p1 at 1, p17 at 2.
#[test]
fn a_structure_by_hand() {
    let labels = vec![[1, 0, 0], [2, 0, 0], [0, 2, 0]];
    let structure = Structure { labels, next: vec![vec![1, 2], vec![0], vec![2]] };
    let rows: [(&str, &[usize]); 16] = [
        ("p0", &[0]),
        ("p17", &[2]),
        ("!p0", &[1, 2]),
        ("p0 -> p1", &[1, 2]),
        ("AX p0", &[1]),
        ("AX (p1 | p17)", &[0, 2]),
        ("AG p17", &[2]),
        ("AG (p0 -> AX !p0)", &[0, 1, 2]),
        // From 0 one may go to 1 and back for ever.
        ("AF p17", &[2]),
        ("AF p0", &[0, 1]),
        ("AF (p17 | p1)", &[0, 1, 2]),
        ("A [ p0 U p1 | p17 ]", &[0, 1, 2]),
        ("A [ p1 U p0 ]", &[0, 1]),
        ("A [ p0 U p1 ]", &[1]),
        ("EF p17", &[0, 1, 2]),
        ("EG !p17", &[0, 1]),
    ];
    for (line, expected) in rows {
        let rule = read_rule(&tokens(line.as_bytes()).expect("it has tokens")).expect("a rule");
        let expected: States = expected.iter().copied().collect();
        assert_eq!(structure.holding(&rule), expected, "{line}");
    }
}

/// What the text's number is, from its rules as they were made and not as they are read.
fn number_by_rules(rules: &[Typed]) -> Option<u8> {
    let some = |rule: &Typed| {
        let mut under: Vec<(bool, bool)> = Vec::new();
        // For each rule that isn't joined yet: is a part temporal, is one of them 20.
        for &part in rule.parts() {
            let operands = under.split_off(under.len() - part.operands());
            let temporal = operands.iter().any(|(temporal, _)| *temporal);
            let wrong = operands.iter().any(|(_, wrong)| *wrong);
            let (is_temporal, says_some) = match part {
                Part::AX | Part::AG | Part::AF | Part::AU => (true, false),
                Part::EX | Part::EG | Part::EF | Part::EU => (true, true),
                _ => (false, false),
            };
            let denies = match part {
                Part::Not | Part::Implies => operands[0].0,
                _ => false,
            };
            under.push((temporal || is_temporal, wrong || says_some || denies));
        }
        under[0].1
    };
    let count = |rule: &Typed| {
        let each = |part: &Part| match part {
            Part::Not => 0,
            Part::AF => 2,
            _ => 1,
        };
        rule.parts().iter().map(each).sum::<usize>()
    };
    if rules.iter().any(some) {
        Some(refusal::SOME_PATH)
    } else if rules.len() > 16 || rules.iter().map(count).sum::<usize>() > 64 {
        Some(refusal::TOO_MANY_FORMULAS)
    } else {
        None
    }
}

#[test]
fn any_texts() {
    let mut random = Random::new(66);
    let mut answers: BTreeMap<u8, usize> = BTreeMap::new();
    for _ in 0..20_000 {
        let Text { bytes, rules } = any_text(&mut random);
        assert_eq!(read_text(&bytes).as_ref(), Some(&rules), "{:?}", shown(&bytes));
        let answer = read_well(&bytes).map(|(_, rules)| rules);
        let expected = number_by_rules(&rules).map_or(Ok(rules.len()), Err);
        assert_eq!(answer, expected, "{:?}", shown(&bytes));
        *answers.entry(answer.err().unwrap_or(0)).or_default() += 1;
    }
    println!("{answers:?}");
    assert!([0, 20, 21].iter().all(|number| answers[number] > 1_000), "{answers:?}");
}

#[test]
fn texts_at_the_limits() {
    let mut random = Random::new(67);
    let mut answers: BTreeMap<u8, usize> = BTreeMap::new();
    let mut met: BTreeMap<&str, usize> = BTreeMap::new();
    for _ in 0..20_000 {
        let made = text_at_limits(&mut random);
        let answer = read_well(&made.bytes).map(|(_, rules)| rules);
        assert_eq!(answer, made.refused.map_or(Ok(made.rules), Err), "{:?}", shown(&made.bytes));
        *answers.entry(answer.err().unwrap_or(0)).or_default() += 1;
        let mut count = |what, so: bool| *met.entry(what).or_default() += usize::from(so);
        let done = answer.is_ok();
        count("64 records", done && made.records == 64);
        count("16 rules", done && made.rules == 16);
        count("32 deep", done && made.depth == 32);
        count("65 records", answer == Err(21) && made.records == 65 && made.rules <= 16);
        count("17 rules", answer == Err(21) && made.rules == 17 && made.records <= 64);
        count("33 deep", answer == Err(19) && made.depth == 33);
        count("19 before 21", answer == Err(19) && (made.records > 64 || made.rules > 16));
        count("20 before 21", answer == Err(20) && (made.records > 64 || made.rules > 16));
    }
    println!("{answers:?} {met:?}");
    assert!(met.values().all(|&times| times > 300), "{met:?}");
    assert!([0, 19, 20, 21].iter().all(|number| answers[number] > 1_000), "{answers:?}");
}

/// Damaged texts and random tokens: line by line, both ways agree about short lines.
#[test]
fn damaged_texts() {
    let mut random = Random::new(68);
    let mut answers: BTreeMap<u8, usize> = BTreeMap::new();
    let mut damages = BTreeSet::new();
    let mut compared = 0;
    for round in 0..20_000 {
        let bytes = if round % 2 == 0 {
            let mut bytes = any_text(&mut random).bytes;
            damages.insert(damage_text(&mut random, &mut bytes));
            bytes
        } else {
            token_text(&mut random)
        };
        *answers.entry(read_well(&bytes).err().unwrap_or(0)).or_default() += 1;
        let Some(whole) = bytes.strip_suffix(b"\n") else {
            assert_eq!(read_text(&bytes).is_some(), bytes.is_empty());
            continue;
        };
        for line in whole.split(|&byte| byte == b'\n') {
            let Some(tokens) = tokens(line).filter(|tokens| tokens.len() <= 24) else { continue };
            both_ways(&tokens);
            compared += 1;
        }
    }
    println!("{answers:?}, {compared} lines compared");
    assert_eq!(damages.len(), TEXT_DAMAGES.len());
    assert!([0, 19, 20, 21].iter().all(|number| answers[number] > 100), "{answers:?}");
}

/// Blocks made of texts stand in designs of random sides that aren't refused.
#[test]
fn designs_with_typed_rules() {
    let mut random = Random::new(69);
    for _ in 0..2_000 {
        let Text { bytes, rules } = sound_text(&mut random, &every_name(), 16, 64);
        let (blocks, _) = read_well(&bytes).expect("it is sound");
        let bare =
            Design { sides: sides(&mut random, &Shape::SMALL), formulas: vec![], rules: vec![] };
        let bytes = bare.to_five_blocks();
        let made = read_design(&[&bytes[..bytes.len() - 1_024], &blocks].concat());
        let (formulas, numbers) = records(&rules);
        let numbers = numbers.into_iter().map(|number| number as u8).collect();
        assert_eq!(made, Ok(Design { formulas, rules: numbers, ..bare }));
    }
}

/// Records of a line stand together, the last is its rule, and each but that is an operand once.
#[test]
fn nothing_is_shared() {
    let mut random = Random::new(70);
    for _ in 0..5_000 {
        let rules = sound_text(&mut random, &FEW, 16, 64).rules;
        let (formulas, numbers) = records(&rules);
        let mut uses = vec![0; formulas.len()];
        for formula in &formulas {
            match *formula {
                Formula::And(a, b) | Formula::Or(a, b) | Formula::Until(a, b) => {
                    uses[a] += 1;
                    uses[b] += 1;
                    assert!(a < b);
                }
                Formula::Next(a) | Formula::Always(a) => uses[a] += 1,
                _ => {}
            }
        }
        for number in numbers {
            uses[number] += 1;
        }
        assert!(uses.iter().all(|&times| times == 1), "{formulas:?}");
    }
}
