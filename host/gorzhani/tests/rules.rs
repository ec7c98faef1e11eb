//! Rules as people type them, by the library and by the second checker: the answer and every byte,
//! and verdicts on designs whose rules were typed.

mod common;
#[path = "../../checker/tests/samples/mod.rs"]
mod samples;
#[path = "../../checker/tests/typed/mod.rs"]
mod typed;

use std::collections::BTreeMap;
use std::thread;

use checker::bytes::{converter_bytes, positions, read_design, Design, Record, SIDES};
use checker::generate::{
    any_text, damage_text, every_name, matched_converter, sides, sound_text, text_at_limits,
    token_text, Random, Shape, Text, TEXT_DAMAGES,
};
use checker::joined::{labels, proposition};
use checker::rules::chart::readings;
use checker::rules::meaning::Structure;
use checker::rules::{spelled, tokens, Part, Token, TOKENS};
use common::{
    about, beginning, found, judge_agrees, positions_agrees, rules_agrees, search_agrees, Answers,
};
use gorzhani::{Refused, BLOCK, CELL, FIVE_BLOCKS, FOUR_BLOCKS, RECORD, RULE_BLOCKS};
use samples::{figure_five, handshake, ruled_handshake};
use typed::{
    at_the_limits, handshake_text, long_texts, orders, refused_with_19, refused_with_20, rows, Row,
};

/// Records that are written out from the specification.
#[test]
fn rows_are_read() {
    for row in rows() {
        let Row { text, rules, .. } = &row;
        let mut blocks = vec![0xA5; RULE_BLOCKS + 3];
        assert_eq!(gorzhani::rules(text.as_bytes(), &mut blocks), Ok(rules.len()), "{text:?}");
        assert!(blocks[..RULE_BLOCKS] == row.blocks(), "{text:?}: {:?}", &blocks[..80]);
        assert_eq!(blocks[RULE_BLOCKS..], [0xA5; 3]);
        for (length, answer) in [(0, 12), (1, 12), (512, 12), (1_023, 12), (1_024, 0), (1_025, 0)] {
            assert_eq!(rules_agrees(text.as_bytes(), length), answer, "{text:?} {length}");
        }
    }
}

#[test]
fn refused_ones() {
    for (number, texts) in [(19, refused_with_19()), (20, refused_with_20())] {
        for text in texts {
            for length in [0, 1_023, 1_024, 1_100] {
                assert_eq!(rules_agrees(&text, length), number, "{}", beginning(&text));
                let behind = [b"p0\n", &text[..]].concat();
                assert_eq!(rules_agrees(&behind, length), number, "{}", beginning(&behind));
            }
        }
    }
}

#[test]
fn limits() {
    for (text, number, rules) in at_the_limits() {
        assert_eq!(rules_agrees(text.as_bytes(), 1_024), number, "{}", beginning(text.as_bytes()));
        let answer = gorzhani::rules(text.as_bytes(), &mut [0; RULE_BLOCKS]);
        let expected = if number == 0 { Ok(rules) } else { Err(Refused(number)) };
        assert_eq!(answer, expected, "{}", beginning(text.as_bytes()));
        // 12 comes last.
        let short = if number == 0 { 12 } else { number };
        assert_eq!(rules_agrees(text.as_bytes(), 1_023), short);
    }
}

/// Every set of faults, in every order: the first number in the order of the specification is
/// answered.
#[test]
fn order_of_the_refusals() {
    let mut answers = Answers::default();
    for (text, length, expected) in orders() {
        let answer = rules_agrees(text.as_bytes(), length);
        assert_eq!(answer, expected.unwrap_or(0), "{text} {length}");
        answers.count(answer);
    }
    answers.are(&[0, 12, 19, 20, 21], 2);
}

/// Whatever is repeated in a text, a stack of a megabyte is enough.
#[test]
fn texts_of_a_megabyte() {
    let read_all = || {
        for (name, text, number, _) in long_texts() {
            assert_eq!(rules_agrees(text.as_bytes(), 1_024), number, "{name}");
            assert_eq!(rules_agrees(text.as_bytes(), 0), if number == 0 { 12 } else { number });
        }
    };
    let thread = thread::Builder::new().stack_size(1 << 20).spawn(read_all);
    thread.expect("there is a thread").join().expect("all are read");
}

/// `!` any number of times: the name, or its denial.
#[test]
fn denied_again_and_again() {
    for count in (0..700).chain([65_535, 65_536, 65_537, 1_048_575, 1_048_576]) {
        let text = format!("{}p7\n", "!".repeat(count));
        let mut blocks = [0; RULE_BLOCKS];
        assert_eq!(gorzhani::rules(text.as_bytes(), &mut blocks), Ok(1));
        assert_eq!(blocks[4..8], [if count % 2 == 0 { 3 } else { 4 }, 7, 0, 0], "{count}");
        assert_eq!(rules_agrees(text.as_bytes(), RULE_BLOCKS), 0);
    }
}

/// Reads a short text by both into buffers that are made once.
fn quickly(text: &[u8]) -> u8 {
    let (mut blocks, mut other_blocks) = ([0xA5; RULE_BLOCKS + 8], [0xA5; RULE_BLOCKS + 8]);
    let answer = gorzhani::rules(text, &mut blocks).map_err(|Refused(number)| number);
    assert_eq!(answer, checker::rules(text, &mut other_blocks), "{}", beginning(text));
    assert!(blocks == other_blocks, "{}", beginning(text));
    answer.err().unwrap_or(0)
}

/// Every sequence of so many of these tokens, with a space between each and the next.
fn every_sequence(tokens: &[Token], length: usize, answers: &mut Answers) {
    let typed: Vec<String> = tokens.iter().map(|&token| spelled(token)).collect();
    let mut places = vec![0; length];
    let mut text = Vec::new();
    loop {
        text.clear();
        for &place in &places {
            text.extend(typed[place].bytes());
            text.push(b' ');
        }
        text.push(b'\n');
        answers.count(quickly(&text));
        let Some(at) = places.iter().rposition(|&place| place + 1 < tokens.len()) else {
            return;
        };
        places[at] += 1;
        places[at + 1..].fill(0);
    }
}

/// Every sequence of up to four tokens, and longer ones of few tokens.
#[test]
fn every_short_sequence() {
    let mut answers = Answers::default();
    let all: Vec<Token> =
        TOKENS.iter().map(|&(token, _)| token).chain([Token::Name(5), Token::Name(47)]).collect();
    for length in 0..=4 {
        every_sequence(&all, length, &mut answers);
    }
    assert_eq!(answers.total(), 1 + 21 + 441 + 9_261 + 194_481);
    let name = Token::Name(5);
    for (few, length) in [
        (vec![name, Token::Not, Token::And, Token::Implies, Token::Open, Token::Close], 7),
        (vec![name, Token::A, Token::OpenSquare, Token::U, Token::CloseSquare, Token::Or], 7),
        (vec![name, Token::AX, Token::Or, Token::Implies, Token::Open, Token::Close], 7),
        (vec![name, Token::And, Token::Or, Token::Implies], 9),
    ] {
        every_sequence(&few, length, &mut answers);
    }
    println!("{:?}", answers.counts());
    answers.are(&[0, 19, 20], 900);
}

/// What the grammar alone says of lines that were typed at random: where its lines have a reading,
/// and that is not too deep, the library reads the text or tells 20 or 21.
#[test]
fn lines_of_the_grammar() {
    let mut random = Random::new(1_301);
    let mut answers = Answers::default();
    while answers.total() < 20_000 {
        let text = token_text(&mut random);
        let Some(line) = text.strip_suffix(b"\n") else { continue };
        if line.contains(&b'\n') {
            continue;
        }
        let read = tokens(line).filter(|tokens| !readings(tokens).is_empty());
        let answer = rules_agrees(&text, RULE_BLOCKS);
        assert_eq!(answer != 19, read.is_some(), "{}", beginning(&text));
        answers.count(answer);
    }
    answers.are(&[0, 19, 20], 100);
}

/// Printed rules, damaged texts, texts at the limits and random tokens, with a length that is
/// enough or isn't.
#[test]
fn any_text_and_length() {
    let mut random = Random::new(1_302);
    let mut answers = Answers::default();
    let mut damages = BTreeMap::new();
    for round in 0..150_000 {
        let text = match round % 10 {
            0..=1 => sound_text(&mut random, &every_name(), 16, 64).bytes,
            2 => any_text(&mut random).bytes,
            3 => text_at_limits(&mut random).bytes,
            4..=5 => token_text(&mut random),
            _ => {
                let mut text = match round % 2 {
                    0 => sound_text(&mut random, &every_name(), 3, 12).bytes,
                    _ => any_text(&mut random).bytes,
                };
                for _ in 0..random.from_to(1, 2) {
                    let damage = damage_text(&mut random, &mut text);
                    *damages.entry(damage).or_insert(0) += 1;
                }
                text
            }
        };
        let length = about(&mut random, RULE_BLOCKS);
        answers.count(rules_agrees(&text, length));
    }
    println!("{:?} {damages:?}", answers.counts());
    answers.are(&[0, 12, 19, 20, 21], 3_000);
    assert_eq!(damages.len(), TEXT_DAMAGES.len());
}

/// Texts whose rules and whose answer the generator knows.
#[test]
fn texts_at_the_limits() {
    let mut random = Random::new(1_303);
    for _ in 0..20_000 {
        let made = text_at_limits(&mut random);
        let answer = gorzhani::rules(&made.bytes, &mut [0; RULE_BLOCKS]);
        let expected = made.refused.map_or(Ok(made.rules), |number| Err(Refused(number)));
        assert_eq!(answer, expected, "{}", beginning(&made.bytes));
    }
}

/// Every byte in every place of some texts.
#[test]
fn every_byte() {
    let mut answers = Answers::default();
    let texts = [
        "p0\n".to_string(),
        "AG (p1 -> AF !p2)\nA [ p3 U p46 ]\n".to_string(),
        "TRUE & FALSE | !(p15->p9)\nEX p1\n".to_string(),
        handshake_text(false),
    ];
    for text in texts {
        for at in 0..=text.len() {
            for byte in 0..=255 {
                let mut replaced = text.clone().into_bytes();
                if let Some(place) = replaced.get_mut(at) {
                    *place = byte;
                    answers.count(quickly(&replaced));
                }
                let mut inserted = text.clone().into_bytes();
                inserted.insert(at, byte);
                answers.count(quickly(&inserted));
            }
            // Every beginning, which mostly has no newline at its end.
            answers.count(quickly(&text.as_bytes()[..at]));
        }
    }
    println!("{:?}", answers.counts());
    answers.are(&[0, 19, 20], 100);
}

/// Every name and what is near.
#[test]
fn every_name_and_word() {
    for number in 0..=1_100 {
        let expected = if number <= 47 { 0 } else { 19 };
        assert_eq!(quickly(format!("p{number}\n").as_bytes()), expected, "{number}");
        assert_eq!(quickly(format!("p0{number}\n").as_bytes()), 19, "{number}");
    }
    // Every word of one or two letters and digits, and of three that begin with a capital one.
    let alphabet: Vec<u8> = (0..=255_u8).filter(u8::is_ascii_alphanumeric).collect();
    for &a in &alphabet {
        quickly(&[a, b'\n']);
        for &b in &alphabet {
            quickly(&[a, b, b'\n']);
            // As a prefix, and where a sign is wanted.
            quickly(&[a, b, b' ', b'p', b'0', b'\n']);
            quickly(&[b'p', b'0', b' ', a, b, b' ', b'p', b'0', b'\n']);
            if a.is_ascii_uppercase() {
                alphabet.iter().for_each(|&c| {
                    quickly(&[a, b, c, b' ', b'p', b'0', b'\n']);
                });
            }
        }
    }
}

/// Every length of what is lent, from nothing on.
#[test]
fn every_length() {
    let sound = handshake_text(false);
    for length in 0..=1_100 {
        let expected = if length < RULE_BLOCKS { 12 } else { 0 };
        assert_eq!(rules_agrees(sound.as_bytes(), length), expected, "{length}");
        assert_eq!(rules_agrees(b"", length), expected, "{length}");
        assert_eq!(rules_agrees(b"p0", length), 19, "{length}");
    }
    assert_eq!(rules_agrees(sound.as_bytes(), 1 << 16), 0);
}

/// The library's blocks of a text that isn't refused.
fn blocks_of(text: &[u8]) -> Vec<u8> {
    let mut blocks = vec![0xA5; RULE_BLOCKS];
    gorzhani::rules(text, &mut blocks).unwrap_or_else(|refused| panic!("{refused}"));
    assert_eq!(rules_agrees(text, RULE_BLOCKS + 5), 0);
    blocks
}

/// A design with typed rules in the place of its own, as four blocks where it can be, and as five.
fn with_rules(design: &Design, text: &[u8]) -> [Vec<u8>; 2] {
    let blocks = blocks_of(text);
    [design.to_bytes(), design.to_five_blocks()].map(|mut bytes| {
        let end = bytes.len() - RULE_BLOCKS;
        bytes.splice(end.., blocks.iter().copied());
        bytes
    })
}

/// The answer to a search with the lengths that are demanded; 0 is a converter.
fn searched(bytes: &[u8]) -> (u128, u8) {
    let size = positions(&read_design(bytes).expect("the design is sound"));
    (size, search_agrees(bytes, RECORD * size as usize, CELL * size as usize))
}

fn judged(bytes: &[u8], converter: &[Record]) -> u8 {
    judge_agrees(bytes, &converter_bytes(converter), CELL * converter.len())
}

/// The rows of the specification about the handshake pair, its rules typed.
#[test]
fn the_handshake_pair() {
    let pair = handshake(vec![], vec![]);
    for bytes in with_rules(&pair, b"") {
        assert_eq!(searched(&bytes), (4, 0));
    }
    for bytes in with_rules(&pair, handshake_text(true).as_bytes()) {
        assert_eq!(searched(&bytes), (1_024, 16));
        assert_eq!(judged(&bytes, &figure_five()), 15);
        assert_eq!(read_design(&bytes), Ok(ruled_handshake(true)));
    }
    // It is the fourth that fails.
    let printed = handshake_text(true);
    let alone = printed.lines().map(|line| {
        let [bytes, _] = with_rules(&pair, format!("{line}\n").as_bytes());
        judged(&bytes, &figure_five())
    });
    assert_eq!(alone.collect::<Vec<u8>>(), [0, 0, 0, 15]);
    for bytes in with_rules(&pair, handshake_text(false).as_bytes()) {
        assert_eq!(judged(&bytes, &figure_five()), 0);
        assert_eq!(searched(&bytes), (1_024, 0));
        assert!(found(&bytes).is_some());
    }
    for text in ["AF p1\n", "A [ TRUE U p1 ]\n", "A [ !FALSE U !!p1 ]\n"] {
        for bytes in with_rules(&pair, text.as_bytes()) {
            assert_eq!(searched(&bytes), (8, 16), "{text}");
        }
    }
}

/// Other rows, their rules typed.
#[test]
fn other_rows() {
    let turning = samples::ticking_in_turn();
    for bytes in with_rules(&turning, b"AG (AF p0 & AF p1)\n") {
        assert_eq!(searched(&bytes), (32, 0));
    }
    let inputs = samples::two_inputs(vec![], vec![]);
    for bytes in with_rules(&inputs, b"AX p16 | AX p17\n") {
        assert_eq!(searched(&bytes), (24, 0));
    }
    for bytes in with_rules(&inputs, b"AX p16\nAX p17\n") {
        assert_eq!(searched(&bytes).1, 16);
    }
    let viewer = samples::viewer(samples::thumbnails(true));
    let [bytes, _] = with_rules(&viewer, b"AG AF p16\nAG !(p16 & p32)\n");
    assert_eq!((bytes.len(), searched(&bytes)), (FIVE_BLOCKS, (32, 16)));
}

/// Names of the labels that a shape's sides use.
fn names(shape: &Shape) -> Vec<u8> {
    let of_side = |side| (0..shape.propositions).map(move |label| proposition(side, label));
    (0..SIDES).flat_map(of_side).collect()
}

/// Random sides with rules from random texts: the library takes them, and its verdicts are the
/// second checker's.
#[test]
fn verdicts_on_typed_rules() {
    let mut random = Random::new(1_304);
    let (mut answers, mut judged_ones) = (Answers::default(), Answers::default());
    let (mut by_line, mut temporal) = (Answers::default(), 0);
    while answers.total() < 3_000 {
        let shape = *random.pick(&[Shape::TINY, Shape { states: 3, ..Shape::SMALL }]);
        let records = random.from_to(3, 16);
        let Text { bytes: text, rules } = sound_text(&mut random, &names(&shape), 3, records);
        let bare = Design { sides: sides(&mut random, &shape), formulas: vec![], rules: vec![] };
        let [bytes, _] = with_rules(&bare, &text);
        assert!([FOUR_BLOCKS, FIVE_BLOCKS].contains(&bytes.len()));
        let design = read_design(&bytes).expect("neither 7 nor 8");
        assert!([0, 9].contains(&positions_agrees(&bytes)));
        if rules.is_empty() || positions(&design) > 1 << 11 {
            continue;
        }
        answers.count(searched(&bytes).1);

        // A matched converter: the judge says of each line what the line means as it was typed.
        let spare = random.below(6);
        let converter = matched_converter(&mut random, &bare, spare);
        judged_ones.count(judged(&bytes, &converter));
        let named = |record: &Record| labels(&bare, record.states.map(usize::from));
        let follow = |record: &Record| record.links.iter().map(|l| usize::from(l.next)).collect();
        let structure = Structure {
            labels: converter.iter().map(named).collect(),
            next: converter.iter().map(follow).collect(),
        };
        for rule in &rules {
            let [alone, _] = with_rules(&bare, format!("{rule}\n").as_bytes());
            let answer = judged(&alone, &converter);
            let holds = structure.holding(rule).contains(&0);
            assert_eq!(answer, if holds { 0 } else { 15 }, "{rule} {bare:?}");
            by_line.count(answer);
            let paths = |part: &Part| matches!(part, Part::AX | Part::AG | Part::AF | Part::AU);
            temporal += usize::from(rule.parts().iter().any(paths));
        }
    }
    println!("{:?} {:?} {:?}", answers.counts(), judged_ones.counts(), by_line.counts());
    answers.are(&[0, 16], 500);
    judged_ones.are(&[0, 15], 500);
    by_line.are(&[0, 15], 1_000);
    assert!(temporal > 1_000, "{temporal}");
}

/// A refusal of the wrapper is an error with its number.
#[test]
fn refusals_of_the_wrapper() {
    let refused = |text: &str, length: usize| {
        gorzhani::rules(text.as_bytes(), &mut vec![0; length]).expect_err("it is refused")
    };
    assert_eq!(refused("AXp0\n", RULE_BLOCKS), Refused::TEXT);
    assert_eq!(refused("!AX p0\n", RULE_BLOCKS), Refused::SOME_PATH);
    assert_eq!(refused(&"p0\n".repeat(17), RULE_BLOCKS), Refused::TOO_MANY_FORMULAS);
    assert_eq!(refused("p0\n", RULE_BLOCKS - 1), Refused::SHORT_RESULT);
    assert_eq!(refused("", 2 * BLOCK - 1), Refused::SHORT_RESULT);
}
