//! The reader of pages beside the second reader, which was written from docs/DESK.md alone: the same bytes for sound pages, and the same places of mistakes for damaged ones.

use checker::bytes::converter_bytes;
use checker::generate::{damaged_page, page, Random};
use desk::records::{to_bytes, Record};

/// What a reader makes of a page: the design's bytes, or the places of mistakes.
type Made = Result<Vec<u8>, Vec<(usize, usize)>>;

fn here(text: &[u8]) -> Made {
    let read = desk::page::read(text).map(|page| page.design.bytes());
    read.map_err(|mistakes| mistakes.iter().map(|at| (at.line, at.column)).collect())
}

fn second(text: &[u8]) -> Made {
    let read = checker::page::read(text).map(|read| read.design);
    read.map_err(|places| places.iter().map(|at| (at.line, at.column)).collect())
}

#[test]
fn sound_pages() {
    let mut random = Random::new(181);
    let mut converters = 0;
    for round in 0..10_000 {
        let made = page(&mut random);
        let read = desk::page::read(&made.page);
        let Ok(read) = read else { panic!("round {round}: {:?}", here(&made.page)) };
        assert!(read.design.bytes() == made.design, "round {round}");
        let names: Vec<Vec<&str>> = (read.design.sides.iter())
            .map(|side| side.states.iter().map(|state| &state.name[..]).collect())
            .collect();
        assert_eq!(names, made.names.states, "round {round}");
        assert_eq!(read.design.signals, made.names.signals, "round {round}");
        let labels: Vec<&Vec<String>> = read.design.sides.iter().map(|side| &side.labels).collect();
        assert_eq!(labels, made.names.labels.iter().collect::<Vec<_>>(), "round {round}");
        let converter = read.converter().map(|records| records.map(|records| to_bytes(&records)));
        let expected = made.converter.map(|records| converter_bytes(&records));
        converters += usize::from(expected.is_some());
        assert!(converter == Ok(expected), "round {round}");
    }
    assert!(converters > 1_000);
}

#[test]
fn damaged_pages() {
    let mut random = Random::new(182);
    let (mut sound, mut one, mut more, mut converters) = (0, 0, 0, 0);
    for round in 0..30_000 {
        let text = damaged_page(&mut random);
        let made = here(&text);
        let again = second(&text);
        assert!(made == again, "round {round}: {:?}, {:?}", made.err(), again.err());
        if made.is_ok() {
            converters += usize::from(compared_converters(&text, round));
        }
        match made {
            Ok(_) => sound += 1,
            Err(places) if places.len() == 1 => one += 1,
            Err(_) => more += 1,
        }
    }
    assert!(sound > 3_000 && one > 3_000 && more > 3_000, "{sound} {one} {more}");
    assert!(converters > 100, "{converters}");
}

/// The converters that both read on a sound page are the same, or neither reads one: whether they are refused.
fn compared_converters(text: &[u8], round: usize) -> bool {
    let names = checker::page::read(text).expect("the page is sound").names;
    let second = checker::page::read_converter(text, &names).ok();
    let second = second.map(|read| read.map(|records| converter_bytes(&records)));
    let here = desk::page::read(text).expect("the page is sound").converter().ok();
    let here = here.map(|read| read.map(|records| to_bytes(&records)));
    assert!(here == second, "round {round}");
    here.is_none()
}

/// Writing a page's own sections changes nothing else, and the page reads as before.
#[test]
fn written_back() {
    let mut random = Random::new(183);
    for round in 0..3_000 {
        let made = page(&mut random);
        let read = desk::page::read(&made.page).expect("it is sound");
        let written = read.with("It is so.", "There is none.");
        let again = desk::page::read(written.as_bytes()).expect("it is still sound");
        assert!(again.design.bytes() == made.design, "round {round}");
        assert_eq!(again.converter(), Ok(None::<Vec<Record>>), "round {round}");
        assert_eq!(again.with("It is so.", "There is none."), written, "round {round}");
    }
}
