//! The files of the examples folder under the library: what is shown beside each
//! design is what the library answers today. The converters were made by it, so
//! this only finds files out of date; that the verdicts and converters are right
//! is tested in host/desk, by the second checker.

use std::fs;
use std::path::Path;

use gorzhani::{Refused, BLOCK, BLOCK_RECORDS, CELL, MOST_RULES, RECORD};

#[test]
fn examples() {
    let folder = Path::new(env!("CARGO_MANIFEST_DIR")).join("../../examples");
    let (mut found, mut none) = (0, 0);
    for entry in fs::read_dir(folder).expect("there are examples") {
        let path = entry.expect("the folder can be read").path();
        if path.extension().is_none_or(|extension| extension != "design") {
            continue;
        }
        let design = fs::read(&path).expect("the design can be read");
        let positions = gorzhani::positions(&design).expect("the design is sound");
        let mut table = vec![0; RECORD * positions];
        let answer = gorzhani::search(&design, &mut table, &mut vec![0; CELL * positions]);
        let Ok(beside) = fs::read(path.with_extension("converter")) else {
            assert_eq!(answer, Err(Refused::NO_CONVERTER), "{path:?}");
            none += 1;
            continue;
        };
        let records = answer.unwrap_or_else(|refused| panic!("{path:?}: {refused:?}"));
        let shown = &table[..RECORD * records];
        let mut blocks = vec![0; BLOCK * records.div_ceil(BLOCK_RECORDS)];
        assert_eq!(gorzhani::write(shown, &mut blocks), Ok(blocks.len() / BLOCK));
        assert!(blocks == beside, "{path:?} is shown with another converter");
        let (mut work, mut waits) = (vec![0; CELL * records], [0; MOST_RULES]);
        let judged = gorzhani::judge(&design, shown, &mut work, &mut waits);
        assert_eq!(judged, Ok(()), "{path:?}");
        found += 1;
    }
    assert!(found > 0 && none > 0);
}
