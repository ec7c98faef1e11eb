//! The files of the examples folder: the verdict on each converter that is shown beside a design is
//! yes.

use std::fs;
use std::path::Path;

use gorzhani::{Verdict, BLOCK, BLOCK_RECORDS, CELL, RECORD};

#[test]
fn examples() {
    let folder = Path::new(env!("CARGO_MANIFEST_DIR")).join("../../examples");
    let mut shown = 0;
    for entry in fs::read_dir(folder).expect("there are examples") {
        let path = entry.expect("the folder can be read").path();
        if path.extension().is_none_or(|extension| extension != "converter") {
            continue;
        }
        let design = fs::read(path.with_extension("design")).expect("there is a design beside it");
        let file = fs::read(&path).expect("the converter can be read");
        let mut converter = vec![0; RECORD * BLOCK_RECORDS * file.len() / BLOCK];
        let records = gorzhani::read(&file, &mut converter).expect("it is a converter file");
        converter.truncate(RECORD * records);
        let verdict = gorzhani::verdict(&design, &converter, &mut vec![0; CELL * records]);
        assert_eq!(verdict, Verdict::Yes, "{path:?}");
        shown += 1;
    }
    assert!(shown > 0);
}
