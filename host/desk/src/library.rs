//! The calls of the proved library, each lent as much memory as it asks for.

use gorzhani::{Refused, BLOCK, BLOCK_RECORDS, CELL, MOST_RULES, NO_WAIT, RECORD, RULE_BLOCKS};

use crate::records::{from_bytes, to_bytes, Record};

/// Searches a converter for a design.
pub fn search(design: &[u8]) -> Result<Vec<Record>, Refused> {
    let positions = gorzhani::positions(design)?;
    let mut table = vec![0; RECORD * positions];
    let count = gorzhani::search(design, &mut table, &mut vec![0; CELL * positions])?;
    Ok(from_bytes(&table[..RECORD * count]))
}

/// Judges a converter. After a yes, how long each rule waits: [`NO_WAIT`] for one that isn't an until.
pub fn judge(design: &[u8], records: &[Record]) -> Result<Vec<u32>, Refused> {
    let mut waits = vec![NO_WAIT; MOST_RULES];
    let work = &mut vec![0; CELL * records.len()];
    gorzhani::judge(design, &to_bytes(records), work, &mut waits)?;
    // What has a yes is a design, and its last block counts the rules.
    waits.truncate(usize::from(design[design.len() - BLOCK + 1]));
    Ok(waits)
}

/// The blocks of a converter file.
pub fn write(records: &[Record]) -> Result<Vec<u8>, Refused> {
    let mut blocks = vec![0; BLOCK * records.len().div_ceil(BLOCK_RECORDS)];
    gorzhani::write(&to_bytes(records), &mut blocks)?;
    Ok(blocks)
}

/// The records of a converter file.
pub fn read(blocks: &[u8]) -> Result<Vec<Record>, Refused> {
    let most = blocks.len().div_ceil(BLOCK) * BLOCK_RECORDS;
    let mut converter = vec![0; RECORD * most];
    let count = gorzhani::read(blocks, &mut converter)?;
    Ok(from_bytes(&converter[..RECORD * count]))
}

/// The blocks of formulas and of rules that a text makes, and how many rules it has.
pub fn rules(text: &str) -> Result<(Vec<u8>, usize), Refused> {
    let mut blocks = vec![0; RULE_BLOCKS];
    let count = gorzhani::rules(text.as_bytes(), &mut blocks)?;
    Ok((blocks, count))
}
