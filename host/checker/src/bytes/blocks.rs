//! Converter files: blocks of kind 5, full of records but perhaps for the last.

use super::{
    blank, headed, read_converter_memory, read_record, seal, sealed, word, BLOCK_BYTES,
    BLOCK_RECORDS, CHECKED_BYTES, HEADER_BYTES, MOST_BLOCKS, MOST_RECORDS, RECORD_BYTES,
};
use crate::refusal::{self, demand};

/// The kind of a converter block.
const CONVERTER_KIND: u8 = 5;

/// Writes a converter's blocks to the front of `lent` and answers how many,
/// or declines with 10 to 12 and changes nothing.
pub fn write_blocks(converter: &[u8], lent: &mut [u8]) -> Result<usize, u8> {
    read_converter_memory(converter)?;
    let parts: Vec<&[u8]> = converter.chunks(BLOCK_RECORDS * RECORD_BYTES).collect();
    demand(lent.len() >= BLOCK_BYTES * parts.len(), refusal::RESULT)?;
    for ((number, part), place) in parts.iter().enumerate().zip(lent.chunks_mut(BLOCK_BYTES)) {
        let mut block = headed(CONVERTER_KIND, part.len() / RECORD_BYTES, BLOCK_RECORDS * number);
        block[HEADER_BYTES..][..part.len()].copy_from_slice(part);
        seal(&mut block);
        place.copy_from_slice(&block);
    }
    Ok(parts.len())
}

/// Reads a converter file's records to the front of `lent` and answers how
/// many, or declines with 1 to 4, 8, 11 or 12 and changes nothing.
pub fn read_blocks(file: &[u8], lent: &mut [u8]) -> Result<usize, u8> {
    let blocks: Vec<&[u8]> = file.chunks(BLOCK_BYTES).collect();
    let whole = file.len().is_multiple_of(BLOCK_BYTES) && (1..=MOST_BLOCKS).contains(&blocks.len());
    demand(whole, refusal::LENGTH)?;
    demand(blocks.iter().all(|block| sealed(block)), refusal::CHECK)?;
    let headers = blocks.iter().enumerate().all(|(number, block)| {
        block[0] == CONVERTER_KIND && usize::from(word(block, 2)) == BLOCK_RECORDS * number
    });
    demand(headers, refusal::HEADER)?;

    let counts: Vec<usize> = blocks.iter().map(|block| usize::from(block[1])).collect();
    let (last, full) = counts.split_last().expect("the file isn't empty");
    let records: usize = counts.iter().sum();
    let counted = (1..=BLOCK_RECORDS).contains(last)
        && full.iter().all(|&count| count == BLOCK_RECORDS)
        && records <= MOST_RECORDS;
    demand(counted, refusal::COUNT)?;

    let tails = blocks
        .iter()
        .zip(&counts)
        .all(|(block, &count)| blank(&block[HEADER_BYTES + RECORD_BYTES * count..CHECKED_BYTES]));
    demand(tails, refusal::UNUSED)?;
    let parts = blocks
        .iter()
        .zip(&counts)
        .flat_map(|(block, &count)| block[HEADER_BYTES..].chunks(RECORD_BYTES).take(count));
    let parts: Vec<&[u8]> = parts.collect();
    for part in &parts {
        read_record(part, records)?;
    }
    demand(lent.len() >= RECORD_BYTES * records, refusal::RESULT)?;
    for (place, part) in lent.chunks_mut(RECORD_BYTES).zip(&parts) {
        place.copy_from_slice(part);
    }
    Ok(records)
}
