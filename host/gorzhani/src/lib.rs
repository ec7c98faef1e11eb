//! A safe wrapper over the proved library: what its C header asks of a caller (valid pointers, lengths that belong to them, buffers that do not overlap)
//! is kept here by slices. A refusal is an error with its number; [`verdict`] has it among its answers. What is lent may be longer than a call asks for; the
//! bytes behind stay as they are.
#![warn(missing_docs)]

mod refused;

pub use refused::Refused;

/// The bytes of a design that has no block for the third side, which is then one ticking state without labels.
pub const FOUR_BLOCKS: usize = 2048;
/// The bytes of a design that has a block for each of the three sides.
pub const FIVE_BLOCKS: usize = 2560;
/// The bytes of a converter record.
pub const RECORD: usize = 52;
/// The bytes of a block of a converter file.
pub const BLOCK: usize = 512;
/// The records in every block of a converter file but perhaps the last.
pub const BLOCK_RECORDS: usize = 9;
/// The bytes of work for each position of a search and each record that is judged.
pub const CELL: usize = 16;
/// The most positions of a design that is searched, and the most records of a converter.
pub const MOST: usize = 65_536;
/// The bytes of an entry in a list of ranges: side (0 to 2), state, least and greatest count of waits.
pub const ENTRY: usize = 4;
/// The most waits that an entry speaks of.
pub const MOST_WAITS: u8 = 15;
/// The greatest count of an entry whose state may wait for ever.
pub const NO_GREATEST: u8 = 255;
/// The bytes of the blocks that typed rules become: that of the formulas and that of the rules, the last two of a design.
pub const RULE_BLOCKS: usize = 1024;
/// The most formulas that a text of rules makes, and the most of a design.
pub const MOST_FORMULAS: usize = 64;
/// The most rules of a text, and of a design.
pub const MOST_RULES: usize = 16;
/// The most brackets of a typed rule, round and square ones, that may be open together.
pub const MOST_BRACKETS: usize = 32;
/// The number of the last name that rules are typed with: they are p0 to p47, the labels of the three sides.
pub const LAST_NAME: u8 = 47;
/// The wait of a rule that is no until. No until waits so long.
pub const NO_WAIT: u32 = u32::MAX;

/// The record that a runner stands at, and the events last delivered to the sides.
#[repr(C)]
#[derive(Clone, Copy, Debug, Default, PartialEq, Eq)]
pub struct Runner {
    /// The number of the record.
    pub record: u16,
    /// The event last delivered to the kernel.
    pub first: i8,
    /// The event last delivered to the host.
    pub second: i8,
    /// The event last delivered to the third side.
    pub third: i8,
}

/// What [`verdict`] says of a converter.
#[derive(Clone, Copy, Debug, PartialEq, Eq)]
pub enum Verdict {
    /// It is matched, and keeps every rule on every path.
    Yes,
    /// It is matched, and some rule fails: refusal 15, [`Refused::RULE`], with the place of the first that does, from 0 in the order of the rules.
    Fails(u8),
    /// It isn't judged or isn't matched: any other refusal.
    Refused(Refused),
}

extern "C" {
    fn gorzhani_positions(design: *const u8, design_len: usize) -> i32;
    fn gorzhani_search(
        design: *const u8,
        design_len: usize,
        table: *mut u8,
        table_len: usize,
        work: *mut u8,
        work_len: usize,
    ) -> i32;
    fn gorzhani_judge(
        design: *const u8,
        design_len: usize,
        converter: *const u8,
        converter_len: usize,
        work: *mut u8,
        work_len: usize,
        waits: *mut u32,
        waits_len: usize,
    ) -> i32;
    fn gorzhani_verdict(
        design: *const u8,
        design_len: usize,
        converter: *const u8,
        converter_len: usize,
        work: *mut u8,
        work_len: usize,
        rule: *mut u8,
    ) -> i32;
    fn gorzhani_write(
        converter: *const u8,
        converter_len: usize,
        blocks: *mut u8,
        blocks_len: usize,
    ) -> i32;
    fn gorzhani_read(
        blocks: *const u8,
        blocks_len: usize,
        converter: *mut u8,
        converter_len: usize,
    ) -> i32;
    fn gorzhani_tick(
        converter: *const u8,
        converter_len: usize,
        runner: *mut Runner,
        first: i8,
        second: i8,
        third: i8,
    ) -> i32;
    fn gorzhani_ranges(
        design: *const u8,
        design_len: usize,
        entries: *const u8,
        entries_len: usize,
        result: *mut u8,
        result_len: usize,
    ) -> i32;
    fn gorzhani_rules(text: *const u8, text_len: usize, blocks: *mut u8, blocks_len: usize) -> i32;
}

fn answer(code: i32) -> Result<usize, Refused> {
    match usize::try_from(code) {
        Ok(count) => Ok(count),
        Err(_) => Err(Refused(u8::try_from(-code).expect("a refusal's number is small"))),
    }
}

/// Counts the positions of a design, 1 to [`MOST`], by which its search is lent memory.
pub fn positions(design: &[u8]) -> Result<usize, Refused> {
    // SAFETY: a slice's pointer is valid for its length and not null; nothing is written.
    answer(unsafe { gorzhani_positions(design.as_ptr(), design.len()) })
}

/// Searches a converter for a design: lend [`RECORD`] bytes of table and [`CELL`] bytes of work for each of its positions. The count of records at the front
/// of the table, or the refusal, [`Refused::NO_CONVERTER`] where none exists.
pub fn search(design: &[u8], table: &mut [u8], work: &mut [u8]) -> Result<usize, Refused> {
    // SAFETY: as above, and two `&mut` and a `&` do not overlap, nor does anybody else write them.
    answer(unsafe {
        gorzhani_search(
            design.as_ptr(),
            design.len(),
            table.as_mut_ptr(),
            table.len(),
            work.as_mut_ptr(),
            work.len(),
        )
    })
}

/// Judges a converter against a design: lend [`CELL`] bytes of work for each record and a number of waits for each rule, of which there are at most
/// [`MOST_RULES`]. After a yes the number of a rule that is an until A(a U b) is the least number of ticks within which every path has reached b, and that of
/// any other rule is [`NO_WAIT`], also where an until stands inside it. After a refusal the waits are as they were.
pub fn judge(
    design: &[u8],
    converter: &[u8],
    work: &mut [u8],
    waits: &mut [u32],
) -> Result<(), Refused> {
    // SAFETY: as above; the design and the converter are only read, and a `&mut [u32]` is aligned.
    answer(unsafe {
        gorzhani_judge(
            design.as_ptr(),
            design.len(),
            converter.as_ptr(),
            converter.len(),
            work.as_mut_ptr(),
            work.len(),
            waits.as_mut_ptr(),
            waits.len(),
        )
    })
    .map(|_| ())
}

/// Says yes or no of a converter, as [`judge`] does, and which rule is to blame: lend [`CELL`] bytes of work for each record. Rules are tried in their order,
/// and none behind the first that fails.
pub fn verdict(design: &[u8], converter: &[u8], work: &mut [u8]) -> Verdict {
    let mut rule = 0;
    // SAFETY: as above; the rule is a byte of this function's own.
    let code = unsafe {
        gorzhani_verdict(
            design.as_ptr(),
            design.len(),
            converter.as_ptr(),
            converter.len(),
            work.as_mut_ptr(),
            work.len(),
            &mut rule,
        )
    };
    match answer(code) {
        Ok(_) => Verdict::Yes,
        Err(Refused::RULE) => Verdict::Fails(rule),
        Err(refused) => Verdict::Refused(refused),
    }
}

/// Writes a converter as blocks: lend [`BLOCK`] bytes for each [`BLOCK_RECORDS`] records or part of them. The count of blocks.
pub fn write(converter: &[u8], blocks: &mut [u8]) -> Result<usize, Refused> {
    // SAFETY: as above.
    answer(unsafe {
        gorzhani_write(converter.as_ptr(), converter.len(), blocks.as_mut_ptr(), blocks.len())
    })
}

/// Reads a converter from blocks: lend [`RECORD`] bytes for each record. The count of records.
pub fn read(blocks: &[u8], converter: &mut [u8]) -> Result<usize, Refused> {
    // SAFETY: as above.
    answer(unsafe {
        gorzhani_read(blocks.as_ptr(), blocks.len(), converter.as_mut_ptr(), converter.len())
    })
}

/// One tick of a converter: each side shows the event that it sends, or 0. Afterwards the runner holds the next record and the events to deliver.
pub fn tick(converter: &[u8], runner: &mut Runner, shown: [i8; 3]) -> Result<(), Refused> {
    let [first, second, third] = shown;
    // SAFETY: as above; `Runner` has the layout and the alignment of the header's struct.
    answer(unsafe {
        gorzhani_tick(converter.as_ptr(), converter.len(), runner, first, second, third)
    })
    .map(|_| ())
}

/// Replaces delayed states by states that count their waits, as a list of entries of [`ENTRY`] bytes says: lend as many bytes as the design has. The new design
/// stands at the front of the result.
pub fn ranges(design: &[u8], entries: &[u8], result: &mut [u8]) -> Result<(), Refused> {
    // SAFETY: as above; the design and the entries are only read.
    answer(unsafe {
        gorzhani_ranges(
            design.as_ptr(),
            design.len(),
            entries.as_ptr(),
            entries.len(),
            result.as_mut_ptr(),
            result.len(),
        )
    })
    .map(|_| ())
}

/// Reads rules as people type them, one a line and each line ended by a newline: lend [`RULE_BLOCKS`] bytes. The count of rules; the blocks of their formulas
/// and of the rules stand at the front, as at the end of a design. The C header says how rules are typed.
pub fn rules(text: &[u8], blocks: &mut [u8]) -> Result<usize, Refused> {
    // SAFETY: as above.
    answer(unsafe { gorzhani_rules(text.as_ptr(), text.len(), blocks.as_mut_ptr(), blocks.len()) })
}
