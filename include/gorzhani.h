/* Gorzhani: converters between the tables of a kernel, a host and a third side, searched, judged and run. The functions are proved in Rattle for every input.
 *
 * The machine: x86-64 Linux, on a processor with SSE4.2 and popcnt (x86-64-v2), with the System V C calling convention. The archive needs memcpy and memset,
 * from the C library or of one's own, and nothing else. It allocates nothing, asks nothing of the system and keeps nothing from call to call: calls on other
 * buffers may run at the same time.
 *
 * What the caller owes, and C cannot state:
 * - each pointer is valid for its length, that to a rule for one byte, and not null, also where the length is 0;
 * - the runner's pointer is aligned as struct gorzhani_runner is, to 2 bytes, and the pointer to waits as uint32_t is, to 4; every other pointer may stand
 *   anywhere;
 * - what is written (table, work, waits, the rule of a verdict, the blocks of a write and of rules, the converter of a read, the runner, the result of ranges)
 *   overlaps no other buffer of the call; buffers that are only read may overlap;
 * - nobody else writes any of these buffers meanwhile, nor reads those that are written;
 * - the stack has room for the call (GORZHANI_SEARCH_STACK and the others below).
 * All else is proved: no call is undefined, whoever made the input, and each bad input gets its number.
 *
 * An answer below 0 is a refusal, the number negated: compare with -GORZHANI_REFUSED_NO_CONVERTER and the like. The first number that applies is answered,
 * in the order that stands at each call, each tried over the whole input. Any other answer is a count, or 0 for "yes" and "done".
 *
 * What is lent may be longer than needed; the bytes behind stay as they are. It may hold anything before the call, also bytes that were never written: a
 * search reads some of those and tests what they say, which a memory checker may report. After a yes, 14, 15, 16 or a converter found the work that was
 * needed is zero; any other refusal changes no lent byte. The list of waits changes with a yes alone, the rule of a verdict with 15 alone. */
#ifndef GORZHANI_H
#define GORZHANI_H

#include <stddef.h>
#include <stdint.h>

#ifdef __cplusplus
extern "C" {
#endif

/* A design has five blocks, of kinds 1 (the kernel), 2 (the host), 6 (the third side), 3 (formulas) and 4 (rules), or four where the third side has no
 * block: it is then one ticking state without labels. Formulas name the kernel's labels as 0 to 15, the host's as 16 to 31 and the third side's as 32 to 47,
 * of which none holds in a design of four blocks. Where a runner or a tick says first, second and third, these are the kernel, the host and the third side. */

/* Sizes in bytes, and the records of a block. */
enum {
    GORZHANI_FOUR_BLOCK_DESIGN_BYTES = 2048,
    GORZHANI_FIVE_BLOCK_DESIGN_BYTES = 2560,
    GORZHANI_RECORD_BYTES = 52,
    GORZHANI_BLOCK_BYTES = 512,
    GORZHANI_BLOCK_RECORDS = 9,
    /* work: so many a position (search) or a record (judge, verdict) */
    GORZHANI_CELL_BYTES = 16,
    /* an entry in a list of ranges */
    GORZHANI_ENTRY_BYTES = 4,
    /* the last two blocks of a design, which typed rules become */
    GORZHANI_RULE_BLOCKS_BYTES = 1024
};

/* The most that there may be. A table and a work of the sizes given here are enough for every design that isn't refused with 9, and the work for every
 * converter that is judged; the blocks are enough for every converter that is written, and the table for every one that is read. */
enum {
    GORZHANI_MOST_POSITIONS = 65536,
    GORZHANI_MOST_RECORDS = 65536,
    GORZHANI_MOST_BLOCKS = 7282,
    GORZHANI_MOST_TABLE_BYTES = 3407872,
    GORZHANI_MOST_WORK_BYTES = 1048576,
    GORZHANI_MOST_BLOCKS_BYTES = 3728384
};

/* The bytes of stack that a call takes at the most, its return address and those arguments included that are passed there (the last two of the judge, the last
 * of the verdict), rounded up to whole KiB: the archive's frames add up to no more on any way through it, and host/gorzhani/tests/stack.rs measures calls. Of
 * memcpy and memset only the return address is counted, since the C library's take no more. Where a program finds one of them at its first call alone (lazy
 * binding), its loader takes about 3 KiB beside at that call. */
enum {
    GORZHANI_POSITIONS_STACK = 1024,
    GORZHANI_SEARCH_STACK = 8192,
    GORZHANI_JUDGE_STACK = 1024,
    GORZHANI_VERDICT_STACK = 1024,
    GORZHANI_WRITE_STACK = 1024,
    GORZHANI_READ_STACK = 1024,
    GORZHANI_TICK_STACK = 1024,
    GORZHANI_RANGES_STACK = 1024,
    GORZHANI_RULES_STACK = 24576
};

/* The numbers of the refusals; an answer is their negation. */
enum {
    /* a design isn't 2,048 or 2,560 bytes, or a converter file is empty, no multiple of 512 or over 7,282 blocks */
    GORZHANI_REFUSED_LENGTH = 1,
    /* a block's check is wrong */
    GORZHANI_REFUSED_CHECK = 2,
    /* a block's kind or first record is wrong */
    GORZHANI_REFUSED_HEADER = 3,
    /* a block's record count is outside its limits, or a converter file has over 65,536 records */
    GORZHANI_REFUSED_COUNT = 4,
    /* a state has no transition or over 8, an event outside -63 to 63 or twice, or a target that isn't a state */
    GORZHANI_REFUSED_TRANSITIONS = 5,
    /* a state is neither input, output-only nor delayed */
    GORZHANI_REFUSED_STATE_KIND = 6,
    /* a formula has an unknown kind, an operand not lower or a proposition over 47, or a rule names no formula */
    GORZHANI_REFUSED_FORMULA = 7,
    /* an unused byte outside converter records isn't zero */
    GORZHANI_REFUSED_UNUSED_BYTE = 8,
    /* a design has over 65,536 positions */
    GORZHANI_REFUSED_POSITIONS = 9,
    /* a converter in memory is empty, no multiple of 52 or over 65,536 records */
    GORZHANI_REFUSED_CONVERTER_LENGTH = 10,
    /* a converter record has a side state over 15, a count outside 1 to 8, an event outside -63 to 63, an event triple twice, a next record that isn't there,
     * or an unused byte that isn't zero */
    GORZHANI_REFUSED_RECORD = 11,
    /* the lent result is too short; of a judge it is the list of waits */
    GORZHANI_REFUSED_SHORT_RESULT = 12,
    /* the lent work is too short */
    GORZHANI_REFUSED_SHORT_WORK = 13,
    /* the converter isn't matched to the sides */
    GORZHANI_REFUSED_UNMATCHED = 14,
    /* some rule doesn't hold; a verdict tells the first */
    GORZHANI_REFUSED_RULE = 15,
    /* no converter exists, of any size */
    GORZHANI_REFUSED_NO_CONVERTER = 16,
    /* the runner's record isn't there, a shown event is above 0 or below -63, or no transition fits */
    GORZHANI_REFUSED_TICK = 17,
    /* a text isn't of the grammar of rules, has a line without a rule or no newline at its end, or has over 32 brackets open together */
    GORZHANI_REFUSED_TEXT = 19,
    /* a typed rule says "some path" (EX, EG, EF, E [ f U g ]), or has a temporal part under `!` or left of `->` */
    GORZHANI_REFUSED_SOME_PATH = 20,
    /* a text makes over 64 formulas or over 16 rules */
    GORZHANI_REFUSED_TOO_MANY_FORMULAS = 21,
    /* a list of ranges is no multiple of 4 bytes, or an entry of it has a side over 2, a state that isn't there or isn't delayed with its tick to itself, a
     * count over 15 that isn't 255 as the greatest, a least count above the greatest, or a state named before */
    GORZHANI_REFUSED_RANGES = 22,
    /* a side has over 16 states after replacement */
    GORZHANI_REFUSED_TOO_MANY_STATES = 23
};

/* Counts the positions of a design, by which its search is lent memory. Answers the count, 1 to 65,536, or refuses with 1 to 9. */
int32_t gorzhani_positions(const uint8_t *design, size_t design_len);

/* Searches a converter for a design: lend 52 bytes of table and 16 of work for each position. Answers the number of records, 52 bytes each, that stand at
 * the front of the table, or refuses with 1 to 9, 12, 13, or 16 where no converter of any size exists. */
int32_t gorzhani_search(const uint8_t *design, size_t design_len, uint8_t *table, size_t table_len, uint8_t *work, size_t work_len);

/* The wait of a rule that is no until. No until waits so long. */
#define GORZHANI_NO_WAIT UINT32_C(4294967295)

/* Judges a converter against a design: lend 16 bytes of work for each record and a number of waits for each rule (GORZHANI_MOST_RULES are enough for every
 * design). Answers 0 where the converter is matched and keeps every rule on every path. For each rule, in their order, waits then has a number. Where the rule
 * is an until A(a U b), of kind 8, it is the least number of ticks within which every path has reached b: 0 where b holds at the start, and never above the
 * number of records less one. For a rule of another kind it is GORZHANI_NO_WAIT, also where an until stands inside it. waits_len counts numbers, not bytes;
 * those behind the rules' stay as they are. Refuses with 1 to 8, 10 to 15; all of waits is then as it was. */
int32_t gorzhani_judge(const uint8_t *design, size_t design_len, const uint8_t *converter, size_t converter_len, uint8_t *work, size_t work_len,
                       uint32_t *waits, size_t waits_len);

/* Says yes or no of a converter, as the judge does, and which rule is to blame, for an editor that colours a converter while it is drawn: lend 16 bytes of work
 * for each record, and a byte for the rule. Rules are tried in their order, and none behind the first that fails; how long they wait isn't told. Answers 0
 * where the converter is matched and keeps every rule on every path, or refuses with 1 to 8, 10, 11, 13 to 15. With 15, and with no other answer, *rule becomes
 * the place of the first rule that fails, from 0 in the order of the rules; it isn't the number of its formula. */
int32_t gorzhani_verdict(const uint8_t *design, size_t design_len, const uint8_t *converter, size_t converter_len, uint8_t *work, size_t work_len,
                         uint8_t *rule);

/* Writes a converter as blocks of 9 records: lend 512 bytes for each 9 records or part of them. Answers the number of blocks, or refuses with 10 to 12. */
int32_t gorzhani_write(const uint8_t *converter, size_t converter_len, uint8_t *blocks, size_t blocks_len);

/* Reads a converter from blocks: lend 52 bytes for each record. Answers the number of records, or refuses with 1 to 4, 8, 11, 12. */
int32_t gorzhani_read(const uint8_t *blocks, size_t blocks_len, uint8_t *converter, size_t converter_len);

/* The record that a runner stands at and the events last delivered; all zero before the first tick. Of the byte of padding behind them nothing is said. */
struct gorzhani_runner {
    uint16_t record;
    int8_t first, second, third;
};

/* One tick: each side shows the event that it sends, or 0. Afterwards the runner holds the next record and the events to deliver. Answers 0, or refuses with
 * 10, 11, 17; the runner is then as it was. Only the record that the runner stands at is tried for 11. */
int32_t gorzhani_tick(const uint8_t *converter, size_t converter_len, struct gorzhani_runner *runner, int8_t first, int8_t second, int8_t third);

/* The counts of an entry in a list of ranges: 0 to 15, or 255 for no greatest. */
enum {
    GORZHANI_MOST_WAITS = 15,
    GORZHANI_NO_GREATEST = 255
};

/* Replaces delayed states by states that count their waits: lend as many bytes of result as the design has, which become the new design. Each entry has
 * four bytes and gives, for one delayed state whose tick leads to itself, how often it waits: side (0 the kernel, 1 the host, 2 the third side), state, least
 * and greatest count. Below the least the new states only tick, from the least on they send or tick, at the greatest they only send; without a greatest the
 * one at the least keeps its tick to itself. Count 0 keeps the state's number; the later counts stand behind the side's last state, in the order of the entries
 * and of the counts, with the same labels. An empty list copies the design. Answers 0, or refuses with 1 to 8, 22, 23, 12. */
int32_t gorzhani_ranges(const uint8_t *design, size_t design_len, const uint8_t *entries, size_t entries_len, uint8_t *result, size_t result_len);

/* The most that a text of rules may make and may have open, and the last of its names, which begin with p0. A design has no more formulas nor rules either. */
enum {
    GORZHANI_MOST_FORMULAS = 64,
    GORZHANI_MOST_RULES = 16,
    GORZHANI_MOST_BRACKETS = 32,
    GORZHANI_LAST_NAME = 47
};

/* Reads rules as people type them: lend 1,024 bytes, which become the blocks of kinds 3 (formulas) and 4 (rules), as they stand at the end of a design. Each
 * line is a rule in the manner of NuSMV and ends with a newline; an empty text has no rules. There are the names p0 to p47, TRUE and FALSE. `!`, AX, AG, AF
 * and A [ f U g ] bind closest, then `&`, then `|`, both grouping to the left, then `->`, which groups to the right; round brackets hold any rule, and so do
 * both places of A [ f U g ]. Up to 32 brackets may be open together, round and square ones. Spaces, and no other blanks, may stand around words and signs;
 * letters and digits that touch are one word. `!` and the left of `->` are pushed down to the names. What is left is a formula for each name, constant and
 * connective, none shared, the left operand's first and each behind its operands; AF makes two, true before its operand's and an until behind them, and `->` an
 * or, where it is denied an and. The last formula of a line is its rule. Answers the number of rules, 0 to 16, or refuses with 19, 20, 21, 12. A text may be as
 * long as one likes: the call takes at most 24,576 bytes of stack (GORZHANI_RULES_STACK), whatever is repeated in it. */
int32_t gorzhani_rules(const uint8_t *text, size_t text_len, uint8_t *blocks, size_t blocks_len);

#ifdef __cplusplus
}
#endif

#endif
