/* From a design to ticks, over the C header alone: the handshake pair of the README's example with no rules, then three sides of one state each. Then rules
 * over labels, each of which belongs to one side, the handshake pair with a wait that is known by range, and its rules as people type them. Prints what each
 * call answered, and how long the rules of the handshake pair wait. */
#include <stdio.h>
#include <stdlib.h>
#include <string.h>

#include "gorzhani.h"

_Static_assert(sizeof(struct gorzhani_runner) == 6 && _Alignof(struct gorzhani_runner) == 2, "a runner has 6 bytes and is aligned to 2");

static uint8_t design[GORZHANI_FIVE_BLOCK_DESIGN_BYTES];
static size_t design_len;

/* Begins a design with blocks for two sides or for three. */
static void begin(int sides) {
    memset(design, 0, sizeof design);
    design_len = sides == 3 ? GORZHANI_FIVE_BLOCK_DESIGN_BYTES : GORZHANI_FOUR_BLOCK_DESIGN_BYTES;
}

static void state(int side, int number, int label, int count, const int8_t *places) {
    uint8_t *at = design + 512 * side + 4 + 20 * number;
    at[0] = (uint8_t)(label & 255);
    at[1] = (uint8_t)(label >> 8);
    at[2] = (uint8_t)count;
    for (int k = 0; k < 2 * count; k++) at[4 + k] = (uint8_t)places[k];
}

static void seal(uint8_t *block, int kind, int count) {
    unsigned sum = 0;
    block[0] = (uint8_t)kind;
    block[1] = (uint8_t)count;
    for (int k = 0; k < 510; k++) sum += block[k];
    block[510] = (uint8_t)(sum & 255);
    block[511] = (uint8_t)(sum >> 8 & 255);
}

/* Ends a design: so many states on each side, so many formulas, so many rules. */
static void end(int states, int formulas, int rules) {
    static const int side_kinds[] = {1, 2, 6};
    uint8_t *behind = design + design_len - 1024;
    for (int side = 0; design + 512 * side < behind; side++) seal(design + 512 * side, side_kinds[side], states);
    seal(behind, 3, formulas);
    seal(behind + 512, 4, rules);
}

static uint8_t *lend(size_t size) {
    uint8_t *bytes = malloc(size);
    if (bytes == NULL) exit(1);
    return bytes;
}

/* Whether a call declined with this number. */
static const char *declined(int32_t answer, int number) {
    return answer == -number ? "refused" : "another answer";
}

/* What a search answered. */
static const char *found(int32_t records) {
    return records > 0 ? "found" : records == -GORZHANI_REFUSED_NO_CONVERTER ? "found that none exists" : "refused";
}

/* Sides that only tick, to and fro. State 0 of the kernel has label 3, and so have state 1 of the host and state 0 of the third side. The one rule is
 * formula 0: a proposition holds. */
static void ruled_by(int sides, int proposition) {
    const int8_t to_0[] = {0, 0}, to_1[] = {0, 1};
    begin(sides);
    for (int side = 0; side < sides; side++) {
        state(side, 0, side == 1 ? 0 : 1 << 3, 1, to_1);
        state(side, 1, side == 1 ? 1 << 3 : 0, 1, to_0);
    }
    uint8_t *formula = design + design_len - 1024 + 4;
    formula[0] = 3;
    formula[1] = (uint8_t)proposition;
    end(2, 1, 1);
}

/* Judges a converter of two records, in which all sides tick on, and searches one. There are 8 positions with two sides and 16 with three. */
static void ask(int sides, int proposition) {
    static uint8_t table[16 * GORZHANI_RECORD_BYTES], work[16 * GORZHANI_CELL_BYTES];
    uint8_t converter[2 * GORZHANI_RECORD_BYTES] = {0, 0, 0, 1, 0, 0, 0, 0, 1, 0, [GORZHANI_RECORD_BYTES] = 1, 1, 0, 1};
    uint32_t wait;
    converter[GORZHANI_RECORD_BYTES + 2] = sides == 3;
    ruled_by(sides, proposition);
    int32_t judged = gorzhani_judge(design, design_len, converter, sizeof converter, work, sizeof work, &wait, 1);
    int32_t records = gorzhani_search(design, design_len, table, sizeof table, work, sizeof work);
    printf("proposition %d of %d sides: judge %d, search %s\n", proposition, sides, (int)judged, found(records));
}

/* Begins a design with the sides of the handshake pair. */
static void handshake(void) {
    const int8_t s0[] = {0, 0, -1, 1}, s1[] = {0, 1, -2, 0}, t0[] = {0, 0, 1, 1}, t1[] = {2, 0};
    begin(2);
    state(0, 0, 1 << 0, 2, s0);
    state(0, 1, 1 << 1, 2, s1);
    state(1, 0, 1 << 2, 2, t0);
    state(1, 1, 1 << 3, 1, t1);
}

/* Searches a converter for a design of at most 1,024 positions and judges it. Prints how long each rule waits at the most, and what comes of a list that is
 * one number too short. */
static void search_and_judge(const char *what, const uint8_t *searched) {
    static uint8_t table[1024 * GORZHANI_RECORD_BYTES], work[1024 * GORZHANI_CELL_BYTES];
    uint32_t list[GORZHANI_MOST_RULES], unchanged[GORZHANI_MOST_RULES];
    int32_t positions = gorzhani_positions(searched, design_len);
    int32_t records = gorzhani_search(searched, design_len, table, sizeof table, work, sizeof work);
    printf("%s: positions %d, search %s\n", what, (int)positions, found(records));
    if (records <= 0) return;
    size_t size = GORZHANI_RECORD_BYTES * (size_t)records, rules = searched[design_len - GORZHANI_BLOCK_BYTES + 1];
    printf("judge %d, waits", (int)gorzhani_judge(searched, design_len, table, size, work, sizeof work, list, rules));
    for (size_t rule = 0; rule < rules; rule++) {
        if (list[rule] == GORZHANI_NO_WAIT) printf(" none");
        else printf(" %u", (unsigned)list[rule]);
    }
    memset(list, 7, sizeof list);
    memcpy(unchanged, list, sizeof list);
    int32_t answer = gorzhani_judge(searched, design_len, table, size, work, sizeof work, list, rules - 1);
    printf("\nshort waits: %s, %s\n", declined(answer, GORZHANI_REFUSED_SHORT_RESULT),
           memcmp(list, unchanged, sizeof list) == 0 ? "the list is as it was" : "the list is another");
}

/* The handshake pair with the rule A(true U 1): s1 is to come. No converter exists, since s0 may wait for ever; where it waits twice at the most, one does, and
 * s1 comes in three ticks at the most. */
static void waits(void) {
    static uint8_t patient[GORZHANI_FIVE_BLOCK_DESIGN_BYTES];
    const uint8_t formulas[] = {1, 0, 0, 0, 3, 1, 0, 0, 8, 0, 1, 0}, until = 2;
    const uint8_t twice[] = {0, 0, 0, 2}, above[] = {0, 0, 3, 2}, too_many[] = {0, 0, 15, GORZHANI_NO_GREATEST};
    handshake();
    memcpy(design + design_len - 1024 + 4, formulas, sizeof formulas);
    design[design_len - 512 + 4] = until;
    end(2, 3, 1);
    search_and_judge("s0 waits for ever", design);
    int32_t answer = gorzhani_ranges(design, design_len, twice, sizeof twice, patient, sizeof patient);
    printf("ranges %d, states %d\n", (int)answer, patient[1]);
    search_and_judge("s0 waits at most twice", patient);
    printf("least above greatest: %s\n",
           declined(gorzhani_ranges(design, design_len, above, sizeof above, patient, sizeof patient), GORZHANI_REFUSED_RANGES));
    printf("too many states: %s\n",
           declined(gorzhani_ranges(design, design_len, too_many, sizeof too_many, patient, sizeof patient), GORZHANI_REFUSED_TOO_MANY_STATES));
    printf("short result: %s\n",
           declined(gorzhani_ranges(design, design_len, twice, sizeof twice, patient, design_len - 1), GORZHANI_REFUSED_SHORT_RESULT));
}

/* Reads typed rules to the end of the design. */
static int32_t type(const char *text) {
    return gorzhani_rules((const uint8_t *)text, strlen(text), design + design_len - GORZHANI_RULE_BLOCKS_BYTES, GORZHANI_RULE_BLOCKS_BYTES);
}

/* The handshake pair with the rule that `waits` has by its bytes, then with its four rules, then texts that are refused. */
static void typed(void) {
    static const char four_rules[] = "AG (p0 & p18 -> AX (p1 | !p19))\n"
                                     "AG (p19 & p1 -> AX (p0 | !p18))\n"
                                     "AG (p1 & p18 -> AX (p19 | !p0))\n"
                                     "AG (p0 & p19 -> AX (!p1 | p18))\n";
    static uint8_t by_bytes[GORZHANI_FIVE_BLOCK_DESIGN_BYTES];
    char too_many[3 * (GORZHANI_MOST_RULES + 1) + 1] = "";
    memcpy(by_bytes, design, design_len);
    memset(design + design_len - GORZHANI_RULE_BLOCKS_BYTES, 255, GORZHANI_RULE_BLOCKS_BYTES);
    int32_t rules = type("AF p1\n");
    printf("typed: rules %d, %s\n", (int)rules, memcmp(by_bytes, design, design_len) == 0 ? "the same design" : "another design");

    rules = type(four_rules);
    const uint8_t *formulas = design + design_len - GORZHANI_RULE_BLOCKS_BYTES, *last = formulas + GORZHANI_BLOCK_BYTES + 4 + rules - 1;
    printf("typed: rules %d, formulas %d, the last rule is formula %d, of kind %d\n", (int)rules, formulas[1], *last, formulas[4 + 4 * *last]);
    search_and_judge("four typed rules", design);

    for (int rule = 0; rule <= GORZHANI_MOST_RULES; rule++) strcat(too_many, "p0\n");
    printf("a word that isn't one: %s\n", declined(type("AXp0\n"), GORZHANI_REFUSED_TEXT));
    printf("no newline: %s\n", declined(type("p0"), GORZHANI_REFUSED_TEXT));
    printf("some path: %s\n", declined(type("EX p0\n"), GORZHANI_REFUSED_SOME_PATH));
    printf("a temporal part denied: %s\n", declined(type("AX p0 -> p1\n"), GORZHANI_REFUSED_SOME_PATH));
    printf("too many rules: %s\n", declined(type(too_many), GORZHANI_REFUSED_TOO_MANY_FORMULAS));
    printf("short blocks: %s\n",
           declined(gorzhani_rules((const uint8_t *)"", 0, by_bytes, GORZHANI_RULE_BLOCKS_BYTES - 1), GORZHANI_REFUSED_SHORT_RESULT));
    printf("refusals left the rules %s\n", design[design_len - GORZHANI_BLOCK_BYTES + 1] == 4 ? "as they were" : "changed");
    printf("no rules: %d\n", (int)type(""));
}

/* A kernel that ticks or sends 1, a host that reads 1 or 2, and a third side that ticks or sends 3: one position, and a transition for each of four choices. */
static void three_sides(void) {
    static uint8_t table[GORZHANI_RECORD_BYTES], work[GORZHANI_CELL_BYTES];
    const int8_t kernel[] = {0, 0, -1, 0}, host[] = {1, 0, 2, 0}, third[] = {0, 0, -3, 0};
    begin(3);
    state(0, 0, 0, 2, kernel);
    state(1, 0, 0, 2, host);
    state(2, 0, 0, 2, third);
    end(1, 0, 0);
    printf("three sides: positions %d\n", (int)gorzhani_positions(design, design_len));
    int32_t records = gorzhani_search(design, design_len, table, sizeof table, work, sizeof work);
    printf("three sides: search %s, transitions %d\n", found(records), table[3]);
    if (records != 1) return;
    for (int choice = 0; choice < 4; choice++) {
        struct gorzhani_runner runner = {0, 0, 0, 0};
        int8_t first = choice & 1 ? -1 : 0, last = choice & 2 ? -3 : 0;
        int32_t answer = gorzhani_tick(table, sizeof table, &runner, first, 0, last);
        printf("tick %d with %d and %d shown: delivered %d and %d, the host reads %s\n", (int)answer, first, last, runner.first, runner.third,
               runner.second > 0 ? "something" : "nothing");
    }
}

int main(void) {
    handshake();
    end(2, 0, 0);

    int32_t positions = gorzhani_positions(design, design_len);
    printf("positions %d\n", (int)positions);
    if (positions <= 0) return 1;
    size_t table_len = GORZHANI_RECORD_BYTES * (size_t)positions, work_len = GORZHANI_CELL_BYTES * (size_t)positions;
    uint8_t *table = lend(table_len), *work = lend(work_len);

    int32_t records = gorzhani_search(design, design_len, table, table_len, work, work_len);
    printf("search %s\n", found(records));
    if (records <= 0) return 1;
    size_t size = GORZHANI_RECORD_BYTES * (size_t)records;
    /* There are no rules, and so no waits; the pointer isn't null all the same. */
    uint32_t none;
    printf("judge %d\n", (int)gorzhani_judge(design, design_len, table, size, work, work_len, &none, 0));

    size_t blocks_len = GORZHANI_BLOCK_BYTES * (((size_t)records + GORZHANI_BLOCK_RECORDS - 1) / GORZHANI_BLOCK_RECORDS);
    uint8_t *blocks = lend(blocks_len), *again = lend(size);
    printf("write %d\n", (int)gorzhani_write(table, size, blocks, blocks_len));
    int32_t back = gorzhani_read(blocks, blocks_len, again, size);
    printf("read %s\n", back == records && memcmp(table, again, size) == 0 ? "the same" : "another");

    /* The kernel waits, sends 1, waits, sends 2; the host only reads. */
    struct gorzhani_runner runner = {0, 0, 0, 0};
    const int8_t shown[] = {0, -1, 0, -2};
    for (size_t k = 0; k < sizeof shown; k++) printf("tick %d\n", (int)gorzhani_tick(table, size, &runner, shown[k], 0, 0));

    printf("tick out of turn: %s\n", declined(gorzhani_tick(table, size, &runner, -9, 0, 0), GORZHANI_REFUSED_TICK));
    printf("third side out of turn: %s\n", declined(gorzhani_tick(table, size, &runner, 0, 0, -9), GORZHANI_REFUSED_TICK));
    printf("short design: %s\n", declined(gorzhani_positions(design, design_len - 1), GORZHANI_REFUSED_LENGTH));
    printf("short table: %s\n", declined(gorzhani_search(design, design_len, table, table_len - 1, work, work_len), GORZHANI_REFUSED_SHORT_RESULT));
    free(again);
    free(blocks);
    free(work);
    free(table);

    three_sides();

    /* The kernel's label 3, the host's and the third side's, and one that no side has. A third side without a block has no labels. */
    ask(2, 3);
    ask(2, 16 + 3);
    ask(2, 2 * 16 + 3);
    ask(3, 2 * 16 + 3);
    ask(3, 3 * 16);

    waits();
    typed();
    return 0;
}
