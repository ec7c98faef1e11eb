/* The quick verdict, over the C header alone: the paper's converter for the handshake pair of the README's example, as an editor colours it while rules and
 * records are changed. Prints what each call answered, and which rule fails. */
#include <stdio.h>
#include <string.h>

#include "gorzhani.h"

static uint8_t design[GORZHANI_FOUR_BLOCK_DESIGN_BYTES];

static void state(int side, int number, int label, int count, const int8_t *places) {
    uint8_t *at = design + 512 * side + 4 + 20 * number;
    at[0] = (uint8_t)(label & 255);
    at[1] = (uint8_t)(label >> 8);
    at[2] = (uint8_t)count;
    for (int k = 0; k < 2 * count; k++) at[4 + k] = (uint8_t)places[k];
}

static void seal(uint8_t *block, int kind, int count) {
    unsigned sum = 0;
    block[0] = (uint8_t)kind;
    block[1] = (uint8_t)count;
    for (int k = 0; k < 510; k++) sum += block[k];
    block[510] = (uint8_t)(sum & 255);
    block[511] = (uint8_t)(sum >> 8 & 255);
}

/* The handshake pair without rules. */
static void handshake(void) {
    const int8_t s0[] = {0, 0, -1, 1}, s1[] = {0, 1, -2, 0}, t0[] = {0, 0, 1, 1}, t1[] = {2, 0};
    state(0, 0, 1 << 0, 2, s0);
    state(0, 1, 1 << 1, 2, s1);
    state(1, 0, 1 << 2, 2, t0);
    state(1, 1, 1 << 3, 1, t1);
    for (int block = 0; block < 4; block++) seal(design + 512 * block, block + 1, block < 2 ? 2 : 0);
}

/* Reads typed rules to the end of the design. */
static int32_t type(const char *text) {
    return gorzhani_rules((const uint8_t *)text, strlen(text), design + sizeof design - GORZHANI_RULE_BLOCKS_BYTES, GORZHANI_RULE_BLOCKS_BYTES);
}

/* The paper's rules for the handshake pair. The fourth is printed otherwise than its words say. */
#define THREE_RULES \
    "AG (p0 & p18 -> AX (p1 | !p19))\n" \
    "AG (p19 & p1 -> AX (p0 | !p18))\n" \
    "AG (p1 & p18 -> AX (p19 | !p0))\n"
#define FOURTH_RULE "AG (p0 & p19 -> AX (!p1 | p18))\n"
#define FOURTH_AS_PRINTED "AG (p0 & p19 -> AX (!p1 | !p18))\n"

/* Asks for the verdict on a converter of three records, and prints it with the first rule that fails. */
static void colour(const char *what, const uint8_t *converter, size_t work_len) {
    uint8_t work[3 * GORZHANI_CELL_BYTES], rule = GORZHANI_MOST_RULES;
    int32_t answer = gorzhani_verdict(design, sizeof design, converter, 3 * GORZHANI_RECORD_BYTES, work, work_len, &rule);
    printf("%s: verdict %d, ", what, (int)answer);
    if (answer == -GORZHANI_REFUSED_RULE) printf("rule %d fails\n", rule);
    else printf("the rule is %s\n", rule == GORZHANI_MOST_RULES ? "as it was" : "another");
}

/* The converter is the paper's Figure 5. Of the last three rules, the second fails since s0 may wait for ever, and the third since t1 comes. */
int main(void) {
    uint8_t converter[3 * GORZHANI_RECORD_BYTES] = {
        0, 0, 0, 2, 1, 0, 0, 0, 1, 0, 0, 0, 0, 0, 0, 0,
        [GORZHANI_RECORD_BYTES] = 1, 0, 0, 2, 2, 255, 0, 0, 2, 0, 0, 0, 0, 0, 1, 0,
        [2 * GORZHANI_RECORD_BYTES] = 0, 1, 0, 2, 1, 254, 0, 0, 1, 0, 0, 254, 0, 0, 0, 0
    };
    const size_t enough = 3 * GORZHANI_CELL_BYTES;
    handshake();
    colour("no rules", converter, enough);
    type(THREE_RULES FOURTH_AS_PRINTED);
    colour("the fourth rule as printed", converter, enough);
    type(THREE_RULES FOURTH_RULE);
    colour("the fourth rule as its words say", converter, enough);
    type("p0\nAF p1\nAG p18\n");
    colour("two rules that fail", converter, enough);
    colour("short work", converter, enough - 1);
    converter[3] = 1;
    colour("a transition left out", converter, enough);
    return 0;
}
