/*
 * Chooses a preferred parent among three neighbours, and shows the container to send on. To build it:
 *
 *     (cd crates/gardhnosk && rt lib)
 *     gcc -std=c99 -Iinclude examples/choose.c crates/gardhnosk/out/libgardhnosk.a -o choose
 */
#include <stdio.h>

#include "gardhnosk.h"

/* The containers as received, one behind another: each has the ETX to the root so far, times 128, as an aggregated metric. */
static const uint8_t received[] = {
    0x02, 0x06, 0x07, 0x00, 0x00, 0x02, 0x01, 0xC9, /* neighbour 0: ETX 3.57 */
    0x02, 0x0C, 0x07, 0x00, 0x00, 0x02, 0x01, 0x00, /* neighbour 1: ETX 2, and */
    0x02, 0x02, 0x00, 0x02, 0x08, 0x00,             /*   only through nodes on mains */
    0x02, 0x0B, 0x07, 0x00, 0x00, 0x02, 0x01, 0x80, /* neighbour 2: ETX 3, and */
    0xC8, 0x00, 0x80, 0x01, 0xAA,                   /*   a recorded metric that this release does not know */
};

/* A neighbour with a link of a known ETX, and where its container stands among those received. */
static gardhnosk_candidate candidate(uint16_t rank, uint8_t nodetype, uint16_t etx, size_t start, size_t size)
{
    gardhnosk_candidate c = {{0, 0, 0, 0, 0, 0, 0, 0, 0, 0, 0, 0, 0, 0}, 0, 0};
    c.neighbour.rank = rank;
    c.neighbour.sp = 3; /* RFC 6552's default: one hop is three units */
    c.neighbour.rf = 1;
    c.neighbour.nodetype = nodetype;
    c.neighbour.etx = etx;
    c.neighbour.flags = GARDHNOSK_ETX_KNOWN;
    c.start = start;
    c.size = size;
    return c;
}

/* Prints a number and its words. */
static void print_number(unsigned number)
{
    uint8_t words[GARDHNOSK_MEANING_ROOM];
    size_t size = gardhnosk_meaning((uint8_t)number, words, sizeof words);
    printf("%u, %.*s\n", number, (int)size, (const char *)words);
}

static void print_answer(const gardhnosk_answer *answer, size_t count, const uint8_t *container)
{
    for (size_t i = 0; i < count; i++) {
        printf("neighbour %u: ", (unsigned)i);
        print_number(answer->verdicts[i]);
    }
    if (answer->parent == GARDHNOSK_NO_PARENT) {
        printf("no parent\n");
        return;
    }
    printf("parent: neighbour %u, rank %u\n", answer->parent, answer->rank);
    if (answer->leaf != GARDHNOSK_NONE) {
        printf("as a leaf: ");
        print_number(answer->leaf);
        return;
    }
    printf("to send on:");
    for (size_t i = 0; i < answer->size; i++) printf(" %02X", container[i]);
    printf("\n");
}

int main(void)
{
    /* MinHopRankIncrease 256, no limit, on a battery at 70 percent, no current parent, edition 1 */
    gardhnosk_own own = {256, 0, 0, 1, GARDHNOSK_ENERGY_KNOWN, 70, 0, 1};
    gardhnosk_candidates neighbours;
    size_t count = 3;
    uint8_t container[GARDHNOSK_OUTPUT_ROOM];

    neighbours.at[0] = candidate(1024, 0, 160, 0, 8);
    neighbours.at[1] = candidate(512, 1, 128, 8, 14);
    neighbours.at[2] = candidate(768, 1, 192, 22, 13);
    for (size_t i = count; i < GARDHNOSK_CANDIDATES; i++) neighbours.at[i] = candidate(0, 0, 0, 0, 0);

    gardhnosk_answer answer =
        gardhnosk_choose(own, neighbours, count, received, sizeof received, container, sizeof container);
    if (answer.refusal != GARDHNOSK_NONE) {
        printf("refused: ");
        print_number(answer.refusal);
        return 1;
    }
    print_answer(&answer, count, container);
    return 0;
}
