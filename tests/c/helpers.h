/* For checks.c: a call that is built up field by field, what is observed of its answer, and comparisons that print what differed. */
#ifndef HELPERS_H
#define HELPERS_H

#include <stdio.h>
#include <stdlib.h>
#include <string.h>

#include "gardhnosk.h"

#define LENGTH(array) (sizeof(array) / sizeof((array)[0]))

static unsigned checked, failed;

/* Compares two numbers; name and detail say of what. */
static void same(const char *name, const char *detail, unsigned long found, unsigned long wanted)
{
    checked++;
    if (found == wanted) return;
    failed++;
    printf("%s, %s: %lu instead of %lu\n", name, detail, found, wanted);
}

/* Compares a text with its wanted one. */
static void same_text(const char *name, const uint8_t *found, size_t size, const char *wanted)
{
    checked++;
    if (size == strlen(wanted) && memcmp(found, wanted, size) == 0) return;
    failed++;
    printf("%s: \"%.*s\" instead of \"%s\"\n", name, size < 2000 ? (int)size : 0, (const char *)found, wanted);
}

/* The arguments of a call, its answer, and the bytes that it wrote. */
typedef struct {
    gardhnosk_own own;
    gardhnosk_candidates candidates;
    size_t count;
    uint8_t lent[600];
    size_t lent_size;
    uint8_t out[GARDHNOSK_OUTPUT_ROOM + 44];
    size_t out_size;
    gardhnosk_answer answer;
} call_t;

/* The byte behind one of a text in hexadecimal. */
static const char *next_byte(const char *hex)
{
    return hex + (hex[2] == ' ' ? 3 : 2);
}

/* Puts a container, in hexadecimal, behind the lent bytes, as that of the candidate at a position. */
static void put_container(call_t *call, size_t position, const char *hex)
{
    gardhnosk_candidate *candidate = &call->candidates.at[position];
    candidate->start = call->lent_size;
    for (; *hex != 0; hex = next_byte(hex)) call->lent[call->lent_size++] = (uint8_t)strtoul(hex, NULL, 16);
    candidate->size = call->lent_size - candidate->start;
}

/* Makes the candidate at a position an unbarred one: from rank 256, three units on. */
static void put_candidate(call_t *call, size_t position, const char *hex)
{
    gardhnosk_neighbour *neighbour = &call->candidates.at[position].neighbour;
    neighbour->rank = 256;
    neighbour->sp = 3;
    neighbour->rf = 1;
    put_container(call, position, hex);
}

/* A call with 16 candidates, all of them zeros and so barred by 11, in which MinHopRankIncrease is 256 and the edition 1. */
static call_t new_call(void)
{
    call_t call;
    memset(&call, 0, sizeof call);
    memset(call.out, 0xEE, sizeof call.out);
    call.own.minhop = 256;
    call.own.edition = 1;
    call.count = 16;
    call.out_size = sizeof call.out;
    return call;
}

static void run(call_t *call)
{
    call->answer = gardhnosk_choose(call->own, call->candidates, call->count, call->lent, call->lent_size, call->out, call->out_size);
}

/* A field of the call: of own, or of the candidate at the position that is tried. */
typedef struct {
    int of_candidate;
    size_t offset, width;
} field_t;

#define OWN(field) {0, offsetof(gardhnosk_own, field), sizeof(((gardhnosk_own *)0)->field)}
#define NEIGHBOUR(field) \
    {1, offsetof(gardhnosk_candidate, neighbour) + offsetof(gardhnosk_neighbour, field), sizeof(((gardhnosk_neighbour *)0)->field)}
#define CANDIDATE(field) {1, offsetof(gardhnosk_candidate, field), sizeof(((gardhnosk_candidate *)0)->field)}

/* Stores a number in a field, at the field's width. */
static void store(call_t *call, size_t position, field_t field, uint32_t value)
{
    char *base = field.of_candidate ? (char *)&call->candidates.at[position] : (char *)&call->own;
    uint8_t one = (uint8_t)value;
    uint16_t two = (uint16_t)value;
    size_t eight = value;
    switch (field.width) {
    case 0: return;
    case 1: memcpy(base + field.offset, &one, 1); return;
    case 2: memcpy(base + field.offset, &two, 2); return;
    case 4: memcpy(base + field.offset, &value, 4); return;
    default: memcpy(base + field.offset, &eight, sizeof eight); return;
    }
}

/* What is observed of an answer: one of these, or BYTE + i for byte i of the output. */
enum { REFUSAL, PARENT, RANK, VERDICT, LEAF, BYTE };

static unsigned long observed(const call_t *call, size_t position, int what)
{
    switch (what) {
    case REFUSAL: return call->answer.refusal;
    case PARENT: return call->answer.parent;
    case RANK: return call->answer.rank;
    case VERDICT: return call->answer.verdicts[position];
    case LEAF: return call->answer.leaf;
    default: return call->out[what - BYTE];
    }
}

#endif
