/* For checks.c: runs of several containers, and runs that are fed in parts. */
#ifndef RUNS_H
#define RUNS_H

#include "helpers.h"

#define NINE "02 00 02 00 02 00 02 00 02 00 02 00 02 00 02 00 02 00"
#define EIGHT "02 00 02 00 02 00 02 00 02 00 02 00 02 00 02 00"
/* Pad1, PadN, an ETX of 1, an option of type 5, and a container with an object of a type that is not known */
#define TWO "00 01 01 AA 02 06 07 00 00 02 00 80 05 02 02 00 02 05 C8 00 80 01 AA"
#define TWO_KEPT "02 06 07 00 00 02 00 80 02 05 C8 00 80 01 AA"

typedef struct {
    const char *run;
    unsigned long verdict;
    const char *sent;
} run_t;

static const run_t runs[] = {
    {"", GARDHNOSK_UNBARRED, "02 00"},
    {"00", GARDHNOSK_UNBARRED, "02 00"},
    {"05 00", GARDHNOSK_UNBARRED, "02 00"},
    {"05", GARDHNOSK_BAR_OPTION, ""},
    {"02 00 05 01", GARDHNOSK_BAR_OPTION, ""},
    {TWO, GARDHNOSK_UNBARRED, "02 0B 07 00 00 02 01 00 C8 04 80 01 AA"},
    {"02 03 07 00 00 02 03 02 00 80", GARDHNOSK_BAR_OBJECT, ""},
    {EIGHT, GARDHNOSK_UNBARRED, "02 00"},
    {NINE, GARDHNOSK_BAR_CONTAINERS, ""},
    {NINE " 05", GARDHNOSK_BAR_OPTION, ""},
};

/* Compares the start of some bytes with those of a text in hexadecimal; answers how many those are. */
static size_t same_bytes(const char *name, const uint8_t *found, const char *hex)
{
    size_t at = 0;
    for (const char *next = hex; *next != 0; next = next_byte(next)) same(name, hex, found[at++], strtoul(next, NULL, 16));
    return at;
}

static void check_runs(void)
{
    for (size_t i = 0; i < LENGTH(runs); i++) {
        call_t call = new_call();
        put_candidate(&call, 0, runs[i].run);
        call.candidates.at[0].neighbour.flags = GARDHNOSK_ETX_KNOWN;
        call.candidates.at[0].neighbour.etx = 128;
        run(&call);
        same("run", runs[i].run, call.answer.verdicts[0], runs[i].verdict);
        size_t size = same_bytes("sent of a run", call.out, runs[i].sent);
        same("run, size", runs[i].run, call.answer.size, size);
        for (; size < sizeof call.out; size++) same("run, output", runs[i].run, call.out[size], 0xEE);
    }
}

/* An energy record that grows by 2 to 254 bytes of data: the object behind it needs a container of its own again. */
static void check_two_sent(void)
{
    static const uint8_t first[] = {2, 252, 2, 0, 0x80, 248}, second[] = {2, 6, 0xC8, 0, 0x80, 2, 1, 2};
    call_t call = new_call();
    put_candidate(&call, 0, "");
    memcpy(call.lent, first, sizeof first);
    memcpy(call.lent + 254, second, sizeof second);
    call.lent_size = 254 + sizeof second;
    call.candidates.at[0].size = call.lent_size;
    call.own.nodetype = 1;
    run(&call);
    same("two sent", "verdict", call.answer.verdicts[0], GARDHNOSK_UNBARRED);
    same("two sent", "size", call.answer.size, 256 + sizeof second);
    same("two sent", "first length", call.out[1], 254);
    same("two sent", "first body", call.out[5], 250);
    same_bytes("two sent, second", call.out + 256, "02 06 C8 04 80 02 01 02");
    same("two sent", "behind", call.out[256 + sizeof second], 0xEE);
}

/* The state before the first part. */
static gardhnosk_fed unfed(void)
{
    gardhnosk_fed state;
    memset(&state, 0, sizeof state);
    return state;
}

/* What is kept of a run, in parts of so many bytes. */
static void check_parts(const uint8_t *bytes, size_t size, size_t step)
{
    static uint8_t kept[GARDHNOSK_KEPT_ROOM];
    gardhnosk_fed state = unfed();
    memset(kept, 0xEE, sizeof kept);
    for (size_t at = 0; at < size; at += step)
        state = gardhnosk_feed(state, bytes + at, size - at < step ? size - at : step, kept, sizeof kept);
    same("fed", "size", state.size, same_bytes("kept", kept, TWO_KEPT));
    same("fed", "phase", state.phase, 0);
    same("fed", "keep", state.keep, 0);
    same("fed", "missing", state.missing, 0);
    same("fed", "count", state.count, 2);
}

static void check_feed(void)
{
    uint8_t bytes[64], kept[GARDHNOSK_KEPT_ROOM];
    size_t size = 0;
    for (const char *hex = TWO; *hex != 0; hex = next_byte(hex)) bytes[size++] = (uint8_t)strtoul(hex, NULL, 16);
    for (size_t step = 1; step <= size; step++) check_parts(bytes, size, step);
    memset(kept, 0xEE, sizeof kept);
    /* in the middle of the first container: two bytes of six are missing; a part of nothing changes nothing */
    gardhnosk_fed state = gardhnosk_feed(unfed(), bytes, 10, kept, sizeof kept);
    state = gardhnosk_feed(state, NULL, 0, kept, sizeof kept);
    same("fed, open", "size", state.size, 6);
    same("fed, open", "phase", state.phase, 2);
    same("fed, open", "keep", state.keep, 2);
    same("fed, open", "missing", state.missing, 2);
    same("fed, open", "count", state.count, 0);
    same("fed, open", "behind", kept[6], 0xEE);
    /* a buffer that is one byte too short is told, nothing is stored then, and it stays so */
    state = gardhnosk_feed(state, bytes + 10, size - 10, kept, sizeof kept - 1);
    same("fed, short", "phase", state.phase, GARDHNOSK_FED_SHORT);
    same("fed, short", "size", state.size, 6);
    state = gardhnosk_feed(state, bytes + 10, size - 10, kept, sizeof kept);
    same("fed, short before", "phase", state.phase, GARDHNOSK_FED_SHORT);
    same("fed, short before", "buffer", kept[6], 0xEE);
    same("fed", "null buffer", gardhnosk_feed(unfed(), bytes, size, NULL, 0).phase, GARDHNOSK_FED_SHORT);
}

#endif
