/* For checks.c: gardhnosk_why and gardhnosk_examine, and the constants that they answer. */
#ifndef REASONS_H
#define REASONS_H

#include "helpers.h"

static gardhnosk_reason why(const call_t *call, size_t position)
{
    return gardhnosk_why(call->own, call->candidates, call->count, call->lent, call->lent_size, position);
}

/* Compares every field of a reason. */
static void same_reason(const char *name, gardhnosk_reason found, gardhnosk_reason wanted)
{
    same(name, "refusal", found.refusal, wanted.refusal);
    same(name, "kind", found.kind, wanted.kind);
    same(name, "number", found.number, wanted.number);
    same(name, "parent", found.parent, wanted.parent);
    same(name, "criterion", found.criterion, wanted.criterion);
    same(name, "place", found.place, wanted.place);
    same(name, "value", found.value, wanted.value);
    same(name, "against", found.against, wanted.against);
}

/* A reason of a kind that has nothing beside it but a refusal. */
static gardhnosk_reason bare_reason(uint8_t refusal, uint8_t kind)
{
    gardhnosk_reason reason = {refusal, kind, 0, GARDHNOSK_NO_PARENT, 0, GARDHNOSK_NO_PLACE, 0, 0};
    return reason;
}

/* two candidates in an edition, of which the first loses on a criterion */
typedef struct {
    uint8_t edition, flags;
    size_t current;
    uint16_t ranks[2];
    uint8_t orders[2], neighbour_flags[2], preferences[2];
    gardhnosk_reason wanted;
} loss_t;

#define LOST(criterion, value, against) \
    {GARDHNOSK_NONE, GARDHNOSK_WHY_BEATEN, 0, 1, criterion, GARDHNOSK_NO_PLACE, value, against}

static const loss_t losses[] = {
    {2, GARDHNOSK_CURRENT_GIVEN, 0, {256, 512}, {3, 0}, {GARDHNOSK_GROUNDED, 0}, {7, 0}, LOST(GARDHNOSK_BY_ORDER, 3, 0)},
    {2, GARDHNOSK_CURRENT_GIVEN, 0, {256, 512}, {3, 3}, {0, GARDHNOSK_GROUNDED}, {7, 0}, LOST(GARDHNOSK_BY_GROUNDED, 0, 1)},
    {2, GARDHNOSK_CURRENT_GIVEN, 0, {256, 512}, {3, 3}, {0, 0}, {2, 7}, LOST(GARDHNOSK_BY_PREFERENCE, 2, 7)},
    {2, GARDHNOSK_CURRENT_GIVEN, 0, {768, 256}, {3, 3}, {0, 0}, {2, 2}, LOST(GARDHNOSK_BY_RANK, 1536, 1024)},
    {1, GARDHNOSK_CURRENT_GIVEN, 0, {768, 256}, {0, 9}, {GARDHNOSK_GROUNDED, 0}, {7, 0}, LOST(GARDHNOSK_BY_RANK, 1536, 1024)},
    {2, GARDHNOSK_CURRENT_GIVEN, 1, {256, 256}, {3, 3}, {0, 0}, {2, 2}, LOST(GARDHNOSK_BY_CURRENT, 0, 1)},
    {1, GARDHNOSK_CURRENT_GIVEN, 1, {256, 256}, {0, 9}, {GARDHNOSK_GROUNDED, 0}, {7, 0}, LOST(GARDHNOSK_BY_CURRENT, 0, 1)},
};

static void check_losses(void)
{
    static const gardhnosk_reason by_position = {0, GARDHNOSK_WHY_BEATEN, 0, 0, GARDHNOSK_BY_POSITION, GARDHNOSK_NO_PLACE, 15, 0};
    call_t tied = new_call();
    put_candidate(&tied, 0, "02 00");
    put_candidate(&tied, 15, "02 00");
    same_reason("position", why(&tied, 15), by_position);
    for (size_t i = 0; i < LENGTH(losses); i++) {
        const loss_t *loss = &losses[i];
        call_t call = new_call();
        call.own.edition = loss->edition;
        call.own.flags = loss->flags;
        call.own.current = loss->current;
        call.count = 2;
        for (size_t k = 0; k < 2; k++) {
            gardhnosk_neighbour *neighbour = &call.candidates.at[k].neighbour;
            put_candidate(&call, k, "02 00");
            neighbour->rank = loss->ranks[k];
            neighbour->order = loss->orders[k];
            neighbour->flags = loss->neighbour_flags[k];
            neighbour->preference = loss->preferences[k];
        }
        same_reason("loss", why(&call, 0), loss->wanted);
        same_reason("win", why(&call, 1), bare_reason(GARDHNOSK_NONE, GARDHNOSK_WHY_CHOSEN));
    }
}

/* the reasons of a call that has every verdict are its own answer's, and no output is asked for */
static void check_reasons_of(call_t call)
{
    run(&call);
    for (size_t i = 0; i < 16; i++) {
        gardhnosk_reason reason = why(&call, i), wanted = bare_reason(GARDHNOSK_NONE, GARDHNOSK_WHY_CHOSEN);
        if (call.answer.verdicts[i] != GARDHNOSK_UNBARRED) {
            wanted.kind = GARDHNOSK_WHY_BARRED;
            wanted.number = call.answer.verdicts[i];
            wanted.place = call.answer.places[i];
        } else if (i != call.answer.parent) {
            wanted = reason;
            same("reason", "kind", reason.kind, GARDHNOSK_WHY_BEATEN);
            same("reason", "parent", reason.parent, call.answer.parent);
        }
        same_reason("reason", reason, wanted);
    }
}

static void check_questions(void)
{
    call_t call = new_call();
    put_candidate(&call, 0, "02 00");
    same_reason("asked", why(&call, 0), bare_reason(GARDHNOSK_NONE, GARDHNOSK_WHY_CHOSEN));
    same_reason("position 16", why(&call, 16), bare_reason(GARDHNOSK_REFUSAL_POSITION, GARDHNOSK_WHY_REFUSED));
    same_reason("a huge position", why(&call, (size_t)-1), bare_reason(GARDHNOSK_REFUSAL_POSITION, GARDHNOSK_WHY_REFUSED));
    call.own.edition = 3;
    same_reason("edition 3", why(&call, 16), bare_reason(GARDHNOSK_REFUSAL_EDITION, GARDHNOSK_WHY_REFUSED));
    call.own.flags = GARDHNOSK_CURRENT_GIVEN;
    call.own.current = 16;
    same_reason("current 16", why(&call, 16), bare_reason(GARDHNOSK_REFUSAL_CURRENT, GARDHNOSK_WHY_REFUSED));
    call.count = 17;
    same_reason("17 candidates", why(&call, 16), bare_reason(GARDHNOSK_REFUSAL_COUNT, GARDHNOSK_WHY_REFUSED));
    call.own.minhop = 0;
    same_reason("minhop 0", why(&call, 16), bare_reason(GARDHNOSK_REFUSAL_OWN, GARDHNOSK_WHY_REFUSED));
    /* an aggregated metric of unknown type: the node joins as a leaf, and the parent is chosen all the same */
    call = new_call();
    put_candidate(&call, 0, "02 04 C8 00 00 00");
    run(&call);
    same("leaf", "number", call.answer.leaf, GARDHNOSK_LEAF_UNKNOWN);
    same_reason("leaf", why(&call, 0), bare_reason(GARDHNOSK_NONE, GARDHNOSK_WHY_CHOSEN));
    call.answer.parent = gardhnosk_why(call.own, call.candidates, 1, NULL, 0, 0).number;
    same("null", "lent to why", call.answer.parent, GARDHNOSK_BAR_OUTSIDE);
}

/* ---- findings: a candidate with a container and two fields of its own, and what is told of it */

typedef struct {
    const char *container;
    field_t given;
    uint32_t value;
    field_t field;
    uint32_t with;
    gardhnosk_finding wanted;
} finding_t;

#define NO_NUMBER {0, 0, 0}, 0

static const finding_t findings[] = {
    {"02 00", NO_NUMBER, NO_NUMBER, {GARDHNOSK_WAY_NONE, 0, 0, 0}},
    {"02 04 C9 02 00 00", NO_NUMBER, NO_NUMBER, {GARDHNOSK_WAY_NONE, 0, 0, 0}},
    {"02 00", NEIGHBOUR(sp), 10, NEIGHBOUR(rf), 5, {GARDHNOSK_WAY_SP, 1, 9, 10}},
    {"02 00", NEIGHBOUR(rf), 5, NEIGHBOUR(sr), 6, {GARDHNOSK_WAY_RF, 1, 4, 5}},
    {"02 00", NEIGHBOUR(sr), 6, NEIGHBOUR(lql), 8, {GARDHNOSK_WAY_SR, 0, 5, 6}},
    {"02 00", NEIGHBOUR(lql), 8, NEIGHBOUR(nodetype), 4, {GARDHNOSK_WAY_LQL, 0, 7, 8}},
    {"02 00", NEIGHBOUR(nodetype), 4, NEIGHBOUR(colour), 1024, {GARDHNOSK_WAY_TYPE, 0, 3, 4}},
    {"02 00", NEIGHBOUR(colour), 1024, NEIGHBOUR(order), 8, {GARDHNOSK_WAY_COLOUR, 0, 1023, 1024}},
    {"02 00", NEIGHBOUR(order), 8, OWN(edition), 2, {GARDHNOSK_WAY_ORDER, 0, 7, 8}},
    {"02 00", NEIGHBOUR(preference), 8, OWN(edition), 2, {GARDHNOSK_WAY_PREFERENCE, 0, 7, 8}},
    {"02 00", NEIGHBOUR(order), 8, OWN(edition), 1, {GARDHNOSK_WAY_NONE, 0, 0, 0}},
    {"02 00", CANDIDATE(start), 601, CANDIDATE(size), 3, {GARDHNOSK_WAY_OUTSIDE, 601, 3, 2}},
    {"02", NO_NUMBER, NO_NUMBER, {GARDHNOSK_WAY_OPTION, 0, 2, 1}},
    {"00 02 00 05", NO_NUMBER, NO_NUMBER, {GARDHNOSK_WAY_OPTION, 3, 2, 1}},
    {"05 00", NO_NUMBER, NO_NUMBER, {GARDHNOSK_WAY_NONE, 0, 0, 0}},
    {"02 0D 07 00 00 02 01 00", NO_NUMBER, NO_NUMBER, {GARDHNOSK_WAY_OPTION_DATA, 0, 13, 6}},
    {"02 00 02 00 02 00 02 00 02 00 02 00 02 00 02 00 02 00", NO_NUMBER, NO_NUMBER, {GARDHNOSK_WAY_CONTAINERS, 0, 8, 9}},
    {"02 07 C8 00 80 00 07 00 00", NO_NUMBER, NO_NUMBER, {GARDHNOSK_WAY_HEADER, 1, 4, 3}},
    {"02 06 07 00 00 0D 01 00", NO_NUMBER, NO_NUMBER, {GARDHNOSK_WAY_BODY, 0, 13, 2}},
    {"02 06 01 02 00 02 00 02", NO_NUMBER, NO_NUMBER, {GARDHNOSK_WAY_AGGREGATOR, 0, 0, 0}},
    {"02 06 01 02 00 02 00 01", NEIGHBOUR(flags), GARDHNOSK_OVERLOADED, NO_NUMBER, {GARDHNOSK_WAY_OVERLOADED, 0, 0, 0}},
    {"02 06 02 02 00 02 0A 00", NO_NUMBER, NO_NUMBER, {GARDHNOSK_WAY_OTHER_TYPE, 0, 1, 0}},
    {"02 06 02 02 00 02 09 32", NEIGHBOUR(flags), GARDHNOSK_ENERGY_KNOWN, NEIGHBOUR(energy), 40, {GARDHNOSK_WAY_LITTLE_ENERGY, 0, 50, 40}},
    {"02 06 02 02 00 02 0B 32", NEIGHBOUR(nodetype), 1, NEIGHBOUR(energy), 40, {GARDHNOSK_WAY_UNKNOWN_ENERGY, 1, 50, 0}},
    {"02 06 02 02 00 02 02 00", NEIGHBOUR(nodetype), 1, NO_NUMBER, {GARDHNOSK_WAY_BARRED_TYPE, 0, 1, 1}},
    {"02 06 02 02 00 02 01 32", NEIGHBOUR(flags), GARDHNOSK_ENERGY_KNOWN, NEIGHBOUR(energy), 40, {GARDHNOSK_WAY_BARRED_ENERGY, 0, 50, 40}},
    {"02 06 02 02 00 02 05 32", NEIGHBOUR(nodetype), 2, NEIGHBOUR(energy), 90, {GARDHNOSK_WAY_BARRED_UNKNOWN, 2, 50, 0}},
    {"02 0C 03 02 00 02 00 04 03 00 00 02 00 07", NO_NUMBER, NO_NUMBER, {GARDHNOSK_WAY_HOPS, 0, 4, 7}},
    {"02 06 03 02 00 02 00 04", NO_NUMBER, NO_NUMBER, {GARDHNOSK_WAY_UNKNOWN_HOPS, 0, 4, 0}},
    {"02 08 04 02 00 04 00 01 11 70", NEIGHBOUR(flags), GARDHNOSK_THROUGHPUT_KNOWN, NEIGHBOUR(throughput), 69999,
     {GARDHNOSK_WAY_THROUGHPUT, 0, 70000, 69999}},
    {"02 08 04 02 00 04 00 01 11 70", NEIGHBOUR(throughput), 80000, NO_NUMBER, {GARDHNOSK_WAY_UNKNOWN_THROUGHPUT, 0, 70000, 0}},
    {"02 08 05 02 00 04 00 01 11 70", NEIGHBOUR(flags), GARDHNOSK_LATENCY_KNOWN, NEIGHBOUR(latency), 70001,
     {GARDHNOSK_WAY_LATENCY, 0, 70000, 70001}},
    {"02 10 05 02 00 04 00 01 11 70 05 00 00 04 FF FF FF FF", NEIGHBOUR(flags), GARDHNOSK_LATENCY_KNOWN, NEIGHBOUR(latency), 1,
     {GARDHNOSK_WAY_PATH_LATENCY, 4294967295u, 70000, (uint64_t)4294967295u + 1}},
    {"02 10 05 02 00 04 00 01 11 70 05 00 00 04 00 00 00 05", NEIGHBOUR(latency), 1, NO_NUMBER, {GARDHNOSK_WAY_UNKNOWN_LATENCY, 5, 70000, 0}},
    {"02 06 07 02 00 02 01 00", NEIGHBOUR(flags), GARDHNOSK_ETX_KNOWN, NEIGHBOUR(etx), 257, {GARDHNOSK_WAY_ETX, 0, 256, 257}},
    {"02 0C 07 02 00 02 01 00 07 00 00 02 FF FF", NEIGHBOUR(flags), GARDHNOSK_ETX_KNOWN, NEIGHBOUR(etx), 65535,
     {GARDHNOSK_WAY_PATH_ETX, 65535, 256, 131070}},
    {"02 06 07 02 00 02 01 00", NEIGHBOUR(etx), 1, NO_NUMBER, {GARDHNOSK_WAY_UNKNOWN_ETX, 0, 256, 0}},
    {"02 06 06 02 00 02 00 7F", NEIGHBOUR(lql), 4, NO_NUMBER, {GARDHNOSK_WAY_QUALITY, 0, 3, 4}},
    {"02 06 06 02 00 02 00 60", NO_NUMBER, NO_NUMBER, {GARDHNOSK_WAY_UNKNOWN_QUALITY, 0, 3, 0}},
    {"02 07 08 02 00 03 00 80 41", NEIGHBOUR(colour), 512, NO_NUMBER, {GARDHNOSK_WAY_LACKS_COLOUR, 0, 513, 512}},
    {"02 07 08 02 00 03 00 80 40", NEIGHBOUR(colour), 515, NO_NUMBER, {GARDHNOSK_WAY_HAS_COLOUR, 0, 513, 515}},
};

static void check_findings(void)
{
    char name[20];
    for (size_t i = 0; i < LENGTH(findings); i++) {
        gardhnosk_finding found, wanted = findings[i].wanted;
        call_t call = new_call();
        put_candidate(&call, 5, findings[i].container);
        store(&call, 5, findings[i].given, findings[i].value);
        store(&call, 5, findings[i].field, findings[i].with);
        found = gardhnosk_examine(call.own, call.candidates.at[5], call.lent, call.lent_size);
        snprintf(name, sizeof name, "finding %d", (int)i);
        same(name, "way", found.way, wanted.way);
        same(name, "which", (unsigned long)found.which, (unsigned long)wanted.which);
        same(name, "asked", (unsigned long)found.asked, (unsigned long)wanted.asked);
        same(name, "found", (unsigned long)found.found, (unsigned long)wanted.found);
    }
}

#endif
