/* include/gardhnosk.h against the library: layout, the passage of every field, every number, and the six functions. */
#include "helpers.h"
#include "reasons.h"
#include "runs.h"

/* ---- layout: that of the structs in crates/model/src, crates/feed/src and crates/reason/src, as repr(C) on x86-64 */

typedef struct {
    const char *name;
    size_t found, wanted;
} layout_t;

#define AT(type, field, wanted) {#type "." #field, offsetof(gardhnosk_##type, field), wanted}
#define SIZE(type, wanted) {#type, sizeof(gardhnosk_##type), wanted}

static const layout_t layout[] = {
    SIZE(own, 32), AT(own, minhop, 0), AT(own, maxincrease, 2), AT(own, lowest, 4), AT(own, nodetype, 6), AT(own, flags, 7),
    AT(own, energy, 8), AT(own, current, 16), AT(own, edition, 24),
    SIZE(neighbour, 24), AT(neighbour, rank, 0), AT(neighbour, sp, 2), AT(neighbour, rf, 3), AT(neighbour, sr, 4),
    AT(neighbour, nodetype, 5), AT(neighbour, flags, 6), AT(neighbour, energy, 7), AT(neighbour, lql, 8), AT(neighbour, etx, 10),
    AT(neighbour, latency, 12), AT(neighbour, throughput, 16), AT(neighbour, colour, 20), AT(neighbour, order, 22),
    AT(neighbour, preference, 23),
    SIZE(candidate, 40), AT(candidate, neighbour, 0), AT(candidate, start, 24), AT(candidate, size, 32),
    SIZE(candidates, 640), AT(candidates, at, 0),
    SIZE(answer, 58), AT(answer, refusal, 0), AT(answer, parent, 1), AT(answer, rank, 2), AT(answer, verdicts, 4),
    AT(answer, places, 20), AT(answer, bits, 52), AT(answer, count, 54), AT(answer, leaf, 55), AT(answer, size, 56),
    SIZE(fed, 6), AT(fed, size, 0), AT(fed, phase, 2), AT(fed, keep, 3), AT(fed, missing, 4), AT(fed, count, 5),
    SIZE(reason, 12), AT(reason, refusal, 0), AT(reason, kind, 1), AT(reason, number, 2), AT(reason, parent, 3), AT(reason, criterion, 4),
    AT(reason, place, 6), AT(reason, value, 8), AT(reason, against, 10),
    SIZE(finding, 32), AT(finding, way, 0), AT(finding, which, 8), AT(finding, asked, 16), AT(finding, found, 24),
};

static void check_layout(void)
{
    for (size_t i = 0; i < LENGTH(layout); i++) same(layout[i].name, "offset or size", layout[i].found, layout[i].wanted);
}

/* ---- the passage in: two calls that differ in one field, and the one thing that has to follow */

typedef struct {
    const char *name, *container;
    field_t given1; /* beside an unbarred candidate with that container, these two fields are set */
    uint32_t value1;
    field_t given2;
    uint32_t value2;
    field_t field; /* and this one takes two values */
    uint32_t from, to;
    int what;
    unsigned long before, after;
} passage_t;

#define NO_FIELD {0, 0, 0}, 0
#define EMPTY "02 00"
#define TYPE_0_ONLY "02 06 02 02 00 02 08 00"
#define ENERGY_OVER_100 "02 06 02 02 00 02 09 64"
#define NO_OVERLOAD "02 06 01 02 00 02 00 01"
#define AGGREGATORS "02 06 01 02 00 02 00 02"
#define LQL_TO_3 "02 06 06 02 00 02 00 60"
#define ETX_TO_256 "02 06 07 02 00 02 01 00"
#define LATENCY_TO_70000 "02 08 05 02 00 04 00 01 11 70"
#define THROUGHPUT_FROM_70000 "02 08 04 02 00 04 00 01 11 70"
#define COLOUR_513 "02 07 08 02 00 03 00 80 41"
#define NO_COLOUR_513 "02 07 08 02 00 03 00 80 40"
#define RECORDED_ENERGY "02 06 02 00 80 02 00 00"
#define MOST_ENERGY "02 06 02 00 10 02 01 00"
#define ANY_FLAG "02 06 01 00 10 02 00 00"

static const passage_t own_passages[] = {
    {"minhop", EMPTY, NO_FIELD, NO_FIELD, OWN(minhop), 256, 512, RANK, 1024, 1792},
    {"minhop", EMPTY, NO_FIELD, NO_FIELD, OWN(minhop), 256, 0, REFUSAL, GARDHNOSK_NONE, GARDHNOSK_REFUSAL_OWN},
    {"maxincrease", EMPTY, OWN(flags), GARDHNOSK_LOWEST_GIVEN, OWN(lowest), 24, OWN(maxincrease), 999, 1000, VERDICT,
     GARDHNOSK_BAR_INCREASE, GARDHNOSK_UNBARRED},
    {"maxincrease", EMPTY, OWN(flags), GARDHNOSK_LOWEST_GIVEN, NO_FIELD, OWN(maxincrease), 0, 1, VERDICT, GARDHNOSK_UNBARRED,
     GARDHNOSK_BAR_INCREASE},
    {"lowest", EMPTY, OWN(flags), GARDHNOSK_LOWEST_GIVEN, OWN(maxincrease), 24, OWN(lowest), 999, 1000, VERDICT,
     GARDHNOSK_BAR_INCREASE, GARDHNOSK_UNBARRED},
    {"nodetype", RECORDED_ENERGY, NO_FIELD, NO_FIELD, OWN(nodetype), 1, 2, BYTE + 8, 0x02, 0x04},
    {"nodetype", EMPTY, NO_FIELD, NO_FIELD, OWN(nodetype), 3, 4, REFUSAL, GARDHNOSK_NONE, GARDHNOSK_REFUSAL_OWN},
    {"energy", MOST_ENERGY, OWN(flags), GARDHNOSK_ENERGY_KNOWN, NO_FIELD, OWN(energy), 7, 9, BYTE + 7, 7, 9},
    {"edition", EMPTY, NO_FIELD, NO_FIELD, OWN(edition), 1, 0, REFUSAL, GARDHNOSK_NONE, GARDHNOSK_REFUSAL_EDITION},
    {"edition", EMPTY, NO_FIELD, NO_FIELD, OWN(edition), 2, 3, REFUSAL, GARDHNOSK_NONE, GARDHNOSK_REFUSAL_EDITION},
    {"edition", EMPTY, NEIGHBOUR(order), 8, NO_FIELD, OWN(edition), 1, 2, VERDICT, GARDHNOSK_UNBARRED, GARDHNOSK_BAR_NUMBERS},
    {"current", EMPTY, OWN(flags), GARDHNOSK_CURRENT_GIVEN, NO_FIELD, OWN(current), 15, 16, REFUSAL, GARDHNOSK_NONE,
     GARDHNOSK_REFUSAL_CURRENT},
    {"OVERLOADED", ANY_FLAG, NO_FIELD, NO_FIELD, OWN(flags), 0, GARDHNOSK_OVERLOADED, BYTE + 7, 0, 1},
    {"AGGREGATOR", ANY_FLAG, NO_FIELD, NO_FIELD, OWN(flags), 0, GARDHNOSK_AGGREGATOR, BYTE + 7, 0, 2},
    {"ENERGY_KNOWN", MOST_ENERGY, OWN(energy), 7, NO_FIELD, OWN(flags), 0, GARDHNOSK_ENERGY_KNOWN, LEAF, GARDHNOSK_LEAF_VALUE,
     GARDHNOSK_NONE},
    {"LOWEST_GIVEN", EMPTY, OWN(maxincrease), 1, NO_FIELD, OWN(flags), 0, GARDHNOSK_LOWEST_GIVEN, VERDICT, GARDHNOSK_UNBARRED,
     GARDHNOSK_BAR_INCREASE},
    {"CURRENT_GIVEN", EMPTY, OWN(current), 16, NO_FIELD, OWN(flags), 0, GARDHNOSK_CURRENT_GIVEN, REFUSAL, GARDHNOSK_NONE,
     GARDHNOSK_REFUSAL_CURRENT},
    {"other bits", EMPTY, OWN(current), 16, OWN(maxincrease), 1, OWN(flags), 0, 0xE0, RANK, 1024, 1024},
};

static const passage_t candidate_passages[] = {
    {"rank", EMPTY, NO_FIELD, NO_FIELD, NEIGHBOUR(rank), 256, 512, RANK, 1024, 1280},
    {"sp", EMPTY, NO_FIELD, NO_FIELD, NEIGHBOUR(sp), 3, 9, RANK, 1024, 2560},
    {"sp", EMPTY, NO_FIELD, NO_FIELD, NEIGHBOUR(sp), 9, 10, VERDICT, GARDHNOSK_UNBARRED, GARDHNOSK_BAR_NUMBERS},
    {"rf", EMPTY, NO_FIELD, NO_FIELD, NEIGHBOUR(rf), 1, 4, RANK, 1024, 3328},
    {"rf", EMPTY, NO_FIELD, NO_FIELD, NEIGHBOUR(rf), 4, 5, VERDICT, GARDHNOSK_UNBARRED, GARDHNOSK_BAR_NUMBERS},
    {"sr", EMPTY, NO_FIELD, NO_FIELD, NEIGHBOUR(sr), 0, 5, RANK, 1024, 2304},
    {"sr", EMPTY, NO_FIELD, NO_FIELD, NEIGHBOUR(sr), 5, 6, VERDICT, GARDHNOSK_UNBARRED, GARDHNOSK_BAR_NUMBERS},
    {"nodetype", TYPE_0_ONLY, NO_FIELD, NO_FIELD, NEIGHBOUR(nodetype), 0, 1, VERDICT, GARDHNOSK_UNBARRED, GARDHNOSK_BAR_UNMET},
    {"energy", ENERGY_OVER_100, NEIGHBOUR(flags), GARDHNOSK_ENERGY_KNOWN, NO_FIELD, NEIGHBOUR(energy), 100, 101, VERDICT,
     GARDHNOSK_BAR_UNMET, GARDHNOSK_UNBARRED},
    {"lql", LQL_TO_3, NO_FIELD, NO_FIELD, NEIGHBOUR(lql), 3, 4, VERDICT, GARDHNOSK_UNBARRED, GARDHNOSK_BAR_UNMET},
    {"etx", ETX_TO_256, NEIGHBOUR(flags), GARDHNOSK_ETX_KNOWN, NO_FIELD, NEIGHBOUR(etx), 256, 257, VERDICT, GARDHNOSK_UNBARRED,
     GARDHNOSK_BAR_UNMET},
    {"latency", LATENCY_TO_70000, NEIGHBOUR(flags), GARDHNOSK_LATENCY_KNOWN, NO_FIELD, NEIGHBOUR(latency), 70000, 70001, VERDICT,
     GARDHNOSK_UNBARRED, GARDHNOSK_BAR_UNMET},
    {"throughput", THROUGHPUT_FROM_70000, NEIGHBOUR(flags), GARDHNOSK_THROUGHPUT_KNOWN, NO_FIELD, NEIGHBOUR(throughput), 69999,
     70000, VERDICT, GARDHNOSK_BAR_UNMET, GARDHNOSK_UNBARRED},
    {"colour", COLOUR_513, NO_FIELD, NO_FIELD, NEIGHBOUR(colour), 512, 513, VERDICT, GARDHNOSK_BAR_UNMET, GARDHNOSK_UNBARRED},
    {"colour", COLOUR_513, NO_FIELD, NO_FIELD, NEIGHBOUR(colour), 1023, 1, VERDICT, GARDHNOSK_UNBARRED, GARDHNOSK_BAR_UNMET},
    {"colour", NO_COLOUR_513, NO_FIELD, NO_FIELD, NEIGHBOUR(colour), 512, 513, VERDICT, GARDHNOSK_UNBARRED, GARDHNOSK_BAR_UNMET},
    {"colour", EMPTY, NO_FIELD, NO_FIELD, NEIGHBOUR(colour), 1023, 1024, VERDICT, GARDHNOSK_UNBARRED, GARDHNOSK_BAR_NUMBERS},
    {"order", EMPTY, OWN(edition), 2, NO_FIELD, NEIGHBOUR(order), 7, 8, VERDICT, GARDHNOSK_UNBARRED, GARDHNOSK_BAR_NUMBERS},
    {"order", EMPTY, NO_FIELD, NO_FIELD, NEIGHBOUR(order), 7, 255, VERDICT, GARDHNOSK_UNBARRED, GARDHNOSK_UNBARRED},
    {"preference", EMPTY, OWN(edition), 2, NO_FIELD, NEIGHBOUR(preference), 7, 8, VERDICT, GARDHNOSK_UNBARRED, GARDHNOSK_BAR_NUMBERS},
    {"preference", EMPTY, NO_FIELD, NO_FIELD, NEIGHBOUR(preference), 7, 255, VERDICT, GARDHNOSK_UNBARRED, GARDHNOSK_UNBARRED},
    {"OVERLOADED", NO_OVERLOAD, NO_FIELD, NO_FIELD, NEIGHBOUR(flags), 0, GARDHNOSK_OVERLOADED, VERDICT, GARDHNOSK_UNBARRED,
     GARDHNOSK_BAR_UNMET},
    {"AGGREGATOR", AGGREGATORS, NO_FIELD, NO_FIELD, NEIGHBOUR(flags), 0, GARDHNOSK_AGGREGATOR, VERDICT, GARDHNOSK_BAR_UNMET,
     GARDHNOSK_UNBARRED},
    {"ENERGY_KNOWN", ENERGY_OVER_100, NEIGHBOUR(energy), 101, NO_FIELD, NEIGHBOUR(flags), 0, GARDHNOSK_ENERGY_KNOWN, VERDICT,
     GARDHNOSK_BAR_UNMET, GARDHNOSK_UNBARRED},
    {"ETX_KNOWN", ETX_TO_256, NO_FIELD, NO_FIELD, NEIGHBOUR(flags), 0, GARDHNOSK_ETX_KNOWN, VERDICT, GARDHNOSK_BAR_UNMET,
     GARDHNOSK_UNBARRED},
    {"LATENCY_KNOWN", LATENCY_TO_70000, NO_FIELD, NO_FIELD, NEIGHBOUR(flags), 0, GARDHNOSK_LATENCY_KNOWN, VERDICT,
     GARDHNOSK_BAR_UNMET, GARDHNOSK_UNBARRED},
    {"THROUGHPUT_KNOWN", THROUGHPUT_FROM_70000, NEIGHBOUR(throughput), 70000, NO_FIELD, NEIGHBOUR(flags), 0,
     GARDHNOSK_THROUGHPUT_KNOWN, VERDICT, GARDHNOSK_BAR_UNMET, GARDHNOSK_UNBARRED},
    {"other bits", ETX_TO_256, NO_FIELD, NO_FIELD, NEIGHBOUR(flags), 0, 0x80 | GARDHNOSK_GROUNDED, VERDICT, GARDHNOSK_BAR_UNMET,
     GARDHNOSK_BAR_UNMET},
    {"start", EMPTY, NO_FIELD, NO_FIELD, CANDIDATE(start), 0, 1, VERDICT, GARDHNOSK_UNBARRED, GARDHNOSK_BAR_OUTSIDE},
    {"size", EMPTY, NO_FIELD, NO_FIELD, CANDIDATE(size), 2, 1, VERDICT, GARDHNOSK_UNBARRED, GARDHNOSK_BAR_OPTION},
};

static void check_passage(const char *of, const passage_t *row, size_t position)
{
    char detail[80];
    for (int second = 0; second < 2; second++) {
        call_t call = new_call();
        put_candidate(&call, position, row->container);
        store(&call, position, row->given1, row->value1);
        store(&call, position, row->given2, row->value2);
        store(&call, position, row->field, second ? row->to : row->from);
        run(&call);
        snprintf(detail, sizeof detail, "%s %lu at position %d", row->name, (unsigned long)(second ? row->to : row->from), (int)position);
        same(of, detail, observed(&call, position, row->what), second ? row->after : row->before);
    }
}

static void check_passages(void)
{
    for (size_t i = 0; i < LENGTH(own_passages); i++) check_passage("own", &own_passages[i], 0);
    for (size_t i = 0; i < LENGTH(candidate_passages); i++) {
        check_passage("candidate", &candidate_passages[i], 0);
        check_passage("candidate", &candidate_passages[i], 15);
    }
}

/* ---- the passage out: one call with every verdict number, and every field of its answer */

typedef struct {
    const char *container;
    field_t field; /* set beside an unbarred candidate with that container */
    uint32_t value;
    int verdict, place;
} verdict_t;

static const verdict_t verdicts[16] = {
    {EMPTY, NEIGHBOUR(rank), 2048, GARDHNOSK_UNBARRED, GARDHNOSK_NO_PLACE},
    {EMPTY, NEIGHBOUR(sp), 0, GARDHNOSK_BAR_NUMBERS, GARDHNOSK_NO_PLACE},
    {EMPTY, CANDIDATE(start), 600, GARDHNOSK_BAR_OUTSIDE, GARDHNOSK_NO_PLACE},
    {"05 01", NO_FIELD, GARDHNOSK_BAR_OPTION, GARDHNOSK_NO_PLACE},
    {"02 03 07 00 00", NO_FIELD, GARDHNOSK_BAR_OBJECT, GARDHNOSK_NO_PLACE},
    {"02 09 C8 00 80 00 07 00 00 01 00", NO_FIELD, GARDHNOSK_BAR_BODY, 1},
    {"02 12 C8 00 80 02 00 00 07 00 00 02 00 01 07 00 00 02 00 01", NO_FIELD, GARDHNOSK_BAR_REPEAT, 2},
    {"02 06 01 00 80 02 00 00", NO_FIELD, GARDHNOSK_BAR_RECORDED, 0},
    {"02 10 C8 00 80 00 C8 00 80 00 C8 00 80 00 C9 02 00 00", NO_FIELD, GARDHNOSK_BAR_UNKNOWN, 3},
    {"02 0A C8 03 00 00 07 02 00 02 01 00", NO_FIELD, GARDHNOSK_BAR_UNMET, 1},
    {EMPTY, NEIGHBOUR(rank), 65535, GARDHNOSK_BAR_RANK, GARDHNOSK_NO_PLACE},
    {EMPTY, NEIGHBOUR(rank), 9000, GARDHNOSK_BAR_INCREASE, GARDHNOSK_NO_PLACE},
    {EMPTY, NEIGHBOUR(sr), 1, GARDHNOSK_UNBARRED, GARDHNOSK_NO_PLACE},
    {"02 11 07 00 00 02 01 C9 02 02 00 02 08 00 C8 00 80 01 AA", NEIGHBOUR(flags), GARDHNOSK_ETX_KNOWN, GARDHNOSK_UNBARRED,
     GARDHNOSK_NO_PLACE},
    {EMPTY, NEIGHBOUR(lql), 8, GARDHNOSK_BAR_NUMBERS, GARDHNOSK_NO_PLACE},
    {NINE, NO_FIELD, GARDHNOSK_BAR_CONTAINERS, GARDHNOSK_NO_PLACE},
};

static call_t call_with_all_verdicts(void)
{
    call_t call = new_call();
    call.own.flags = GARDHNOSK_LOWEST_GIVEN;
    call.own.lowest = 1024;
    call.own.maxincrease = 8192;
    for (size_t i = 0; i < 16; i++) {
        put_candidate(&call, i, verdicts[i].container);
        call.candidates.at[i].neighbour.etx = 128;
        store(&call, i, verdicts[i].field, verdicts[i].value);
    }
    return call;
}

static void check_answer(void)
{
    static const uint8_t sent[] = {2, 17, 7, 0, 0, 2, 2, 0x49, 2, 2, 0, 2, 8, 0, 0xC8, 4, 0x80, 1, 0xAA};
    char detail[20];
    call_t call = call_with_all_verdicts();
    run(&call);
    for (size_t i = 0; i < 16; i++) {
        snprintf(detail, sizeof detail, "position %d", (int)i);
        same("verdict", detail, call.answer.verdicts[i], (unsigned long)verdicts[i].verdict);
        same("place", detail, call.answer.places[i], (unsigned long)verdicts[i].place);
    }
    same("answer", "refusal", call.answer.refusal, GARDHNOSK_NONE);
    same("answer", "parent", call.answer.parent, 13);
    same("answer", "rank", call.answer.rank, 1024);
    same("answer", "bits", call.answer.bits, 0x3001);
    same("answer", "count", call.answer.count, 3);
    same("answer", "leaf", call.answer.leaf, GARDHNOSK_NONE);
    same("answer", "size", call.answer.size, sizeof sent);
    for (size_t i = 0; i < sizeof call.out; i++) {
        snprintf(detail, sizeof detail, "byte %d", (int)i);
        same("output", detail, call.out[i], i < sizeof sent ? sent[i] : 0xEE);
    }
}

/* the count is passed on: the candidates from it on are ignored, and with none there is no parent */
static void check_count(void)
{
    call_t call = call_with_all_verdicts();
    call.count = 13;
    run(&call);
    same("count 13", "parent", call.answer.parent, 12);
    same("count 13", "rank", call.answer.rank, 1280);
    same("count 13", "verdict at 13", call.answer.verdicts[13], GARDHNOSK_NONE);
    call.count = 0;
    run(&call);
    same("count 0", "parent", call.answer.parent, GARDHNOSK_NO_PARENT);
    same("count 0", "rank", call.answer.rank, GARDHNOSK_NO_RANK);
    same("count 0", "size", call.answer.size, 0);
}

/* a tie goes to the current parent */
static void check_current(void)
{
    for (size_t current = 0; current < 16; current += 15) {
        call_t call = new_call();
        put_candidate(&call, 0, EMPTY);
        put_candidate(&call, 15, EMPTY);
        call.own.flags = GARDHNOSK_CURRENT_GIVEN;
        call.own.current = current;
        run(&call);
        same("own", "current at a tie", call.answer.parent, current);
    }
}

/* ---- editions: two candidates, and whom each edition makes the parent */

/* what edition 2 reads of a candidate, and its rank */
typedef struct {
    uint8_t order, flags, preference;
    uint16_t rank;
} site_t;

typedef struct {
    const char *decides;
    site_t first, second;
    int current; /* -1: there is none */
    unsigned long in_first_edition, in_second_edition;
} contest_t;

/* each criterion decides by itself, while all behind it speak for the other */
static const contest_t contests[] = {
    {"order", {1, GARDHNOSK_GROUNDED, 7, 256}, {0, 0, 0, 512}, 0, 0, 1},
    {"grounded", {3, 0, 7, 256}, {3, GARDHNOSK_GROUNDED, 0, 512}, 0, 0, 1},
    {"no other flag", {3, 0xFF - GARDHNOSK_GROUNDED, 7, 256}, {3, GARDHNOSK_GROUNDED, 0, 512}, 0, 0, 1},
    {"preference", {3, 0, 4, 256}, {3, 0, 5, 512}, 0, 0, 1},
    {"rank", {3, 0, 4, 257}, {3, 0, 4, 256}, 0, 1, 1},
    {"current", {3, 0, 4, 256}, {3, 0, 4, 256}, 1, 1, 1},
    {"position", {3, 0, 4, 256}, {3, 0, 4, 256}, -1, 0, 0},
    {"out of range", {200, 0, 200, 256}, {0, 0, 0, 512}, -1, 0, 1},
};

static void put_site(call_t *call, size_t position, site_t site)
{
    gardhnosk_neighbour *neighbour = &call->candidates.at[position].neighbour;
    put_candidate(call, position, EMPTY);
    neighbour->rank = site.rank;
    neighbour->flags = site.flags;
    neighbour->order = site.order;
    neighbour->preference = site.preference;
}

static void check_editions(void)
{
    for (size_t i = 0; i < LENGTH(contests); i++) {
        const contest_t *contest = &contests[i];
        call_t call = new_call();
        put_site(&call, 0, contest->first);
        put_site(&call, 1, contest->second);
        call.count = 2;
        if (contest->current >= 0) {
            call.own.flags = GARDHNOSK_CURRENT_GIVEN;
            call.own.current = (size_t)contest->current;
        }
        run(&call);
        same("edition 1", contest->decides, call.answer.parent, contest->in_first_edition);
        call.own.edition = 2;
        run(&call);
        same("edition 2", contest->decides, call.answer.parent, contest->in_second_edition);
    }
}

/* ---- refusals and leaf answers */

typedef struct {
    field_t field; /* of own */
    uint32_t value;
    size_t count, out_size;
    int wanted;
} refusal_t;

static const refusal_t refusals[] = {
    {OWN(nodetype), 3, 16, GARDHNOSK_OUTPUT_ROOM, GARDHNOSK_NONE},
    {OWN(minhop), 0, 17, GARDHNOSK_OUTPUT_ROOM, GARDHNOSK_REFUSAL_OWN},
    {OWN(flags), GARDHNOSK_CURRENT_GIVEN, 17, GARDHNOSK_OUTPUT_ROOM - 1, GARDHNOSK_REFUSAL_COUNT},
    {OWN(flags), GARDHNOSK_CURRENT_GIVEN, 0, GARDHNOSK_OUTPUT_ROOM - 1, GARDHNOSK_REFUSAL_CURRENT},
    {OWN(flags), 0, 16, GARDHNOSK_OUTPUT_ROOM - 1, GARDHNOSK_REFUSAL_OUTPUT},
    {OWN(edition), 3, 16, GARDHNOSK_OUTPUT_ROOM - 1, GARDHNOSK_REFUSAL_OUTPUT},
    {OWN(edition), 3, 16, GARDHNOSK_OUTPUT_ROOM, GARDHNOSK_REFUSAL_EDITION},
    {OWN(edition), 0, 16, GARDHNOSK_OUTPUT_ROOM, GARDHNOSK_REFUSAL_EDITION},
    {OWN(edition), 2, 16, GARDHNOSK_OUTPUT_ROOM, GARDHNOSK_NONE},
};

static void check_refusals(void)
{
    for (size_t i = 0; i < LENGTH(refusals); i++) {
        int refused = refusals[i].wanted != GARDHNOSK_NONE;
        call_t call = new_call();
        put_candidate(&call, 0, EMPTY);
        store(&call, 0, refusals[i].field, refusals[i].value);
        call.count = refusals[i].count;
        call.out_size = refusals[i].out_size;
        run(&call);
        same("refusal", "number", call.answer.refusal, (unsigned long)refusals[i].wanted);
        same("refusal", "parent", call.answer.parent, refused ? GARDHNOSK_NO_PARENT : 0);
        same("refusal", "rank", call.answer.rank, refused ? GARDHNOSK_NO_RANK : 1024);
        same("refusal", "verdict", call.answer.verdicts[0], refused ? GARDHNOSK_NONE : GARDHNOSK_UNBARRED);
        same("refusal", "place", call.answer.places[0], GARDHNOSK_NO_PLACE);
        same("refusal", "output", call.out[0], refused ? 0xEE : 2);
    }
}

typedef struct {
    const char *container;
    size_t zeros; /* bytes of it behind those */
    int wanted;
    unsigned long size; /* of what is passed on */
    const char *sent;   /* how it begins */
} leaf_t;

/* the link's latency and throughput are 1, its ETX is not known */
static const leaf_t leaves[] = {
    {"02 04 C8 00 00 00", 0, GARDHNOSK_LEAF_UNKNOWN, 0, ""},
    {"02 06 07 00 30 02 00 01", 0, GARDHNOSK_LEAF_AGGREGATE, 0, ""},
    {"02 06 07 00 00 02 00 01", 0, GARDHNOSK_LEAF_VALUE, 0, ""},
    {"02 06 03 00 00 02 00 FF", 0, GARDHNOSK_LEAF_HOPS, 0, ""},
    {"02 FE 02 00 80 FA", 250, GARDHNOSK_LEAF_LENGTH, 0, ""},
    {"02 FC 02 00 80 F8", 248, GARDHNOSK_NONE, 256, "02 FE 02 00 80 FA"},
    {"02 08 04 00 00 04 FF FF FF FF", 0, GARDHNOSK_LEAF_SUM, 0, ""},
    {"02 08 04 00 00 04 FF FF FF FE", 0, GARDHNOSK_NONE, 10, "02 08 04 00 00 04 FF FF FF FF"},
    {"02 08 05 00 00 04 FF FF FF FF", 0, GARDHNOSK_LEAF_SUM, 0, ""},
    {"02 08 05 00 00 04 FF FF FF FE", 0, GARDHNOSK_NONE, 10, "02 08 05 00 00 04 FF FF FF FF"},
};

/* what is passed on over a link of colour 513: counted, opened beside a full one, opened, and a constraint's reserved bits cleared */
static const struct {
    const char *container, *sent;
} colours[] = {
    {"02 07 08 00 80 03 FF 80 45", "02 07 08 00 80 03 00 80 46"},
    {"02 07 08 00 80 03 00 80 7F", "02 09 08 00 80 05 00 80 7F 80 41"},
    {"02 07 08 00 80 03 00 80 05", "02 09 08 00 80 05 00 80 05 80 41"},
    {"02 07 08 03 00 03 FF 80 7F", "02 07 08 03 00 03 00 80 41"},
};

static void check_colours(void)
{
    for (size_t i = 0; i < LENGTH(colours); i++) {
        call_t call = new_call();
        put_candidate(&call, 0, colours[i].container);
        call.candidates.at[0].neighbour.colour = 513;
        run(&call);
        size_t at = 0;
        for (const char *hex = colours[i].sent; *hex != 0; hex = next_byte(hex))
            same("colours", colours[i].container, call.out[at++], strtoul(hex, NULL, 16));
        same("colours", "size", call.answer.size, at);
    }
}

static void check_leaves(void)
{
    for (size_t i = 0; i < LENGTH(leaves); i++) {
        call_t call = new_call();
        put_candidate(&call, 0, leaves[i].container);
        call.candidates.at[0].neighbour.flags = GARDHNOSK_LATENCY_KNOWN | GARDHNOSK_THROUGHPUT_KNOWN;
        call.candidates.at[0].neighbour.latency = 1;
        call.candidates.at[0].neighbour.throughput = 1;
        call.lent_size += leaves[i].zeros;
        call.candidates.at[0].size += leaves[i].zeros;
        run(&call);
        same("leaf answer", leaves[i].container, call.answer.leaf, (unsigned long)leaves[i].wanted);
        same("leaf answer", "verdict", call.answer.verdicts[0], GARDHNOSK_UNBARRED);
        same("leaf answer", "parent", call.answer.parent, 0);
        same("leaf answer", "rank", call.answer.rank, 1024);
        same("leaf answer", "bits", call.answer.bits, 1);
        same("leaf answer", "count", call.answer.count, 1);
        same("leaf answer", "size", call.answer.size, leaves[i].size);
        size_t at = 0;
        for (const char *hex = leaves[i].sent; *hex != 0; hex = next_byte(hex))
            same("leaf answer", "what is passed on", call.out[at++], strtoul(hex, NULL, 16));
        for (at = leaves[i].size; at < sizeof call.out; at++) same("leaf answer", "output", call.out[at], 0xEE);
    }
}

/* ---- the two texts, and pointers to nothing */

static void check_list(void)
{
    static const uint8_t container[] = {2, 17, 7, 0, 0, 2, 1, 0xC9, 2, 2, 0, 2, 8, 0, 0xC8, 0, 0x80, 1, 0xAA};
    uint8_t out[GARDHNOSK_TEXT_ROOM];
    memset(out, 0xEE, sizeof out);
    same("list", "short output", gardhnosk_list(container, sizeof container, out, sizeof out - 1), GARDHNOSK_NO_TEXT);
    same("list", "short output", out[0], 0xEE);
    size_t size = gardhnosk_list(container, sizeof container, out, sizeof out);
    same_text("list", out, size, "7 0 0 0 0 0 2\n2 1 0 0 0 0 2\n200 0 0 1 0 0 1\n");
    same("list", "behind the text", out[44], 0xEE);
    same_text("list, cut short", out, gardhnosk_list(container, 18, out, sizeof out), "refused 13\n");
}

/* the words of include/gardhnosk.h, as tests/gate/c-header takes them out of it */
typedef struct {
    int number;
    const char *words;
} words_t;

static const words_t all_words[] = {
#include "words.inc"
};

static void check_meanings(void)
{
    for (int number = 0; number < 256; number++) {
        uint8_t out[GARDHNOSK_MEANING_ROOM];
        const char *wanted = "";
        char name[20];
        memset(out, 0xEE, sizeof out);
        for (size_t i = 0; i < LENGTH(all_words); i++)
            if (all_words[i].number == number) wanted = all_words[i].words;
        snprintf(name, sizeof name, "meaning of %d", number);
        same(name, "short output", gardhnosk_meaning((uint8_t)number, out, sizeof out - 1), 0);
        same(name, "short output", out[0], 0xEE);
        same_text(name, out, gardhnosk_meaning((uint8_t)number, out, sizeof out), wanted);
        same(name, "behind the words", out[strlen(wanted)], 0xEE);
    }
}

static void check_nulls(void)
{
    uint8_t out[GARDHNOSK_TEXT_ROOM];
    call_t call = new_call();
    put_candidate(&call, 0, "");
    call.answer = gardhnosk_choose(call.own, call.candidates, 1, NULL, 0, call.out, call.out_size);
    same("null", "lent", call.answer.verdicts[0], GARDHNOSK_UNBARRED);
    same("null", "size", call.answer.size, 2);
    call.answer = gardhnosk_choose(call.own, call.candidates, 1, NULL, 0, NULL, 0);
    same("null", "out", call.answer.refusal, GARDHNOSK_REFUSAL_OUTPUT);
    same_text("null container", out, gardhnosk_list(NULL, 0, out, sizeof out), "refused 13\n");
    same("null", "text", gardhnosk_list(NULL, 0, NULL, 0), GARDHNOSK_NO_TEXT);
    same("null", "words", gardhnosk_meaning(GARDHNOSK_UNBARRED, NULL, 0), 0);
}

int main(void)
{
    check_layout();
    check_passages();
    check_answer();
    check_count();
    check_current();
    check_editions();
    check_refusals();
    check_leaves();
    check_colours();
    check_losses();
    check_runs();
    check_two_sent();
    check_feed();
    check_reasons_of(call_with_all_verdicts());
    check_questions();
    check_findings();
    check_list();
    check_meanings();
    check_nulls();
    if (failed != 0) printf("%u of %u comparisons failed\n", failed, checked);
    return failed != 0;
}
