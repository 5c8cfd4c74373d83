/*
 * Gardhnosk: routing metrics for RPL meshes. A node hands over what it knows of up to 16 neighbours, each with the run of RPL options
 * received from it, in which stand its DAG Metric Containers (RFC 6551), and receives a verdict on each, its preferred parent, its
 * rank (RFC 6552) and the containers to send on. For C99 and C++11 on x86-64; link libgardhnosk.a, and for gardhnosk_why and gardhnosk_examine, which tell why,
 * libgardhnosk_reasons.a.
 *
 * Every call answers, whatever the numbers and the bytes. Nothing is kept or allocated: calls from several threads need no lock.
 * While a call runs, nobody else may write to the bytes that it reads or to its output, no thread, no interrupt and no DMA: it
 * reads a run several times, and where that changes meanwhile it can write past an array on its stack. So copy a buffer
 * that is still being received into, and lend the copy.
 * A pointer is valid for the size beside it; where that is 0 nothing is read or written, and it may be null. An output overlaps
 * no input. Stack, with what a call is passed, as measured: under 3 KB for gardhnosk_choose and gardhnosk_why, 2 KB for gardhnosk_meaning
 * and gardhnosk_examine, and 1 KB for gardhnosk_list and gardhnosk_feed, but for what a dynamic linker takes at a first call of memcpy.
 */
#ifndef GARDHNOSK_H
#define GARDHNOSK_H

#include <stddef.h>
#include <stdint.h>

#ifdef __cplusplus
extern "C" {
#endif

/* The library is for machines whose size_t has 64 bits; on others this does not compile. */
typedef char gardhnosk_needs_a_size_t_of_64_bits[sizeof(size_t) == 8 ? 1 : -1];

/* The numbers that a call can answer. gardhnosk_meaning gives the words beside them. */
enum {
    GARDHNOSK_NONE = 0, /* nothing to report: not refused, no leaf answer, or no candidate at this position */

    /* refusals of a whole call, or of a question (not 4, and 6 alone is a question's): the first that holds */
    GARDHNOSK_REFUSAL_OWN = 1,      /* MinHopRankIncrease is 0, or the node's own type is above 3 */
    GARDHNOSK_REFUSAL_COUNT = 2,    /* more than 16 candidates */
    GARDHNOSK_REFUSAL_CURRENT = 3,  /* the current parent's position is not below the number of candidates */
    GARDHNOSK_REFUSAL_OUTPUT = 4,   /* the output is shorter than 2056 bytes */
    GARDHNOSK_REFUSAL_EDITION = 5,  /* the edition is not 1 or 2 */
    GARDHNOSK_REFUSAL_POSITION = 6, /* the position is not below the number of candidates */

    /* verdicts on a candidate: it can be the parent, or it is barred, by the first of 11, 12, 22, 23, 14 to 21
     * that holds; 13 is given by gardhnosk_list alone */
    GARDHNOSK_UNBARRED = 10,     /* unbarred */
    GARDHNOSK_BAR_NUMBERS = 11,  /* Sp, Rf, Sr, LQL, type or colour out of range; in edition 2 also interface order or root preference */
    GARDHNOSK_BAR_OUTSIDE = 12,  /* the run of options is not inside the lent bytes */
    GARDHNOSK_BAR_FRAME = 13,    /* the container is under 2 bytes, does not start with 2, or its data length is wrong */
    GARDHNOSK_BAR_OBJECT = 14,   /* an object's header or body runs past the end of its container */
    GARDHNOSK_BAR_BODY = 15,     /* an object of known type has a body that its type does not allow, or a TLV overruns */
    GARDHNOSK_BAR_REPEAT = 16,   /* an object of known type stood before, as constraint or as metric both times */
    GARDHNOSK_BAR_RECORDED = 17, /* an NSA or HP metric is recorded, or an LQL or colour metric is not */
    GARDHNOSK_BAR_UNKNOWN = 18,  /* a mandatory constraint of unknown type */
    GARDHNOSK_BAR_UNMET = 19,    /* a mandatory constraint is not met */
    GARDHNOSK_BAR_RANK = 20,     /* the advertised rank is 65535, or the resulting rank is 65535 or more */
    GARDHNOSK_BAR_INCREASE = 21, /* the resulting rank is above the lowest rank advertised plus DAGMaxRankIncrease */
    GARDHNOSK_BAR_OPTION = 22,   /* an option is cut short at the end of the run */
    GARDHNOSK_BAR_CONTAINERS = 23, /* a ninth container */

    /* leaf answers: the node joins as a leaf, and sends no container on */
    GARDHNOSK_LEAF_UNKNOWN = 31,   /* an aggregated metric of unknown type */
    GARDHNOSK_LEAF_AGGREGATE = 32, /* a metric is aggregated in a way that its type does not allow */
    GARDHNOSK_LEAF_VALUE = 33,     /* the local value of an aggregated metric is unknown, or energy came without an estimate */
    GARDHNOSK_LEAF_HOPS = 34,      /* the hop count is 255 already */
    GARDHNOSK_LEAF_LENGTH = 35,    /* an object to send on would have more than 255 bytes, or a ninth container would be needed */
    GARDHNOSK_LEAF_SUM = 36        /* a throughput or latency added up along the path would be above 4294967295 */
};

enum {
    GARDHNOSK_CANDIDATES = 16,    /* the most candidates of a call */
    GARDHNOSK_NO_PARENT = 255,    /* in place of a parent's position */
    GARDHNOSK_NO_RANK = 65535,    /* in place of a rank: the infinite rank */
    GARDHNOSK_NO_PLACE = 65535,   /* in place of an object's index */
    GARDHNOSK_CONTAINERS = 8,     /* the most containers of a run, and of what is sent on */
    GARDHNOSK_OUTPUT_ROOM = 2056, /* bytes that hold any containers to send on: 8 times 2 + 255 */
    GARDHNOSK_KEPT_ROOM = 2059,   /* bytes that hold what is kept of any run that is fed in parts */
    GARDHNOSK_TEXT_ROOM = 1100,   /* bytes that hold the text of any container */
    GARDHNOSK_MEANING_ROOM = 100  /* bytes that hold the words for any number */
};

/* gardhnosk_list's answer for an output under GARDHNOSK_TEXT_ROOM bytes */
#define GARDHNOSK_NO_TEXT ((size_t)-1)

/* Bits of flags. Other bits are ignored; a number whose bit is not set is ignored too. */
enum {
    GARDHNOSK_OVERLOADED = 0x01,       /* own, neighbour: the node is overloaded */
    GARDHNOSK_AGGREGATOR = 0x02,       /* own, neighbour: the node aggregates */
    GARDHNOSK_ENERGY_KNOWN = 0x04,     /* own, neighbour: energy is known */
    GARDHNOSK_LOWEST_GIVEN = 0x08,     /* own: a rank was advertised before */
    GARDHNOSK_CURRENT_GIVEN = 0x10,    /* own: there is a current parent */
    GARDHNOSK_ETX_KNOWN = 0x08,        /* neighbour: etx is known */
    GARDHNOSK_LATENCY_KNOWN = 0x10,    /* neighbour: latency is known */
    GARDHNOSK_THROUGHPUT_KNOWN = 0x20, /* neighbour: throughput is known */
    GARDHNOSK_GROUNDED = 0x40          /* neighbour: its DODAG is grounded; edition 1 ignores it */
};

/*
 * The node's own numbers. The edition says by what unbarred candidates are compared, the first on which two differ deciding:
 *   1: the lower resulting rank, then the current parent, then the lower position;
 *   2: the lower interface order, then a grounded DODAG, then the higher root preference, and then as edition 1.
 * It is to be set: a zeroed struct in which it is left out names edition 0, and its call is GARDHNOSK_REFUSAL_EDITION; so does a list of
 * values that ends before it. It is newer than the other fields: compile anew what was compiled with a header without it.
 *
 * A call does not know who is below the node. Offer it no neighbour that has this node on its own way to the root: in edition 1 such a one
 * loses by its rank as long as there is a better one, in edition 2 it can win by what comes before the rank, and make a loop. lowest and
 * maxincrease (GARDHNOSK_BAR_INCREASE) limit this, and do not rule it out.
 *
 * The energy is E_E of RFC 6551, section 3.2, an estimate in percent: on a battery the expected lifetime divided by the one wanted, on a
 * scavenger the power provided divided by the power consumed. So it can be above 100.
 */
typedef struct {
    uint16_t minhop;      /* MinHopRankIncrease, not 0 */
    uint16_t maxincrease; /* DAGMaxRankIncrease; 0: no limit */
    uint16_t lowest;      /* the lowest rank advertised so far, with GARDHNOSK_LOWEST_GIVEN */
    uint8_t nodetype;     /* T of RFC 6551's NE: 0 mains, 1 battery, 2 scavenger; 3 is accepted, RFC 6551 gives it no meaning */
    uint8_t flags;        /* GARDHNOSK_OVERLOADED to GARDHNOSK_CURRENT_GIVEN */
    uint8_t energy;       /* remaining energy in percent, 0 to 255, with GARDHNOSK_ENERGY_KNOWN */
    size_t current;       /* the current parent's position among the candidates, with GARDHNOSK_CURRENT_GIVEN */
    uint8_t edition;      /* 1, or 2 */
} gardhnosk_own;

/*
 * What is known of a neighbour and of the link to it. The rank grows by rf x sp + sr units of MinHopRankIncrease (RFC 6552,
 * section 4.1); with that RFC's defaults, sp 3, rf 1 and sr 0, a hop is three units.
 *
 * A mandatory limit on ETX or latency in a container is met where the link's value is known and, together with what the same container
 * has added up on the way (a metric of that type with R=0 and A=0; 0 where it has none), at most the limit: in whole numbers, before
 * an ETX stops at 65535. A link whose value is not known meets no limit: GARDHNOSK_BAR_UNMET.
 *
 * A mandatory colour in a container (type 8) with I=1 is met where every bit that is set there is set in the link's colour, which may have
 * more; with I=0 where at least one of them is not. So a colour of 0 is met by every link with I=1, and by none with I=0. The first bit of
 * RFC 6551's field is 512, the last is 1.
 *
 * Interface order, GARDHNOSK_GROUNDED and root preference are read in edition 2 only, where an order or a preference above 7 is
 * GARDHNOSK_BAR_NUMBERS. In edition 1 they may hold anything.
 *
 * The colour, the order and the preference are newer than the other fields, and stand where a candidate had padding; GARDHNOSK_GROUNDED was
 * ignored before. Compile anew what was compiled with a header without them, and set them: the colour to 0 where links have none, the others
 * for edition 2. Otherwise what was there can be GARDHNOSK_BAR_NUMBERS, or in edition 2 another parent. In a list of values without
 * inner braces they stand before start and size.
 */
typedef struct {
    uint16_t rank;       /* the rank that it advertised */
    uint8_t sp;          /* Sp, step_of_rank: 1 to 9, usually 3 (DEFAULT_STEP_OF_RANK) */
    uint8_t rf;          /* Rf, rank_factor: 1 to 4, usually 1 (DEFAULT_RANK_FACTOR) */
    uint8_t sr;          /* Sr, up to stretch_of_rank: 0 to 5, usually 0 (DEFAULT_RANK_STRETCH) */
    uint8_t nodetype;    /* as own's, 0 to 3 */
    uint8_t flags;       /* OVERLOADED, AGGREGATOR, ENERGY_KNOWN, ETX_KNOWN, LATENCY_KNOWN, THROUGHPUT_KNOWN, GROUNDED */
    uint8_t energy;      /* as own's, in percent, with GARDHNOSK_ENERGY_KNOWN */
    uint8_t lql;         /* the link's quality level, 1 best to 7; 0 unknown */
    uint16_t etx;        /* the link's ETX times 128, with GARDHNOSK_ETX_KNOWN */
    uint32_t latency;    /* the link's latency in microseconds, with GARDHNOSK_LATENCY_KNOWN */
    uint32_t throughput; /* the link's throughput in bytes per second, with GARDHNOSK_THROUGHPUT_KNOWN */
    uint16_t colour;     /* the link's colour, 0 to 1023: ten flag bits of the network's own meaning; 0: none is set */
    uint8_t order;       /* the order of the interface that it is heard on, 0 best to 7, in edition 2 */
    uint8_t preference;  /* its root's preference (DODAGPreference), 0 to 7, 7 best, in edition 2 */
} gardhnosk_neighbour;

/*
 * A candidate: a neighbour, and where its run of RPL options stands in the lent bytes: all options of a DIO behind its base, as received, or
 * any part of them that is whole options; a single container is such a run. Pad1 (a single byte 0) and PadN (type 1) are skipped, other
 * options stepped over, and the objects of all containers (type 2), at most 8, are joined in order: what is said of a container's objects
 * holds of all of them, and indexes count them through. A run without a container, or of no bytes, is as one empty container. Runs may
 * overlap.
 */
typedef struct {
    gardhnosk_neighbour neighbour;
    size_t start; /* the index of the run's first byte */
    size_t size;  /* its length in bytes */
} gardhnosk_candidate;

/*
 * The candidates of a call, at the positions 0 to 15. All 16 are copied, so all are readable memory; those from the call's count on
 * are ignored, and may hold anything.
 */
typedef struct {
    gardhnosk_candidate at[GARDHNOSK_CANDIDATES];
} gardhnosk_candidates;

/* The answer of gardhnosk_choose. A refused call has a refusal, no parent, no rank, no places (the three constants), and else zeros. */
typedef struct {
    uint8_t refusal;                          /* GARDHNOSK_NONE, or a refusal */
    uint8_t parent;                           /* the preferred parent's position, or GARDHNOSK_NO_PARENT */
    uint16_t rank;                            /* the node's rank, or GARDHNOSK_NO_RANK */
    uint8_t verdicts[GARDHNOSK_CANDIDATES];   /* by position: GARDHNOSK_UNBARRED, a bar, or GARDHNOSK_NONE from the count on */
    uint16_t places[GARDHNOSK_CANDIDATES];    /* the index, from 0, of the object that bars by 15 to 19, or GARDHNOSK_NO_PLACE */
    uint16_t bits;                            /* bit i is 1 where the candidate at position i is unbarred */
    uint8_t count;                            /* how many are unbarred */
    uint8_t leaf;                             /* GARDHNOSK_NONE, or a leaf answer */
    uint16_t size;                            /* the length of the containers in the output, all of them; 0: none */
} gardhnosk_answer;

/*
 * Chooses a preferred parent among the first count candidates, and writes what to send on to the start of out, of at least
 * GARDHNOSK_OUTPUT_ROOM bytes: one container, and a further one only where the next object would make it pass 255 bytes of data. lent holds
 * the candidates' runs. The bytes of out behind answer.size stay as they were; where answer.size is 0, all do.
 */
gardhnosk_answer gardhnosk_choose(gardhnosk_own own, gardhnosk_candidates candidates, size_t count, const uint8_t *lent,
                                  size_t lent_size, uint8_t *out, size_t out_size);

/*
 * What was fed of a run so far. All zeros before the first part; any other values are answered too. Of the run at most GARDHNOSK_KEPT_ROOM
 * bytes are kept, its containers, which a call reads as all that was fed: give the buffer's index in the lent bytes as a candidate's start,
 * and size as its size, whenever you like, between two parts too, but not where phase is GARDHNOSK_FED_SHORT. Verdict, choice and output
 * are then those of the whole run; what gardhnosk_examine tells of it by the ways 37 to 39 is said of the bytes kept.
 */
typedef struct {
    uint16_t size;   /* how many bytes are kept, from the start of the buffer on */
    uint8_t phase;   /* where the run stands, or GARDHNOSK_FED_SHORT; the fields below are for gardhnosk_feed alone */
    uint8_t keep;
    uint8_t missing;
    uint8_t count;
} gardhnosk_fed;

/* phase after a part that came with a buffer under GARDHNOSK_KEPT_ROOM bytes: it stays so, and nothing is stored, until you start anew */
#define GARDHNOSK_FED_SHORT 255

/*
 * Takes the next part of a run, which may be split anywhere, into kept, the same buffer for all parts of the run. Answers the state for the
 * next part. Only where a run comes in parts: one that lies in memory whole is judged there.
 */
gardhnosk_fed gardhnosk_feed(gardhnosk_fed state, const uint8_t *part, size_t part_size, uint8_t *kept, size_t kept_size);

/* Why a candidate is the parent, or is not. */
enum {
    GARDHNOSK_WHY_REFUSED = 0, /* the question is refused */
    GARDHNOSK_WHY_CHOSEN = 1,  /* it is the parent, also where the node joins as a leaf */
    GARDHNOSK_WHY_BARRED = 2,  /* it is barred */
    GARDHNOSK_WHY_BEATEN = 3   /* it could be the parent, but the parent is better on a criterion */
};

/* The criteria, in the order in which they decide; the first three in edition 2 only. value and against are what the two have there: */
enum {
    GARDHNOSK_BY_ORDER = 1,      /* interface order: the lower wins */
    GARDHNOSK_BY_GROUNDED = 2,   /* 1 where the DODAG is grounded, 0 where not: 1 wins */
    GARDHNOSK_BY_PREFERENCE = 3, /* root preference: the higher wins */
    GARDHNOSK_BY_RANK = 4,       /* resulting rank: the lower wins */
    GARDHNOSK_BY_CURRENT = 5,    /* 1 for the current parent, 0 for another: 1 wins */
    GARDHNOSK_BY_POSITION = 6    /* position: the lower wins */
};

/* The answer of gardhnosk_why. What a kind does not have is 0, GARDHNOSK_NO_PARENT or GARDHNOSK_NO_PLACE. */
typedef struct {
    uint8_t refusal;   /* GARDHNOSK_NONE, or why the question is refused */
    uint8_t kind;      /* GARDHNOSK_WHY_REFUSED to GARDHNOSK_WHY_BEATEN */
    uint8_t number;    /* barred: the bar, as the verdict of gardhnosk_choose */
    uint8_t parent;    /* beaten: the parent's position */
    uint8_t criterion; /* beaten: the first criterion on which the two differ, GARDHNOSK_BY_ORDER to GARDHNOSK_BY_POSITION */
    uint16_t place;    /* barred by 15 to 19: the index, from 0, of the object that bars */
    uint16_t value;    /* beaten: what the candidate has on that criterion */
    uint16_t against;  /* beaten: what the parent has */
} gardhnosk_reason;

/*
 * Tells why the candidate at a position is the parent or is not, for the call with the same arguments. Refusals are those of
 * gardhnosk_choose but for GARDHNOSK_REFUSAL_OUTPUT, since no output is lent; behind them GARDHNOSK_REFUSAL_POSITION.
 */
gardhnosk_reason gardhnosk_why(gardhnosk_own own, gardhnosk_candidates candidates, size_t count, const uint8_t *lent,
                               size_t lent_size, size_t position);

/*
 * In what way a candidate that is barred by 11, 12, 14, 19, 22 or 23 falls short, and what which, asked and found of gardhnosk_finding are
 * then. 10 to 12 were bar 13's, and are given no more. A number that is not named is 0. Where several hold of what bars it, for 19 of the object that bars, the first of this order is told.
 */
enum {
    GARDHNOSK_WAY_NONE = 0, /* it is unbarred, or barred by another number: nothing is told */

    /* 11: the number found is not in its range, which to asked */
    GARDHNOSK_WAY_SP = 1,
    GARDHNOSK_WAY_RF = 2,
    GARDHNOSK_WAY_SR = 3,
    GARDHNOSK_WAY_LQL = 4,
    GARDHNOSK_WAY_TYPE = 5,
    GARDHNOSK_WAY_COLOUR = 6,
    GARDHNOSK_WAY_ORDER = 7,
    GARDHNOSK_WAY_PREFERENCE = 8,

    GARDHNOSK_WAY_OUTSIDE = 9, /* 12: a run of asked bytes that starts at index which; found bytes are lent */

    GARDHNOSK_WAY_HEADER = 13, /* 14: of the header of the object with index which, of asked bytes, 4, found are in its container */
    GARDHNOSK_WAY_BODY = 14,   /* 14: of the body of the object with index which, by its header asked bytes, found are in its container */

    GARDHNOSK_WAY_AGGREGATOR = 15, /* 19, NSA: an aggregating neighbour is asked for; this one does not aggregate */
    GARDHNOSK_WAY_OVERLOADED = 16, /* 19, NSA: one that is not overloaded is asked for; this one is overloaded */

    GARDHNOSK_WAY_OTHER_TYPE = 17,     /* 19, NE, I=1: nodes of type asked; this one is of type found */
    GARDHNOSK_WAY_LITTLE_ENERGY = 18,  /* 19, NE, I=1: nodes of type which with energy above asked; this one has found */
    GARDHNOSK_WAY_UNKNOWN_ENERGY = 19, /* 19, NE, I=1: nodes of type which with energy above asked; this one's is not known */
    GARDHNOSK_WAY_BARRED_TYPE = 20,    /* 19, NE, I=0: no nodes of type asked; this one is of type found, the same */
    GARDHNOSK_WAY_BARRED_ENERGY = 21,  /* 19, NE, I=0: no nodes of type which with energy below asked; this one has found */
    GARDHNOSK_WAY_BARRED_UNKNOWN = 22, /* 19, NE, I=0: no nodes of type which with energy below asked; this one's is not known */

    GARDHNOSK_WAY_HOPS = 23,         /* 19, HP: fewer hops than asked; the HP metric counts found */
    GARDHNOSK_WAY_UNKNOWN_HOPS = 24, /* 19, HP: fewer hops than asked; there is no HP metric */

    GARDHNOSK_WAY_THROUGHPUT = 25,         /* 19: asked bytes per second at least; the link has found */
    GARDHNOSK_WAY_UNKNOWN_THROUGHPUT = 26, /* 19: asked bytes per second at least; the link's throughput is not known */

    GARDHNOSK_WAY_LATENCY = 27,         /* 19: asked microseconds at most; the link has found, and nothing was received */
    GARDHNOSK_WAY_PATH_LATENCY = 28,    /* 19: asked microseconds at most; the path has found, of which which, not 0, was received */
    GARDHNOSK_WAY_UNKNOWN_LATENCY = 29, /* 19: asked microseconds at most; the link's latency is not known, and which was received */
    GARDHNOSK_WAY_ETX = 30,             /* 19, ETX times 128: as GARDHNOSK_WAY_LATENCY */
    GARDHNOSK_WAY_PATH_ETX = 31,        /* 19, ETX times 128: as GARDHNOSK_WAY_PATH_LATENCY */
    GARDHNOSK_WAY_UNKNOWN_ETX = 32,     /* 19, ETX times 128: as GARDHNOSK_WAY_UNKNOWN_LATENCY */

    GARDHNOSK_WAY_QUALITY = 33,         /* 19, LQL: a level from 1 to asked; the link has found */
    GARDHNOSK_WAY_UNKNOWN_QUALITY = 34, /* 19, LQL: a level from 1 to asked; the link's is not known */

    GARDHNOSK_WAY_LACKS_COLOUR = 35, /* 19, colour, I=1: links that have colour asked; this one has found */
    GARDHNOSK_WAY_HAS_COLOUR = 36,   /* 19, colour, I=0: links that do not have colour asked; this one has found */

    GARDHNOSK_WAY_OPTION = 37,      /* 22: of the type and length of the option at byte which of the run, asked bytes, 2, found, 1, are there */
    GARDHNOSK_WAY_OPTION_DATA = 38, /* 22: of the data of the option at byte which of the run, by its length asked bytes, found are there */
    GARDHNOSK_WAY_CONTAINERS = 39   /* 23: asked containers, 8, are the most; there are found */
};

/* The answer of gardhnosk_examine. */
typedef struct {
    uint8_t way; /* GARDHNOSK_WAY_NONE to GARDHNOSK_WAY_CONTAINERS */
    uint64_t which;
    uint64_t asked;
    uint64_t found;
} gardhnosk_finding;

/*
 * Tells what was asked of a candidate that is barred by 11, 12, 14, 19, 22 or 23, and what was found: for 19, of the object that bars it,
 * which gardhnosk_why names. lent holds the candidate's run, as for gardhnosk_choose. Nothing is refused: the own numbers may be any.
 */
gardhnosk_finding gardhnosk_examine(gardhnosk_own own, gardhnosk_candidate candidate, const uint8_t *lent, size_t lent_size);

/*
 * Writes the text that lists a container to the start of out, of at least GARDHNOSK_TEXT_ROOM bytes: a line of type, C, O, R, A,
 * Prec and length for each object, or "refused N". Answers the length of the text, which no 0 ends, or GARDHNOSK_NO_TEXT.
 */
size_t gardhnosk_list(const uint8_t *container, size_t size, uint8_t *out, size_t out_size);

/*
 * Writes what a number means, in words, to the start of out, of at least GARDHNOSK_MEANING_ROOM bytes. Answers the length of the
 * words, which no 0 ends: 0 for a number without a meaning, or for a shorter output, which stays as it was.
 */
size_t gardhnosk_meaning(uint8_t number, uint8_t *out, size_t out_size);

#ifdef __cplusplus
}
#endif

#endif
