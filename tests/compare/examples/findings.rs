//! Findings: each way in which a candidate falls short, and what tells nothing.

use super::{bytes, framed, Trial, NEIGHBOUR, OWN};
use crate::reference::data::{
    Candidate, Finding, Neighbour, Own, AGGREGATOR, ENERGY_KNOWN, FIRST_EDITION, LOWEST_GIVEN,
    OVERLOADED, SECOND_EDITION, THROUGHPUT_KNOWN,
};

/// The way, which, asked and found.
type Told = (u8, u64, u64, u64);

const NOTHING: Told = (0, 0, 0, 0);

/// Every number is out of range; then one after another is put right, at an end of its range.
const WRONG: Neighbour = Neighbour {
    sp: 10,
    rf: 5,
    sr: 6,
    lql: 8,
    nodetype: 4,
    colour: 1024,
    order: 8,
    preference: 9,
    ..NEIGHBOUR
};
const SP_RIGHT: Neighbour = Neighbour { sp: 9, ..WRONG };
const RF_RIGHT: Neighbour = Neighbour { rf: 4, ..SP_RIGHT };
const SR_RIGHT: Neighbour = Neighbour { sr: 5, ..RF_RIGHT };
const LQL_RIGHT: Neighbour = Neighbour { lql: 7, ..SR_RIGHT };
const TYPE_RIGHT: Neighbour = Neighbour {
    nodetype: 3,
    ..LQL_RIGHT
};
const COLOUR_RIGHT: Neighbour = Neighbour {
    colour: 1023,
    ..TYPE_RIGHT
};
const ORDER_RIGHT: Neighbour = Neighbour {
    order: 7,
    ..COLOUR_RIGHT
};
const RIGHT: Neighbour = Neighbour {
    preference: 7,
    ..ORDER_RIGHT
};

/// A neighbour with a run of the byte 02 (22, where no number bars it), and what is told in edition
/// 1 and in edition 2.
const RANGES: &[(Neighbour, [Told; 2])] = &[
    (WRONG, [(1, 1, 9, 10); 2]),
    (Neighbour { sp: 0, ..WRONG }, [(1, 1, 9, 0); 2]),
    (SP_RIGHT, [(2, 1, 4, 5); 2]),
    (Neighbour { rf: 0, ..SP_RIGHT }, [(2, 1, 4, 0); 2]),
    (RF_RIGHT, [(3, 0, 5, 6); 2]),
    (SR_RIGHT, [(4, 0, 7, 8); 2]),
    (LQL_RIGHT, [(5, 0, 3, 4); 2]),
    (TYPE_RIGHT, [(6, 0, 1023, 1024); 2]),
    (COLOUR_RIGHT, [(37, 0, 2, 1), (7, 0, 7, 8)]),
    (ORDER_RIGHT, [(37, 0, 2, 1), (8, 0, 7, 9)]),
    (RIGHT, [(37, 0, 2, 1); 2]),
];

/// Start and size of a run in the lent bytes 02 00.
const PLACES: &[(usize, usize, Told)] = &[
    (0, 2, NOTHING),
    (0, 1, (37, 0, 2, 1)),
    (1, 1, NOTHING),
    (2, 0, NOTHING),
    (3, 0, (9, 3, 0, 2)),
    (1, 2, (9, 1, 2, 2)),
    (0, 3, (9, 0, 3, 2)),
    (2, usize::MAX, (9, 2, u64::MAX, 2)),
    (usize::MAX, usize::MAX, (9, u64::MAX, u64::MAX, 2)),
];

/// Whole runs: an option's length, its data; a header and a body that run past the end.
const RUNS: &[(&str, Told)] = &[
    ("", NOTHING),
    ("03 00", NOTHING),
    ("02 00 00", NOTHING),
    ("02", (37, 0, 2, 1)),
    ("01", (37, 0, 2, 1)),
    ("FF", (37, 0, 2, 1)),
    ("00 07", (37, 1, 2, 1)),
    ("02 00 00 01 02 00 00 02", (37, 7, 2, 1)),
    ("02 01", (38, 0, 1, 0)),
    ("02 FF 07 00 00", (38, 0, 255, 3)),
    ("00 00 01 05 00 00 00 00", (38, 2, 5, 4)),
    ("02 00 03 01 02 02 02 02", (38, 5, 2, 1)),
    // 22 goes before 23, and 23 before 14
    (
        "02 00 02 00 02 00 02 00 02 00 02 00 02 00 02 00 02 00 09",
        (37, 18, 2, 1),
    ),
    (
        "02 00 02 00 02 00 02 00 02 00 02 00 02 00 02 00 02 00",
        (39, 0, 8, 9),
    ),
    (
        "02 01 07 02 00 02 00 02 00 02 00 02 00 02 00 00 02 00 01 02 02 00 02 00 02 00",
        (39, 0, 8, 10),
    ),
    (
        "02 00 02 00 02 00 02 00 02 00 02 00 02 00 02 01 07",
        (13, 0, 4, 1),
    ),
    ("02 01 07", (13, 0, 4, 1)),
    ("02 03 07 00 00", (13, 0, 4, 3)),
    ("02 04 07 00 00 01", (14, 0, 1, 0)),
    ("02 05 07 00 00 FF 01", (14, 0, 255, 1)),
    // behind an object that is whole, though its body is not as tabled
    ("02 07 07 00 00 01 01 07 00", (13, 1, 4, 2)),
    ("02 0A 07 00 00 01 01 07 00 00 02 01", (14, 1, 2, 1)),
    // in a later container: the index counts all objects, the bytes are those of its own
    ("02 04 C8 01 00 00 02 01 07", (13, 1, 4, 1)),
    (
        "02 04 C8 01 00 00 02 00 00 02 06 07 00 00 02 01 C9 02 02 07 00",
        (13, 2, 4, 2),
    ),
    ("02 05 07 00 00 02 01 02 01 C9", (14, 0, 2, 1)),
    ("02 03 07 00 00 02 03 02 01 C9", (13, 0, 4, 3)),
    ("02 05 07 00 00 01 01 02 05 07 00 00 02 01", (14, 1, 2, 1)),
];

/// What the constraints of a neighbour's container find.
const OBJECTS: &[(Neighbour, &[(&str, Told)])] = &[
    // unbarred; 15, 16, 17 and 18, of which nothing is told
    (
        NEIGHBOUR,
        &[
            ("", NOTHING),
            ("07 02 00 02 00 80", NOTHING),
            ("07 02 00 01 00", NOTHING),
            ("07 02 00 02 00 7F 07 02 00 02 00 7F", NOTHING),
            ("01 00 80 00", NOTHING),
            ("09 02 00 00 07 02 00 02 00 7F", NOTHING),
        ],
    ),
    // NSA: overloaded, and not aggregating; the first that holds
    (
        NEIGHBOUR,
        &[
            ("01 02 00 02 FF 02", (15, 0, 0, 0)),
            ("01 02 00 02 FF 01", (16, 0, 0, 0)),
            ("01 02 00 02 FF FF", (15, 0, 0, 0)),
        ],
    ),
    (AGGREGATING, &[("01 02 00 02 00 03", (16, 0, 0, 0))]),
    // NE, type 2 of energy 50: I=1, then I=0
    (
        ENERGY_50,
        &[
            ("02 02 00 02 0A 00", (17, 0, 1, 2)),
            ("02 02 00 02 0F FF", (17, 0, 3, 2)),
            ("02 02 00 02 FD 32", (18, 2, 50, 50)),
            ("02 02 00 02 0D FF", (18, 2, 255, 50)),
            ("02 02 00 02 04 00", (20, 0, 2, 2)),
            ("02 02 00 02 F4 FF", (20, 0, 2, 2)),
            ("02 02 00 02 05 33", (21, 2, 51, 50)),
        ],
    ),
    (
        ENERGY_UNKNOWN,
        &[
            ("02 02 00 02 09 00", (17, 0, 0, 2)),
            ("02 02 00 02 0D 32", (19, 2, 50, 0)),
            ("02 02 00 02 04 33", (20, 0, 2, 2)),
            ("02 02 00 02 05 33", (22, 2, 51, 0)),
            ("02 02 00 02 05 00", (22, 2, 0, 0)),
        ],
    ),
    // HP: the metric before the limit, behind it, or nowhere
    (
        NEIGHBOUR,
        &[
            ("03 00 00 02 00 04 03 02 00 02 00 04", (23, 0, 4, 4)),
            ("03 02 00 02 00 04 03 00 70 02 00 FF", (23, 0, 4, 255)),
            ("03 02 00 02 00 00 03 00 00 02 00 00", (23, 0, 0, 0)),
            ("03 02 00 02 FF 04", (24, 0, 4, 0)),
        ],
    ),
    // throughput; a metric adds nothing to it
    (
        FAST,
        &[
            ("04 02 00 04 00 00 03 E9", (25, 0, 1001, 1000)),
            ("04 02 00 04 FF FF FF FF", (25, 0, 4294967295, 1000)),
            (
                "04 00 00 04 00 00 00 01 04 02 00 04 00 00 03 E9",
                (25, 0, 1001, 1000),
            ),
        ],
    ),
    (NEIGHBOUR, &[("04 02 00 04 00 00 00 05", (26, 0, 5, 0))]),
    // latency 1000: alone, beside a sum of 0, a maximum, what is recorded, and a sum of ETX
    (
        NEIGHBOUR,
        &[
            ("05 02 00 04 00 00 03 E7", (27, 0, 999, 1000)),
            (
                "05 02 00 04 00 00 03 E7 05 00 00 04 00 00 00 00",
                (27, 0, 999, 1000),
            ),
            (
                "05 02 00 04 00 00 03 E7 05 00 10 04 00 00 01 F4",
                (27, 0, 999, 1000),
            ),
            (
                "05 00 80 04 00 00 01 F4 05 02 00 04 00 00 03 E7",
                (27, 0, 999, 1000),
            ),
            (
                "07 00 00 02 01 F4 05 02 00 04 00 00 03 E7",
                (27, 0, 999, 1000),
            ),
            // on the path, with 500 received, and past the field
            (
                "05 FD 0F 04 00 00 01 F4 05 02 00 04 00 00 05 DB",
                (28, 500, 1499, 1500),
            ),
            (
                "05 02 00 04 FF FF FF FF 05 00 00 04 FF FF FF FF",
                (28, 4294967295, 4294967295, 4294968295),
            ),
        ],
    ),
    (
        SILENT,
        &[
            ("05 02 00 04 00 00 03 E7", (29, 0, 999, 0)),
            (
                "05 00 00 04 00 00 01 F4 05 02 00 04 FF FF FF FF",
                (29, 500, 4294967295, 0),
            ),
        ],
    ),
    // ETX 128
    (
        NEIGHBOUR,
        &[
            ("07 02 00 02 00 7F", (30, 0, 127, 128)),
            ("07 00 20 02 00 01 07 02 00 02 00 7F", (30, 0, 127, 128)),
            ("07 02 00 02 02 48 07 00 00 02 01 C9", (31, 457, 584, 585)),
            (
                "07 00 00 02 FF FF 07 02 00 02 FF FF",
                (31, 65535, 65535, 65663),
            ),
        ],
    ),
    (
        SILENT,
        &[
            ("07 02 00 02 FF FF", (32, 0, 65535, 0)),
            ("07 00 00 02 01 C9 07 02 00 02 FF FF", (32, 457, 65535, 0)),
        ],
    ),
    // LQL 2, and unknown
    (
        NEIGHBOUR,
        &[
            ("06 02 00 02 FF 3F", (33, 0, 1, 2)),
            ("06 02 00 02 00 1F", (33, 0, 0, 2)),
        ],
    ),
    (
        SILENT,
        &[
            ("06 02 00 02 00 FF", (34, 0, 7, 0)),
            ("06 02 00 02 00 00", (34, 0, 0, 0)),
        ],
    ),
    // colour 515: I=1 and one bit more, I=0 and equal, none
    (
        NEIGHBOUR,
        &[
            ("08 02 00 03 00 81 C1", (35, 0, 519, 515)),
            ("08 02 00 03 FF FF FF", (35, 0, 1023, 515)),
            ("08 02 00 03 00 80 C0", (36, 0, 515, 515)),
            ("08 02 00 03 00 00 3E", (36, 0, 0, 515)),
            // the object that bars: behind one that is met and one that is optional
            (
                "07 02 00 02 00 80 06 03 00 02 00 00 08 02 00 03 00 80 C0 01 02 00 02 00 02",
                (36, 0, 515, 515),
            ),
        ],
    ),
];

const AGGREGATING: Neighbour = Neighbour {
    flags: AGGREGATOR | OVERLOADED,
    ..NEIGHBOUR
};
const ENERGY_50: Neighbour = Neighbour {
    nodetype: 2,
    energy: 50,
    flags: ENERGY_KNOWN,
    ..NEIGHBOUR
};
const ENERGY_UNKNOWN: Neighbour = Neighbour {
    flags: !ENERGY_KNOWN,
    ..ENERGY_50
};
const FAST: Neighbour = Neighbour {
    flags: THROUGHPUT_KNOWN,
    throughput: 1000,
    ..NEIGHBOUR
};
/// Latency, ETX and LQL are not known.
const SILENT: Neighbour = Neighbour {
    flags: 0,
    lql: 0,
    ..NEIGHBOUR
};

/// Own numbers that no choice is made by.
const REFUSED: [Own; 3] = [
    Own { minhop: 0, ..OWN },
    Own {
        nodetype: 255,
        edition: 0,
        ..OWN
    },
    Own { edition: 3, ..OWN },
];

pub fn hold(trial: &mut Trial) {
    for &(neighbour, told) in RANGES {
        for (edition, told) in [FIRST_EDITION, SECOND_EDITION].into_iter().zip(told) {
            expect(trial, Own { edition, ..OWN }, neighbour, "02", told);
        }
    }
    for &(start, size, told) in PLACES {
        let name = format!("finding, start {start}, size {size}");
        examined(
            trial,
            OWN,
            (NEIGHBOUR, start, size),
            &mut [2, 0],
            &name,
            told,
        );
    }
    for &(run, told) in RUNS {
        expect(trial, OWN, NEIGHBOUR, run, told);
    }
    for &(neighbour, rows) in OBJECTS {
        for &(data, told) in rows {
            expect(trial, OWN, neighbour, &framed(data), told);
        }
    }
    others(trial);
}

/// The ends of what a container can have, bars 20 and 21, and own numbers that may be any.
fn others(trial: &mut Trial) {
    let full = "C8 00 80 00 ".repeat(63);
    let cut = framed(&format!("{full}07 00 00"));
    expect(trial, OWN, NEIGHBOUR, &cut, (13, 63, 4, 3));
    let far = format!("{}02 01 07", framed(&full).repeat(7));
    expect(trial, OWN, NEIGHBOUR, &far, (13, 441, 4, 1));
    let last = format!("{far}{}", " 02 00".repeat(250));
    expect(trial, OWN, NEIGHBOUR, &last, (39, 0, 8, 258));
    let long = format!("02 FF {}", "00 ".repeat(254));
    expect(trial, OWN, NEIGHBOUR, &long, (38, 0, 255, 254));
    let infinite = Neighbour {
        rank: 65535,
        ..NEIGHBOUR
    };
    expect(trial, OWN, infinite, "02 00", NOTHING);
    let bound = Own {
        maxincrease: 1,
        flags: LOWEST_GIVEN,
        ..OWN
    };
    expect(trial, bound, NEIGHBOUR, "02 00", NOTHING);
    for own in REFUSED {
        let limit = framed("07 02 00 02 00 7F");
        expect(trial, own, NEIGHBOUR, &limit, (30, 0, 127, 128));
        // order and preference have a range in edition 2 alone
        expect(trial, own, COLOUR_RIGHT, "02", (37, 0, 2, 1));
        expect(trial, own, WRONG, "02", (1, 1, 9, 10));
    }
}

/// What is told of a neighbour with this run, all that is lent.
fn expect(trial: &mut Trial, own: Own, neighbour: Neighbour, run: &str, told: Told) {
    let mut lent = bytes(run);
    let size = lent.len();
    let name = format!("finding, {own:?}, {neighbour:?}: {run}");
    examined(trial, own, (neighbour, 0, size), &mut lent, &name, told);
}

/// What is told of a neighbour with a run at this start and of this size.
fn examined(
    trial: &mut Trial,
    own: Own,
    (neighbour, start, size): (Neighbour, usize, usize),
    lent: &mut [u8],
    name: &str,
    (way, which, asked, found): Told,
) {
    let candidate = Candidate {
        neighbour,
        start,
        size,
    };
    let expected = Finding {
        way,
        which,
        asked,
        found,
    };
    let given = (trial.examine)(own, &candidate, lent);
    trial.expect(name, expected, given);
}
