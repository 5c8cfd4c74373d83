//! Bars 12 to 19 of runs of one container.

use super::{Trial, NEIGHBOUR, OWN};
use crate::reference::data::{
    Candidate, Neighbour, CANDIDATES, ENERGY_KNOWN, NO_PLACE, OUTPUT_ROOM,
};

/// A container, the verdict, and the place of the object that bars.
const BARS: &[(&str, u8, u16)] = &[
    ("02 00", 10, NO_PLACE),
    // 14 goes before 15 to 17
    ("02 03 07 00 00", 14, NO_PLACE),
    ("02 05 07 00 00 02 01", 14, NO_PLACE),
    ("02 08 07 00 00 01 01 07 00 00", 14, NO_PLACE),
    // bodies
    ("02 05 07 00 00 01 01", 15, 0),
    ("02 04 07 02 80 00", 15, 0),
    ("02 08 07 02 00 04 00 80 00 80", 15, 0),
    ("02 08 07 00 80 04 00 80 00 80", 10, NO_PLACE),
    ("02 07 01 03 00 03 00 00 00", 15, 0),
    ("02 08 01 03 00 04 00 00 07 00", 10, NO_PLACE),
    ("02 08 01 03 00 04 00 00 07 01", 15, 0),
    ("02 08 02 00 80 04 00 00 07 01", 10, NO_PLACE),
    ("02 07 02 00 80 03 00 00 07", 15, 0),
    ("02 05 06 00 80 01 00", 15, 0),
    ("02 07 06 03 80 03 00 E0 E0", 15, 0),
    ("02 0C 05 03 00 08 00 00 00 00 00 00 00 00", 15, 0),
    // a colour constraint has one sub-object of two bytes, a record one or more, behind a byte
    ("02 06 08 03 00 02 00 80", 15, 0),
    ("02 07 08 03 00 03 00 80 C1", 10, NO_PLACE),
    ("02 08 08 03 00 04 00 80 C1 00", 15, 0),
    ("02 09 08 02 80 05 00 80 C1 80 C1", 15, 0),
    ("02 04 08 00 80 00", 15, 0),
    ("02 05 08 00 80 01 00", 15, 0),
    ("02 06 08 00 80 02 00 80", 15, 0),
    ("02 07 08 00 80 03 00 80 C1", 10, NO_PLACE),
    ("02 08 08 00 80 04 00 80 C1 00", 15, 0),
    ("02 09 08 00 80 05 00 80 C1 80 C1", 10, NO_PLACE),
    // repeats: a malformed one is 15, one that 17 forbids 16; C tells apart, unknown types repeat
    ("02 0C 07 00 00 02 00 80 07 01 80 02 00 80", 16, 1),
    ("02 0C 07 00 00 02 00 80 07 03 80 02 00 00", 10, NO_PLACE),
    ("02 0B 07 00 00 02 00 80 07 00 00 01 00", 15, 1),
    ("02 0A 03 00 00 02 00 01 03 00 80 00", 16, 1),
    ("02 08 09 00 80 00 09 00 80 00", 10, NO_PLACE),
    ("02 0E 08 00 80 03 00 80 C1 08 01 FF 03 00 80 C1", 16, 1),
    ("02 0E 08 03 00 03 00 80 C1 08 02 80 03 00 80 C1", 16, 1),
    (
        "02 0E 08 02 80 03 00 80 C1 08 00 80 03 00 80 C1",
        10,
        NO_PLACE,
    ),
    ("02 0D 08 00 80 03 00 80 C1 08 00 80 02 00 80", 15, 1),
    ("02 0B 08 00 80 03 00 80 C1 08 00 00 00", 16, 1),
    // 17, whatever the body; an LQL constraint is none, and R is ignored for constraints
    ("02 04 01 00 80 00", 17, 0),
    ("02 06 03 00 80 02 00 00", 17, 0),
    ("02 06 06 00 00 02 00 41", 17, 0),
    ("02 06 06 02 00 02 00 41", 10, NO_PLACE),
    ("02 04 08 00 00 00", 17, 0),
    ("02 07 08 04 7F 03 00 80 C1", 17, 0),
    ("02 07 08 02 00 03 00 80 C1", 10, NO_PLACE),
    ("02 06 01 02 80 02 00 00", 10, NO_PLACE),
    // 18 and 19, the first of them
    ("02 04 00 02 00 00", 18, 0),
    ("02 04 09 02 00 00", 18, 0),
    ("02 04 09 03 00 00", 10, NO_PLACE),
    ("02 0A 09 02 00 00 07 02 00 02 00 7F", 18, 0),
    ("02 0A 07 02 00 02 00 7F 09 02 00 00", 19, 0),
    ("02 0B 09 02 00 00 08 02 00 03 00 80 C0", 18, 0),
    ("02 0B 08 02 00 03 00 80 C0 09 02 00 00", 19, 0),
    // NSA: an aggregating neighbour, one not overloaded
    ("02 06 01 02 00 02 FF 02", 19, 0),
    ("02 06 01 02 00 02 FF 01", 19, 0),
    ("02 06 01 02 00 02 FF FC", 10, NO_PLACE),
    // NE of a mains neighbour of unknown energy
    ("02 06 02 02 00 02 08 00", 10, NO_PLACE),
    ("02 06 02 02 00 02 0A 00", 19, 0),
    ("02 06 02 02 00 02 09 00", 19, 0),
    ("02 06 02 02 00 02 00 00", 19, 0),
    ("02 06 02 02 00 02 01 00", 19, 0),
    ("02 06 02 02 00 02 02 00", 10, NO_PLACE),
    // HP: the metric may stand before the limit, behind it, or nowhere
    ("02 0C 03 00 00 02 00 03 03 02 00 02 00 04", 10, NO_PLACE),
    ("02 0C 03 00 00 02 00 04 03 02 00 02 00 04", 19, 1),
    ("02 0C 03 02 00 02 00 04 03 00 00 02 00 03", 10, NO_PLACE),
    ("02 0C 03 02 00 02 00 04 03 00 00 02 00 04", 19, 0),
    ("02 06 03 02 00 02 00 04", 19, 0),
    // throughput unknown, latency 1000, LQL 2, ETX 128
    ("02 08 04 02 00 04 00 00 00 00", 19, 0),
    ("02 08 05 02 00 04 00 00 03 E8", 10, NO_PLACE),
    ("02 08 05 02 00 04 00 00 03 E7", 19, 0),
    ("02 06 06 02 00 02 00 40", 10, NO_PLACE),
    ("02 06 06 02 00 02 00 3F", 19, 0),
    ("02 06 07 02 00 02 00 80", 10, NO_PLACE),
    ("02 06 07 02 00 02 00 7F", 19, 0),
    // sums, 500 + 1000 and 457 + 128: the metric stands before the limit or behind it
    (
        "02 10 05 00 00 04 00 00 01 F4 05 02 00 04 00 00 05 DC",
        10,
        NO_PLACE,
    ),
    (
        "02 10 05 00 00 04 00 00 01 F4 05 02 00 04 00 00 05 DB",
        19,
        1,
    ),
    (
        "02 10 05 02 00 04 00 00 05 DB 05 00 00 04 00 00 01 F4",
        19,
        0,
    ),
    ("02 0C 07 02 00 02 02 49 07 00 00 02 01 C9", 10, NO_PLACE),
    ("02 0C 07 02 00 02 02 48 07 00 00 02 01 C9", 19, 0),
    ("02 0C 07 03 00 02 02 48 07 00 00 02 01 C9", 10, NO_PLACE),
    // past the maximum it is the whole sum
    ("02 0C 07 00 00 02 FF 7F 07 02 00 02 FF FF", 10, NO_PLACE),
    ("02 0C 07 00 00 02 FF 80 07 02 00 02 FF FF", 19, 1),
    (
        "02 10 05 00 00 04 FF FF FC 18 05 02 00 04 FF FF FF FF",
        19,
        1,
    ),
    // the link alone beside the larger, the smaller, what is recorded, and a sum of another type
    ("02 0C 07 00 10 02 01 C9 07 02 00 02 00 80", 10, NO_PLACE),
    ("02 0C 07 00 20 02 01 C9 07 02 00 02 00 80", 10, NO_PLACE),
    ("02 0C 07 00 80 02 01 C9 07 02 00 02 00 80", 10, NO_PLACE),
    ("02 0C 07 00 20 02 00 01 07 02 00 02 00 7F", 19, 1),
    (
        "02 0E 07 00 00 02 01 C9 05 02 00 04 00 00 03 E8",
        10,
        NO_PLACE,
    ),
];

pub fn hold(trial: &mut Trial) {
    for &(container, verdict, place) in BARS {
        let (answer, _) = trial.one(OWN, NEIGHBOUR, container);
        let given = (answer.verdicts[0], answer.places[0]);
        trial.expect(container, (verdict, place), given);
    }
    energies(trial);
    places(trial);
}

/// Energy 50 of a mains neighbour: an inclusion above the threshold, an exclusion below it.
fn energies(trial: &mut Trial) {
    let known = Neighbour {
        flags: ENERGY_KNOWN,
        energy: 50,
        ..NEIGHBOUR
    };
    let rows = [
        ("02 06 02 02 00 02 09 31", 10),
        ("02 06 02 02 00 02 09 32", 19),
        ("02 06 02 02 00 02 01 32", 10),
        ("02 06 02 02 00 02 01 33", 19),
    ];
    for (container, verdict) in rows {
        let (answer, _) = trial.one(OWN, known, container);
        trial.expect(container, verdict, answer.verdicts[0]);
    }
}

/// Start and size of a run, and its verdict, in two lent bytes, 02 00.
const PLACES: &[(usize, usize, u8)] = &[
    (0, 2, 10),
    (0, 0, 10),
    (0, 1, 22),
    (1, 1, 10),
    (2, 0, 10),
    (3, 0, 12),
    (1, 2, 12),
    (2, usize::MAX, 12),
];

fn places(trial: &mut Trial) {
    for &(start, size, verdict) in PLACES {
        let mut candidates = [Candidate::default(); CANDIDATES];
        candidates[0] = Candidate {
            neighbour: NEIGHBOUR,
            start,
            size,
        };
        let answer = (trial.choose)(OWN, &candidates, 1, &mut [2, 0], &mut [0; OUTPUT_ROOM]);
        let name = format!("start {start}, size {size}");
        trial.expect(&name, verdict, answer.verdicts[0]);
    }
}
