//! Reasons: each kind, bar, criterion and refusal.

use super::editions::{neighbour, Fields, EDITIONS};
use super::refusals::{edition, named, CURRENT, NO_UNIT, PAST, TYPE_4};
use super::{bytes, framed, with_current, Trial, NEIGHBOUR, OWN};
use crate::reference::data::{Candidate, Neighbour, Own, Reason, CANDIDATES, LOWEST_GIVEN};

/// A reason that tells nothing, of which the kinds below fill in their part.
const NOTHING: Reason = Reason {
    refusal: 0,
    kind: 0,
    number: 0,
    parent: 255,
    criterion: 0,
    place: 65535,
    value: 0,
    against: 0,
};

const fn refused(refusal: u8) -> Reason {
    Reason { refusal, ..NOTHING }
}

const CHOSEN: Reason = Reason { kind: 1, ..NOTHING };

const fn barred(number: u8, place: u16) -> Reason {
    Reason {
        kind: 2,
        number,
        place,
        ..NOTHING
    }
}

/// Beaten by the parent at a position, on a criterion, on which it has a value against another.
type Beaten = (u8, u8, u16, u16);

const fn beaten((parent, criterion, value, against): Beaten) -> Reason {
    Reason {
        kind: 3,
        parent,
        criterion,
        value,
        against,
        ..NOTHING
    }
}

/// The neighbour with another advertised rank, one unit below the resulting one.
const fn ranked(rank: u16) -> Neighbour {
    Neighbour { rank, ..NEIGHBOUR }
}

/// Nine containers.
const NINE: &str = "02 00 02 00 02 00 02 00 02 00 02 00 02 00 02 00 02 00";

/// The highest resulting rank is 1792.
const BOUND: Own = Own {
    lowest: 1024,
    maxincrease: 768,
    flags: LOWEST_GIVEN,
    ..OWN
};

const FAR: Neighbour = Neighbour {
    sp: 10,
    ..NEIGHBOUR
};

/// The candidates of one call: the neighbour, its run, and the reason at its position. An empty run
/// is one that does not lie in the lent bytes.
const KINDS: &[(Neighbour, &str, Reason)] = &[
    (ranked(512), "02 00", beaten((13, 4, 768, 512))),
    (FAR, "02 00", barred(11, 65535)),
    (NEIGHBOUR, "", barred(12, 65535)),
    (NEIGHBOUR, "03 01", barred(22, 65535)),
    (NEIGHBOUR, NINE, barred(23, 65535)),
    (NEIGHBOUR, "02 03 07 00 00", barred(14, 65535)),
    (
        NEIGHBOUR,
        "02 0B 07 00 00 02 00 80 07 02 00 01 00",
        barred(15, 1),
    ),
    (
        NEIGHBOUR,
        "02 10 C8 00 80 00 07 00 00 02 00 80 07 01 80 02 00 80",
        barred(16, 2),
    ),
    (NEIGHBOUR, "02 04 01 00 80 00", barred(17, 0)),
    (
        NEIGHBOUR,
        "02 0A 07 02 00 02 00 80 09 02 00 00",
        barred(18, 1),
    ),
    (
        NEIGHBOUR,
        "02 0C 01 02 00 02 00 00 07 02 00 02 00 7F",
        barred(19, 1),
    ),
    (ranked(65279), "02 00", barred(20, 65535)),
    (ranked(1537), "02 00", barred(21, 65535)),
    // as a leaf: an aggregated metric of unknown type
    (NEIGHBOUR, "02 05 C8 00 00 01 AA", CHOSEN),
    (NEIGHBOUR, "02 00", beaten((13, 6, 14, 13))),
];

/// Two candidates, the current position, and why the one that is not the parent is not, in edition
/// 1 and in edition 2.
const RIVALS: &[([Fields; 2], Option<usize>, [Beaten; 2])] = &[
    // interface order, grounded, root preference, against all else
    (
        [(1, 1, 7, 768), (0, 0, 0, 1024)],
        Some(0),
        [(0, 4, 1024, 768), (1, 1, 1, 0)],
    ),
    (
        [(6, 0, 0, 1024), (7, 1, 7, 768)],
        Some(1),
        [(1, 4, 1024, 768), (0, 1, 7, 6)],
    ),
    (
        [(3, 0, 7, 768), (3, 1, 0, 1024)],
        Some(0),
        [(0, 4, 1024, 768), (1, 2, 0, 1)],
    ),
    (
        [(3, 1, 6, 768), (3, 1, 7, 1024)],
        Some(0),
        [(0, 4, 1024, 768), (1, 3, 6, 7)],
    ),
    (
        [(3, 0, 1, 1024), (3, 0, 0, 768)],
        Some(1),
        [(1, 4, 1024, 768), (0, 3, 0, 1)],
    ),
    // these alone
    (
        [(1, 0, 4, 768), (0, 0, 4, 768)],
        None,
        [(0, 6, 1, 0), (1, 1, 1, 0)],
    ),
    (
        [(3, 0, 4, 768), (3, 1, 4, 768)],
        None,
        [(0, 6, 1, 0), (1, 2, 0, 1)],
    ),
    (
        [(3, 0, 0, 768), (3, 0, 7, 768)],
        None,
        [(0, 6, 1, 0), (1, 3, 0, 7)],
    ),
    // rank, the current parent, position
    (
        [(3, 1, 4, 769), (3, 1, 4, 768)],
        Some(0),
        [(1, 4, 769, 768), (1, 4, 769, 768)],
    ),
    (
        [(0, 0, 0, 65533), (0, 0, 0, 65534)],
        Some(1),
        [(0, 4, 65534, 65533), (0, 4, 65534, 65533)],
    ),
    (
        [(3, 0, 4, 768), (3, 0, 4, 768)],
        Some(1),
        [(1, 5, 0, 1), (1, 5, 0, 1)],
    ),
    (
        [(3, 0, 4, 768), (3, 0, 4, 768)],
        Some(0),
        [(0, 5, 0, 1), (0, 5, 0, 1)],
    ),
    (
        [(3, 1, 4, 768), (3, 1, 4, 768)],
        None,
        [(0, 6, 1, 0), (0, 6, 1, 0)],
    ),
    // edition 1 by the current parent and by position, against all that it leaves out
    (
        [(0, 1, 7, 768), (7, 0, 0, 768)],
        Some(1),
        [(1, 5, 0, 1), (0, 1, 7, 0)],
    ),
    (
        [(7, 0, 0, 768), (0, 1, 7, 768)],
        None,
        [(0, 6, 1, 0), (1, 1, 7, 0)],
    ),
];

/// A current position that 17 candidates do not have, in edition 3.
const BEYOND: Own = Own {
    current: 17,
    ..CURRENT
};

/// Own numbers, how many candidates, the position, and the refusal: alone, and with the next one.
const REFUSALS: &[(Own, usize, usize, u8)] = &[
    (named(1, NO_UNIT), 2, 0, 1),
    (named(2, TYPE_4), 2, 1, 1),
    (named(1, NO_UNIT), 17, 0, 1),
    (named(2, TYPE_4), 17, 0, 1),
    (NO_UNIT, 0, usize::MAX, 1),
    (edition(1), 17, 0, 2),
    (edition(2), usize::MAX, 15, 2),
    (named(1, BEYOND), 17, 16, 2),
    (BEYOND, 17, 17, 2),
    (named(1, PAST), 1, 0, 3),
    (named(2, CURRENT), 0, 0, 3),
    (PAST, 1, 0, 3),
    (PAST, 1, 1, 3),
    (edition(0), 1, 0, 5),
    (edition(3), 16, 15, 5),
    (edition(255), 16, 16, 5),
    (edition(0), 0, 0, 5),
    (edition(1), 0, 0, 6),
    (edition(2), 1, 1, 6),
    (edition(1), 15, 15, 6),
    (edition(2), 16, 16, 6),
    (edition(1), 16, 255, 6),
    (edition(2), 16, 1 << 8, 6),
    (edition(1), 16, 1 << 16, 6),
    (edition(2), 16, 1 << 32, 6),
    (edition(1), 16, usize::MAX, 6),
];

pub fn hold(trial: &mut Trial) {
    for (edition, reason) in EDITIONS.into_iter().zip([CHOSEN, barred(11, 65535)]) {
        kinds(trial, edition);
        order_8(trial, edition, reason);
        for position in [0, 15] {
            last_of_many(trial, edition, position);
        }
    }
    for &(fields, current, beaten) in RIVALS {
        for (edition, beaten) in EDITIONS.into_iter().zip(beaten) {
            rivals(trial, edition, fields, current, beaten);
        }
    }
    for &(own, count, position, refusal) in REFUSALS {
        let candidates = [Candidate::default(); CANDIDATES];
        let given = (trial.why)(own, &candidates, count, &mut [2, 0], position);
        let name = format!("position {position} of {count}, {own:?}");
        trial.expect(&name, refused(refusal), given);
    }
}

/// The reason at each position of one call, and at its count.
fn kinds(trial: &mut Trial, edition: u8) {
    let own = Own { edition, ..BOUND };
    let mut candidates = [Candidate::default(); CANDIDATES];
    let mut lent = Vec::new();
    for (position, &(neighbour, run, _)) in KINDS.iter().enumerate() {
        let run = bytes(run);
        let outside = if run.is_empty() { 1000 } else { 0 };
        candidates[position] = Candidate {
            neighbour,
            start: lent.len() + outside,
            size: run.len(),
        };
        lent.extend(run);
    }
    let count = KINDS.len();
    for (position, &(_, run, reason)) in KINDS.iter().enumerate() {
        let given = (trial.why)(own, &candidates, count, &mut lent, position);
        let name = format!("edition {edition}, position {position}: {run}");
        trial.expect(&name, reason, given);
    }
    let given = (trial.why)(own, &candidates, count, &mut lent, count);
    trial.expect("position 15 of 15", refused(6), given);
}

/// A candidate by itself, whose interface order edition 2 alone reads.
fn order_8(trial: &mut Trial, edition: u8, reason: Reason) {
    let mut candidates = [Candidate::default(); CANDIDATES];
    candidates[0] = Candidate {
        neighbour: Neighbour {
            order: 8,
            ..NEIGHBOUR
        },
        start: 0,
        size: 2,
    };
    let given = (trial.why)(Own { edition, ..OWN }, &candidates, 1, &mut [2, 0], 0);
    trial.expect(&format!("edition {edition}, order 8"), reason, given);
}

/// Sixteen candidates of which one alone is unbarred: the others have 63 objects, the last of which
/// is an unknown mandatory constraint.
fn last_of_many(trial: &mut Trial, edition: u8, unbarred: usize) {
    let own = Own { edition, ..OWN };
    let mut lent = bytes(&framed(&format!(
        "{}C8 02 00 00",
        "C8 01 80 00 ".repeat(62)
    )));
    let size = lent.len();
    lent.extend([2, 0]);
    let mut candidates = [Candidate::default(); CANDIDATES];
    for (position, candidate) in candidates.iter_mut().enumerate() {
        let (start, size) = if position == unbarred {
            (size, 2)
        } else {
            (0, size)
        };
        *candidate = Candidate {
            neighbour: NEIGHBOUR,
            start,
            size,
        };
    }
    for position in 0..CANDIDATES {
        let reason = if position == unbarred {
            CHOSEN
        } else {
            barred(18, 62)
        };
        let given = (trial.why)(own, &candidates, CANDIDATES, &mut lent, position);
        trial.expect(
            &format!("unbarred {unbarred}, at {position}"),
            reason,
            given,
        );
    }
}

/// The parent is chosen, the other beaten, and there is no third.
fn rivals(
    trial: &mut Trial,
    edition: u8,
    fields: [Fields; 2],
    current: Option<usize>,
    loss: Beaten,
) {
    let own = with_current(Own { edition, ..OWN }, current);
    let mut candidates = [Candidate::default(); CANDIDATES];
    for (index, fields) in fields.into_iter().enumerate() {
        candidates[index] = Candidate {
            neighbour: neighbour(fields, index as u8 + 1),
            start: 0,
            size: 2,
        };
    }
    let (parent, ..) = loss;
    let mut reasons = [beaten(loss), beaten(loss), refused(6)];
    reasons[usize::from(parent)] = CHOSEN;
    for (position, reason) in reasons.into_iter().enumerate() {
        let given = (trial.why)(own, &candidates, 2, &mut [2, 0], position);
        let name = format!("edition {edition}, {fields:?}, current {current:?}, at {position}");
        trial.expect(&name, reason, given);
    }
}
