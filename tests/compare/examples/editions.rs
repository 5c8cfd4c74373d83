//! What each edition compares, and what edition 2 alone reads: choices, and bar 11.

use super::{bytes, with_current, Trial, BEFORE, NEIGHBOUR, OWN};
use crate::reference::data::{
    Candidate, Neighbour, Own, CANDIDATES, ETX_KNOWN, FIRST_EDITION, GROUNDED, OUTPUT_ROOM,
    SECOND_EDITION,
};

/// Interface order, grounded or not (1 or 0), root preference, resulting rank.
pub type Fields = (u8, u8, u8, u16);

/// Two candidates, the current position, and the parent in edition 1 and in edition 2.
const CHOICES: &[([Fields; 2], Option<usize>, [u8; 2])] = &[
    // order, against all else; then only position is for the winner too
    ([(1, 1, 7, 768), (0, 0, 0, 1024)], Some(0), [0, 1]),
    ([(0, 0, 0, 1024), (1, 1, 7, 768)], Some(1), [1, 0]),
    ([(7, 1, 7, 768), (6, 0, 0, 1024)], Some(0), [0, 1]),
    ([(4, 1, 7, 768), (3, 0, 0, 1024)], Some(0), [0, 1]),
    // grounded
    ([(3, 0, 7, 768), (3, 1, 0, 1024)], Some(0), [0, 1]),
    ([(3, 1, 0, 1024), (3, 0, 7, 768)], Some(1), [1, 0]),
    // preference, both being grounded or neither
    ([(3, 1, 6, 768), (3, 1, 7, 1024)], Some(0), [0, 1]),
    ([(3, 1, 7, 1024), (3, 1, 6, 768)], Some(1), [1, 0]),
    ([(3, 0, 0, 768), (3, 0, 1, 1024)], Some(0), [0, 1]),
    ([(3, 0, 4, 1024), (3, 0, 3, 768)], Some(1), [1, 0]),
    // rank
    ([(3, 1, 4, 769), (3, 1, 4, 768)], Some(0), [1, 1]),
    ([(3, 1, 4, 768), (3, 1, 4, 769)], Some(1), [0, 0]),
    // the current parent
    ([(3, 0, 4, 768), (3, 0, 4, 768)], Some(1), [1, 1]),
    ([(3, 0, 4, 768), (3, 0, 4, 768)], Some(0), [0, 0]),
    // position
    ([(3, 1, 4, 768), (3, 1, 4, 768)], None, [0, 0]),
    // edition 1 by rank, current parent and position, against all that it leaves out
    ([(0, 1, 7, 769), (7, 0, 0, 768)], Some(0), [1, 0]),
    ([(7, 0, 0, 768), (0, 1, 7, 769)], Some(1), [0, 1]),
    ([(0, 1, 7, 768), (7, 0, 0, 768)], Some(1), [1, 0]),
    ([(7, 0, 0, 768), (0, 1, 7, 768)], Some(0), [0, 1]),
    ([(7, 0, 0, 768), (0, 1, 7, 768)], None, [0, 1]),
    ([(0, 1, 7, 768), (7, 0, 0, 768)], None, [0, 0]),
    // and against one of them
    ([(1, 1, 7, 768), (0, 1, 7, 768)], None, [0, 1]),
    ([(0, 0, 7, 768), (0, 1, 7, 768)], None, [0, 1]),
    ([(0, 1, 6, 768), (0, 1, 7, 768)], None, [0, 1]),
    // barred in edition 2, the first would be before the second
    ([(0, 1, 8, 768), (7, 0, 0, 1024)], Some(0), [0, 1]),
    ([(8, 1, 7, 768), (7, 0, 0, 1024)], Some(0), [0, 1]),
];

/// Interface order, root preference, a run, and the verdict in edition 1 and in edition 2.
const RANGES: &[(u8, u8, &str, [u8; 2])] = &[
    (7, 0, "02 00", [10, 10]),
    (0, 7, "02 00", [10, 10]),
    (7, 7, "02 00", [10, 10]),
    (8, 0, "02 00", [10, 11]),
    (0, 8, "02 00", [10, 11]),
    (16, 7, "02 00", [10, 11]),
    (7, 128, "02 00", [10, 11]),
    (255, 255, "02 00", [10, 11]),
    // 11 comes first
    (7, 7, "02", [22, 22]),
    (8, 7, "02", [22, 11]),
    (7, 8, "02", [22, 11]),
];

pub const EDITIONS: [u8; 2] = [FIRST_EDITION, SECOND_EDITION];

pub fn hold(trial: &mut Trial) {
    for &(fields, current, parents) in CHOICES {
        for (edition, parent) in EDITIONS.into_iter().zip(parents) {
            chosen(trial, edition, fields, current, parent);
        }
    }
    for &(order, preference, container, verdicts) in RANGES {
        for (edition, verdict) in EDITIONS.into_iter().zip(verdicts) {
            let own = Own { edition, ..OWN };
            let neighbour = Neighbour {
                order,
                preference,
                ..NEIGHBOUR
            };
            let (answer, _) = trial.one(own, neighbour, container);
            let numbers = format!("order {order}, preference {preference}");
            let name = format!("edition {edition}, {numbers}: {container}");
            trial.expect(&name, verdict, answer.verdicts[0]);
        }
    }
}

/// The parent, its rank, and the ETX that its container leaves with: 0 and 1 behind the link of
/// position 0, 256 and 2 behind that of position 1.
fn chosen(trial: &mut Trial, edition: u8, fields: [Fields; 2], current: Option<usize>, parent: u8) {
    let own = with_current(Own { edition, ..OWN }, current);
    let mut candidates = [Candidate::default(); CANDIDATES];
    for (index, fields) in fields.into_iter().enumerate() {
        candidates[index] = Candidate {
            neighbour: neighbour(fields, index as u8 + 1),
            start: 8 * index,
            size: 8,
        };
    }
    let mut lent = bytes("02 06 07 00 00 02 00 00 02 06 07 00 00 02 01 00");
    let mut out = [BEFORE; OUTPUT_ROOM];
    let answer = (trial.choose)(own, &candidates, 2, &mut lent, &mut out);
    let given = (answer.parent, answer.rank, [out[6], out[7]]);
    let (_, _, _, rank) = fields[usize::from(parent)];
    let name = format!("edition {edition}, {fields:?}, current {current:?}");
    trial.expect(&name, (parent, rank, [parent, parent + 1]), given);
}

/// A neighbour of this resulting rank, so many units away, whose link has an ETX of as many. Where
/// it is not grounded every other flag is set.
pub fn neighbour((order, grounded, preference, rank): Fields, units: u8) -> Neighbour {
    Neighbour {
        order,
        flags: [!GROUNDED, GROUNDED | ETX_KNOWN][usize::from(grounded)],
        preference,
        rank: rank - 256 * u16::from(units),
        sp: units,
        etx: units.into(),
        ..NEIGHBOUR
    }
}
