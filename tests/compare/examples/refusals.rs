//! Refusals of the whole call, in their order.

use super::{Trial, BEFORE, OWN};
use crate::reference::data::{Answer, Candidate, Own, CANDIDATES, CURRENT_GIVEN, OUTPUT_ROOM};

/// These own numbers in an edition.
pub const fn named(edition: u8, own: Own) -> Own {
    Own { edition, ..own }
}

/// Own numbers of an edition.
pub const fn edition(edition: u8) -> Own {
    named(edition, OWN)
}

pub const CURRENT: Own = Own {
    flags: CURRENT_GIVEN,
    ..edition(3)
};
pub const PAST: Own = Own {
    current: 1,
    ..CURRENT
};
pub const NO_UNIT: Own = Own { minhop: 0, ..PAST };
pub const TYPE_4: Own = Own {
    nodetype: 4,
    ..PAST
};

/// Own numbers, how many candidates, the length of the output, and the refusal.
const REFUSALS: &[(Own, usize, usize, u8)] = &[
    (NO_UNIT, 17, 0, 1),
    (TYPE_4, 17, 0, 1),
    (PAST, 17, 0, 2),
    (PAST, usize::MAX, OUTPUT_ROOM, 2),
    (PAST, 1, 0, 3),
    (CURRENT, 0, OUTPUT_ROOM, 3),
    (CURRENT, 1, 2055, 4),
    (CURRENT, 1, 257, 4),
    (CURRENT, 1, OUTPUT_ROOM, 5),
    (named(1, NO_UNIT), 1, OUTPUT_ROOM, 1),
    (named(1, PAST), 17, OUTPUT_ROOM, 2),
    (named(1, PAST), 1, OUTPUT_ROOM, 3),
    (named(1, CURRENT), 1, OUTPUT_ROOM, 0),
    (named(2, TYPE_4), 1, OUTPUT_ROOM, 1),
    (named(2, PAST), 17, OUTPUT_ROOM, 2),
    (named(2, PAST), 1, OUTPUT_ROOM, 3),
    (named(2, CURRENT), 1, OUTPUT_ROOM, 0),
    (edition(0), 0, 0, 4),
    (edition(0), 0, OUTPUT_ROOM, 5),
    (edition(0), 16, 2100, 5),
    (edition(1), 0, 0, 4),
    (edition(1), 0, OUTPUT_ROOM, 0),
    (edition(1), 16, 2100, 0),
    (edition(2), 0, 0, 4),
    (edition(2), 0, OUTPUT_ROOM, 0),
    (edition(2), 16, 2100, 0),
    (edition(3), 0, OUTPUT_ROOM, 5),
    (edition(4), 0, OUTPUT_ROOM, 5),
    (edition(128), 0, OUTPUT_ROOM, 5),
    (edition(129), 0, OUTPUT_ROOM, 5),
    (edition(130), 0, OUTPUT_ROOM, 5),
    (edition(255), 0, 2055, 4),
    (edition(1), 1, 2055, 4),
    (edition(2), 1, 257, 4),
    (edition(255), 0, OUTPUT_ROOM, 5),
];

pub fn hold(trial: &mut Trial) {
    for &(own, count, room, refusal) in REFUSALS {
        let mut out = vec![BEFORE; room];
        let candidates = [Candidate::default(); CANDIDATES];
        let mut answer = (trial.choose)(own, &candidates, count, &mut [2, 0], &mut out);
        let name = format!("{count} candidates, {room} bytes, {own:?}");
        if refusal == 0 {
            // every candidate has Sp 0
            trial.expect(&name, count, ones(&answer.verdicts, 11));
            answer.verdicts = [0; CANDIDATES];
        }
        trial.expect(&name, Answer::refused(refusal), answer);
        trial.expect(&name, vec![BEFORE; room], out);
    }
}

fn ones(verdicts: &[u8], number: u8) -> usize {
    verdicts
        .iter()
        .filter(|&&verdict| verdict == number)
        .count()
}
