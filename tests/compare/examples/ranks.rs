//! Resulting ranks, and bars 11, 20 and 21.

use super::{Trial, NEIGHBOUR, OWN};
use crate::reference::data::{Neighbour, Own, LOWEST_GIVEN, NO_RANK};

/// MinHopRankIncrease, advertised rank, Rf, Sp, Sr, L and DAGMaxRankIncrease, verdict, rank.
type RankRow = (u16, u16, [u8; 3], Option<(u16, u16)>, u8, u16);

const RANKS: &[RankRow] = &[
    (256, 256, [1, 3, 0], None, 10, 1024),
    (256, 0, [4, 9, 5], None, 10, 10496),
    (256, 65278, [1, 1, 0], None, 10, 65534),
    (256, 65279, [1, 1, 0], None, 20, NO_RANK),
    (1, 65535, [1, 1, 0], None, 20, NO_RANK),
    (256, 1536, [1, 1, 0], Some((1024, 768)), 10, 1792),
    (256, 1537, [1, 1, 0], Some((1024, 768)), 21, NO_RANK),
    (256, 1537, [1, 1, 0], Some((1024, 0)), 10, 1793),
    // L and the increase are added in whole numbers, and L = 0 is a value
    (256, 1000, [1, 1, 0], Some((65535, 65535)), 10, 1256),
    (256, 1000, [1, 1, 0], Some((0, 1255)), 21, NO_RANK),
    (256, 1000, [1, 1, 0], Some((0, 1256)), 10, 1256),
    // Sp, Rf and Sr out of range
    (256, 256, [1, 0, 0], None, 11, NO_RANK),
    (256, 256, [1, 10, 0], None, 11, NO_RANK),
    (256, 256, [0, 1, 0], None, 11, NO_RANK),
    (256, 256, [5, 1, 0], None, 11, NO_RANK),
    (256, 256, [1, 1, 6], None, 11, NO_RANK),
];

pub fn hold(trial: &mut Trial) {
    for row in RANKS {
        let &(minhop, rank, [rf, sp, sr], limits, verdict, resulting) = row;
        let mut own = Own { minhop, ..OWN };
        if let Some((lowest, maxincrease)) = limits {
            own.lowest = lowest;
            own.maxincrease = maxincrease;
            own.flags |= LOWEST_GIVEN;
        }
        let neighbour = Neighbour {
            rank,
            rf,
            sp,
            sr,
            ..NEIGHBOUR
        };
        let (answer, _) = trial.one(own, neighbour, "02 00");
        let given = (answer.verdicts[0], answer.rank);
        trial.expect(&format!("{row:?}"), (verdict, resulting), given);
    }
}
