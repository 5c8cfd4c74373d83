//! The choice of a parent.

use super::{with_current, Trial, NEIGHBOUR, OWN};
use crate::reference::data::{Candidate, Neighbour, CANDIDATES, NO_PARENT, OUTPUT_ROOM};

/// Three candidates of these ranks, each one unit away, the current position, and the parent.
const CHOICES: &[([u16; 3], Option<usize>, u8)] = &[
    ([512, 256, 256], None, 1),
    ([512, 256, 256], Some(2), 2),
    ([512, 256, 256], Some(0), 1),
    ([256, 256, 256], Some(1), 1),
    ([512, 512, 256], Some(0), 2),
    ([65535, 65534, 65279], None, NO_PARENT),
    ([65535, 65278, 65278], Some(0), 1),
];

pub fn hold(trial: &mut Trial) {
    for &(ranks, current, parent) in CHOICES {
        let own = with_current(OWN, current);
        let mut candidates = [Candidate::default(); CANDIDATES];
        let mut bits = 0;
        for (index, rank) in ranks.into_iter().enumerate() {
            let neighbour = Neighbour { rank, ..NEIGHBOUR };
            candidates[index] = Candidate {
                neighbour,
                start: 0,
                size: 2,
            };
            bits |= u16::from(rank < 65279) << index;
        }
        let answer = (trial.choose)(own, &candidates, 3, &mut [2, 0], &mut [0; OUTPUT_ROOM]);
        let given = (answer.parent, answer.bits, u32::from(answer.count));
        let name = format!("ranks {ranks:?}, current {current:?}");
        trial.expect(&name, (parent, bits, bits.count_ones()), given);
    }
}
