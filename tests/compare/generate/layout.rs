//! Runs of options are laid in the lent bytes.

use crate::random::Random;
use crate::reference::data::Candidate;

/// Lays each run on bytes of its own, in a random order with random bytes between, and sets the
/// candidates' starts and sizes.
pub fn lay(random: &mut Random, runs: &[Vec<u8>], candidates: &mut [Candidate]) -> Vec<u8> {
    let total: usize = runs.iter().map(Vec::len).sum();
    let mut lent = Vec::with_capacity(total + 8 * runs.len() + 8);
    let first = random.below(runs.len().max(1));
    let backwards = random.once_in(2);
    for step in 0..runs.len() {
        let turned = (first + step) % runs.len();
        let index = if backwards {
            runs.len() - 1 - turned
        } else {
            turned
        };
        gap(random, &mut lent);
        candidates[index].start = lent.len();
        candidates[index].size = runs[index].len();
        lent.extend_from_slice(&runs[index]);
    }
    gap(random, &mut lent);
    lent
}

/// Some random bytes that belong to no run, or none.
fn gap(random: &mut Random, lent: &mut Vec<u8>) {
    let size = random.pick(&[0, 0, 0, 1, 2, 5]);
    lent.extend((0..size).map(|_| random.byte()));
}
