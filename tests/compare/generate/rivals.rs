//! Two candidates of which a criterion of choice decides, while every later one is for the loser.

use super::site::{apart, ground};
use crate::random::Random;
use crate::reference::data::{Candidate, Own, CURRENT_GIVEN, FIRST_EDITION};

/// How many criteria there are, and how many of them edition 1 leaves out: the first.
const ALL: usize = 6;
const NEW: usize = 3;

/// For whom a criterion is.
#[derive(Clone, Copy)]
enum Speaks {
    ForNone,
    ForWinner,
    ForLoser,
}

impl Speaks {
    /// The winner's value and the loser's.
    fn share<T: Copy>(self, better: T, worse: T) -> [T; 2] {
        match self {
            Speaks::ForNone => [better, better],
            Speaks::ForWinner => [better, worse],
            Speaks::ForLoser => [worse, better],
        }
    }
}

/// For whom each criterion is if one of them is to decide in an edition: those before it are equal,
/// but for those that edition 1 leaves out.
fn speeches(edition: u8, decides: usize) -> [Speaks; ALL] {
    std::array::from_fn(|criterion| {
        let left_out = edition == FIRST_EDITION && criterion < NEW;
        if criterion == decides {
            Speaks::ForWinner
        } else if criterion > decides || left_out {
            Speaks::ForLoser
        } else {
            Speaks::ForNone
        }
    })
}

/// Makes rivals of two of the candidates, if there are two. The one that position is for mostly
/// stands first; sometimes it is the other.
pub fn meet(random: &mut Random, own: &mut Own, candidates: &mut [Candidate]) {
    if candidates.len() < 2 {
        return;
    }
    let last = candidates.len() - 1;
    let first = random.below(last);
    let second = random.within(first + 1, last);
    let decides = random.below(ALL);
    let [order, grounded, preference, rank, current, position] = speeches(own.edition, decides);
    let mut rivals = position.share(first, second);
    if random.once_in(4) {
        rivals.reverse();
    }
    let [winner, loser] = rivals;
    own.flags |= CURRENT_GIVEN;
    match current {
        Speaks::ForNone => own.flags &= !CURRENT_GIVEN,
        Speaks::ForWinner => own.current = winner,
        Speaks::ForLoser => own.current = loser,
    }
    let shared = candidates[loser].neighbour;
    let ranks = rank.share(shared.rank, shared.rank.saturating_add(1));
    let (low, high) = apart(random);
    let orders = order.share(low, high);
    let (low, high) = apart(random);
    let preferences = preference.share(high, low);
    let grounded = grounded.share(true, false);
    for (index, position) in rivals.into_iter().enumerate() {
        let neighbour = &mut candidates[position].neighbour;
        (neighbour.sp, neighbour.rf, neighbour.sr) = (shared.sp, shared.rf, shared.sr);
        neighbour.rank = ranks[index];
        neighbour.order = orders[index];
        neighbour.preference = preferences[index];
        ground(neighbour, grounded[index]);
    }
}
