//! Where an unbarred candidate stands among the others: one comparison for both editions.

use super::data::{Neighbour, Own, SECOND_EDITION};
use std::cmp::Reverse;

/// What candidates are compared by: its first field in which two differ decides, the lesser being
/// preferred, and false is less than true.
#[derive(Clone, Copy, PartialEq, Eq, PartialOrd, Ord)]
pub struct Standing {
    /// What edition 2 compares first; edition 1 has none, so that all are equal in it.
    site: Option<Site>,
    /// The resulting rank.
    pub rank: u16,
    /// Whether it is another than the current parent.
    replaces: bool,
    pub position: usize,
}

/// Interface order, whether the DODAG is not grounded, and root preference, the higher first.
#[derive(Clone, Copy, PartialEq, Eq, PartialOrd, Ord)]
struct Site {
    order: u8,
    floating: bool,
    preference: Reverse<u8>,
}

impl Standing {
    pub fn new(own: &Own, neighbour: &Neighbour, rank: u16, position: usize) -> Standing {
        let site = Site {
            order: neighbour.order,
            floating: !neighbour.grounded(),
            preference: Reverse(neighbour.preference),
        };
        Standing {
            site: (own.edition == SECOND_EDITION).then_some(site),
            rank,
            replaces: own.current() != Some(position),
            position,
        }
    }
}
