//! The reason at a position: why the candidate there is the parent, or is not.

use super::call::{preferred, refusal};
use super::data::{Answer, Candidate, Own, Reason, CANDIDATES, OUTPUT_ROOM, SECOND_EDITION};
use super::rank::resulting;
use super::verdict::verdict;

/// The kinds of reason.
pub const REFUSED: u8 = 0;
pub const CHOSEN: u8 = 1;
pub const BARRED: u8 = 2;
pub const BEATEN: u8 = 3;

/// The criteria in their order; the first three are edition 2's alone.
pub const BY_ORDER: u8 = 1;
pub const BY_GROUNDED: u8 = 2;
pub const BY_PREFERENCE: u8 = 3;
pub const BY_RANK: u8 = 4;
pub const BY_CURRENT: u8 = 5;
pub const BY_POSITION: u8 = 6;

/// The refusal of a position that is not below the count; it comes last.
pub const NO_SUCH_POSITION: u8 = 6;

/// Tells why the candidate at a position is the parent, or is not. No output is lent, so none is
/// too short.
pub fn why(
    own: Own,
    candidates: &[Candidate; CANDIDATES],
    count: usize,
    lent: &[u8],
    position: usize,
) -> Reason {
    match refusal(&own, count, OUTPUT_ROOM) {
        0 if position < count => at(&own, &candidates[..count], lent, position),
        0 => Reason::bare(NO_SUCH_POSITION, REFUSED),
        number => Reason::bare(number, REFUSED),
    }
}

/// The reason at the position of a candidate.
fn at(own: &Own, candidates: &[Candidate], lent: &[u8], position: usize) -> Reason {
    if let Err(bar) = verdict(own, &candidates[position], lent) {
        return Reason {
            number: bar.number,
            place: bar.place,
            ..Reason::bare(0, BARRED)
        };
    }
    let parent = preferred(own, candidates, lent, &mut Answer::refused(0));
    match parent.map(|parent| parent.standing.position) {
        Some(parent) if parent != position => beaten(own, candidates, position, parent),
        _ => Reason::bare(0, CHOSEN),
    }
}

/// What an unbarred candidate has on each criterion, in their order.
struct Rival {
    order: u16,
    grounded: u16,
    preference: u16,
    rank: u16,
    current: u16,
    position: u16,
}

impl Rival {
    fn new(own: &Own, candidate: &Candidate, position: usize) -> Rival {
        let neighbour = &candidate.neighbour;
        Rival {
            order: neighbour.order.into(),
            grounded: neighbour.grounded().into(),
            preference: neighbour.preference.into(),
            rank: resulting(own, neighbour) as u16, // below 65535: it is unbarred
            current: u16::from(own.current() == Some(position)),
            position: position as u16,
        }
    }
}

/// The first criterion of the edition on which a candidate and the parent differ, and what the two
/// have there.
fn beaten(own: &Own, candidates: &[Candidate], position: usize, parent: usize) -> Reason {
    let one = Rival::new(own, &candidates[position], position);
    let best = Rival::new(own, &candidates[parent], parent);
    let second = own.edition == SECOND_EDITION;
    let (criterion, value, against) = if second && one.order != best.order {
        (BY_ORDER, one.order, best.order)
    } else if second && one.grounded != best.grounded {
        (BY_GROUNDED, one.grounded, best.grounded)
    } else if second && one.preference != best.preference {
        (BY_PREFERENCE, one.preference, best.preference)
    } else if one.rank != best.rank {
        (BY_RANK, one.rank, best.rank)
    } else if one.current != best.current {
        (BY_CURRENT, one.current, best.current)
    } else {
        (BY_POSITION, one.position, best.position)
    };
    Reason {
        parent: parent as u8,
        criterion,
        value,
        against,
        ..Reason::bare(0, BEATEN)
    }
}
