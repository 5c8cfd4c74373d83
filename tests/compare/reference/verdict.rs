//! The verdict on one candidate: its containers and resulting rank, or the first bar.

use super::colour::HIGHEST;
use super::constraint::met;
use super::data::{Candidate, Neighbour, Own, SECOND_EDITION};
use super::joined::{Bar, Joined};
use super::rank::allowed;

/// The highest interface order, and the highest root preference.
pub const HIGHEST_ORDER: u8 = 7;
pub const HIGHEST_PREFERENCE: u8 = 7;

/// The bars in their order: 11, 12, 22, 23, 14 to 21.
pub fn verdict<'a>(
    own: &Own,
    candidate: &Candidate,
    lent: &'a [u8],
) -> Result<(u16, Joined<'a>), Bar> {
    let neighbour = &candidate.neighbour;
    if !in_range(own.edition, neighbour) {
        return Err(Bar::whole(11));
    }
    let joined = Joined::read(part(candidate, lent).ok_or(Bar::whole(12))?)?;
    if let Some(bar) = first_unmet(&joined, neighbour) {
        return Err(bar);
    }
    match allowed(own, neighbour) {
        Ok(rank) => Ok((rank, joined)),
        Err(number) => Err(Bar::whole(number)),
    }
}

/// Bar 11 does not hold: what edition 2 compares first has a range in edition 2 only.
fn in_range(edition: u8, neighbour: &Neighbour) -> bool {
    (1..=9).contains(&neighbour.sp)
        && (1..=4).contains(&neighbour.rf)
        && neighbour.sr <= 5
        && neighbour.lql <= 7
        && neighbour.nodetype <= 3
        && neighbour.colour <= HIGHEST
        && (edition != SECOND_EDITION
            || neighbour.order <= HIGHEST_ORDER && neighbour.preference <= HIGHEST_PREFERENCE)
}

/// The candidate's run, if it lies in the lent bytes; a sum beyond 64 bits does not.
pub fn part<'a>(candidate: &Candidate, lent: &'a [u8]) -> Option<&'a [u8]> {
    let end = candidate.start.checked_add(candidate.size)?;
    lent.get(candidate.start..end)
}

/// The first mandatory constraint of unknown type (18), or known and not met (19).
fn first_unmet(joined: &Joined, neighbour: &Neighbour) -> Option<Bar> {
    for (place, object) in joined.objects().enumerate() {
        if !object.mandatory() {
            continue;
        }
        if !object.known() {
            return Some(Bar::at(18, place));
        }
        if !met(&object, neighbour, joined) {
            return Some(Bar::at(19, place));
        }
    }
    None
}
