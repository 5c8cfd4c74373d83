//! Which numbers of a neighbour are out of range, and so give bar 11.

use super::reference::data::{Neighbour, SECOND_EDITION};

/// Which of the numbers below.
#[derive(Clone, Copy)]
pub enum Number {
    Colour = 5,
    Order,
    Preference,
}

/// Whether each number is out of range in an edition: Sp, Rf, Sr, LQL, type, colour, order,
/// preference.
pub fn out(edition: u8, link: &Neighbour) -> [bool; 8] {
    let second = edition == SECOND_EDITION;
    [
        !matches!(link.sp, 1..=9),
        !matches!(link.rf, 1..=4),
        link.sr >= 6,
        link.lql >= 8,
        link.nodetype >= 4,
        link.colour >= 1024,
        second && link.order >= 8,
        second && link.preference >= 8,
    ]
}

/// Whether this number is out of range in an edition, and every other in it.
pub fn only(number: Number, edition: u8, link: &Neighbour) -> bool {
    let out = out(edition, link);
    (0..out.len()).all(|one| out[one] == (one == number as usize))
}
