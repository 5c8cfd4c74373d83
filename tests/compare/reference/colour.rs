//! Link colours: sub-objects of 16 bits, a colour in the upper ten, behind a reserved byte.

use super::constraint::word;

/// The highest colour: all ten bits.
pub const HIGHEST: u16 = 1023;

/// The I bit of a constraint's sub-object.
pub const INCLUDED: u16 = 0x01;

/// The bits between colour and I, in the second byte of a constraint's sub-object.
pub const RESERVED: u8 = 0x3E;

/// The largest counter of a recorded sub-object, in its lower six bits.
const FULL: u16 = 63;

/// Whether a link of a colour meets a constraint's sub-object: an inclusion asks for every bit of
/// its colour, an exclusion bars the links that have every one.
pub fn met(asked: u16, link: u16) -> bool {
    let colour = asked >> 6;
    let had = link & colour == colour;
    had == (asked & INCLUDED != 0)
}

/// The place, in a recorded body, of the first counter that can count a link of this colour.
pub fn counter(body: &[u8], link: u16) -> Option<usize> {
    let counts = |sub: &[u8]| word(sub) >> 6 == link && word(sub) & FULL < FULL;
    let index = body[1..].chunks_exact(2).position(counts)?;
    Some(2 * index + 2)
}

/// A recorded sub-object that counts one link of this colour.
pub fn first(link: u16) -> [u8; 2] {
    (link << 6 | 1).to_be_bytes()
}
