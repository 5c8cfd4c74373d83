//! When a constraint of a known type is met.

use super::colour;
use super::data::{Neighbour, AGGREGATOR, OVERLOADED};
use super::joined::Joined;
use super::object::{Object, COLOUR, ETX, HP, LATENCY, LQL, NE, NSA, THROUGHPUT};

/// The I bit and the E bit of an NE flags byte; T stands between them.
pub const INCLUDED: u8 = 0x08;
pub const ESTIMATED: u8 = 0x01;

/// Whether the neighbour meets a known constraint of well-formed containers. What is unknown meets
/// no limit.
pub fn met(constraint: &Object, neighbour: &Neighbour, joined: &Joined) -> bool {
    let body = constraint.body;
    match constraint.kind {
        NSA => state_met(body[1], neighbour.flags),
        NE => energy_met(body[0], body[1], neighbour),
        HP => joined.hops.is_some_and(|count| count < body[1]),
        THROUGHPUT => neighbour
            .throughput()
            .is_some_and(|link| link >= long(body)),
        LATENCY => neighbour.latency().is_some_and(|link| {
            let received = joined.sum(LATENCY).map_or(0, long);
            sum_met(received, link, long(body))
        }),
        LQL => (1..=body[1] >> 5).contains(&neighbour.lql),
        ETX => neighbour.etx().is_some_and(|link| {
            let received = joined.sum(ETX).map_or(0, word);
            sum_met(received.into(), link.into(), word(body).into())
        }),
        COLOUR => colour::met(word(&body[1..]), neighbour.colour),
        _ => true,
    }
}

/// Whether what is received (0 where nothing is added up) and the link's value are within a limit,
/// in whole numbers.
fn sum_met(received: u32, link: u32, limit: u32) -> bool {
    u64::from(received) + u64::from(link) <= u64::from(limit)
}

/// The aggregator bit asks for an aggregating neighbour, the overload bit for one not overloaded.
fn state_met(asked: u8, flags: u8) -> bool {
    asked & AGGREGATOR & !flags == 0 && asked & OVERLOADED & flags == 0
}

/// An inclusion asks for type T above the threshold; an exclusion bars type T below it or unknown.
fn energy_met(flags: u8, threshold: u8, neighbour: &Neighbour) -> bool {
    let same = neighbour.nodetype == flags >> 1 & 3;
    let estimated = flags & ESTIMATED != 0;
    let energy = neighbour.energy();
    if flags & INCLUDED != 0 {
        same && (!estimated || energy.is_some_and(|energy| energy > threshold))
    } else {
        !same || (estimated && energy.is_some_and(|energy| energy >= threshold))
    }
}

/// The 32 bits of a body that holds one sub-object of four bytes.
pub fn long(body: &[u8]) -> u32 {
    u32::from_be_bytes([body[0], body[1], body[2], body[3]])
}

/// The 16 bits of a sub-object of two bytes, with which the bytes begin.
pub fn word(body: &[u8]) -> u16 {
    u16::from_be_bytes([body[0], body[1]])
}
