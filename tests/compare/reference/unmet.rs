//! What is asked by a constraint of a known type that is not met, and what is found.

use super::colour;
use super::constraint::{long, word, ESTIMATED, INCLUDED};
use super::data::{Finding, Neighbour, AGGREGATOR};
use super::joined::Joined;
use super::object::{Object, COLOUR, ETX, HP, LATENCY, LQL, NE, NSA, THROUGHPUT};
use super::way;

/// The finding of a constraint that the neighbour does not meet.
pub fn unmet(constraint: &Object, neighbour: &Neighbour, joined: &Joined) -> Finding {
    let body = constraint.body;
    match constraint.kind {
        NSA => state(body[1], neighbour.flags),
        NE => energy(body[0], body[1], neighbour),
        HP => hops(body[1], joined.hops),
        THROUGHPUT => throughput(long(body), neighbour.throughput()),
        LATENCY => latency(long(body), neighbour.latency(), joined),
        LQL => quality(body[1] >> 5, neighbour.lql),
        ETX => etx(word(body), neighbour.etx(), joined),
        COLOUR => link_colour(word(&body[1..]), neighbour.colour),
        _ => Finding::default(),
    }
}

/// A finding of which `which` tells nothing.
fn told(way: u8, asked: u64, found: u64) -> Finding {
    Finding {
        way,
        which: 0,
        asked,
        found,
    }
}

/// The aggregator bit is looked at first.
fn state(asked: u8, flags: u8) -> Finding {
    if asked & AGGREGATOR != 0 && flags & AGGREGATOR == 0 {
        told(way::AGGREGATOR, 0, 0)
    } else {
        told(way::OVERLOADED, 0, 0)
    }
}

/// An inclusion asks for type T, then for energy above the threshold; an exclusion bars type T, all
/// of it or that below the threshold.
fn energy(flags: u8, threshold: u8, neighbour: &Neighbour) -> Finding {
    let t = flags >> 1 & 3;
    if flags & INCLUDED != 0 {
        if neighbour.nodetype != t {
            return told(way::OTHER_TYPE, t.into(), neighbour.nodetype.into());
        }
        let ways = [way::LITTLE_ENERGY, way::UNKNOWN_ENERGY];
        estimate(ways, t, threshold, neighbour.energy())
    } else {
        if flags & ESTIMATED == 0 {
            return told(way::BARRED_TYPE, t.into(), neighbour.nodetype.into());
        }
        let ways = [way::BARRED_ENERGY, way::BARRED_UNKNOWN];
        estimate(ways, t, threshold, neighbour.energy())
    }
}

/// Energy on the wrong side of a threshold for nodes of type T: the first way where it is known.
fn estimate([known, unknown]: [u8; 2], t: u8, threshold: u8, energy: Option<u8>) -> Finding {
    let finding = match energy {
        Some(energy) => told(known, threshold.into(), energy.into()),
        None => told(unknown, threshold.into(), 0),
    };
    Finding {
        which: t.into(),
        ..finding
    }
}

fn hops(limit: u8, counted: Option<u8>) -> Finding {
    match counted {
        Some(count) => told(way::HOPS, limit.into(), count.into()),
        None => told(way::UNKNOWN_HOPS, limit.into(), 0),
    }
}

fn throughput(limit: u32, link: Option<u32>) -> Finding {
    match link {
        Some(link) => told(way::THROUGHPUT, limit.into(), link.into()),
        None => told(way::UNKNOWN_THROUGHPUT, limit.into(), 0),
    }
}

fn latency(limit: u32, link: Option<u32>, joined: &Joined) -> Finding {
    let received = joined.sum(LATENCY).map_or(0, long);
    let ways = [way::LATENCY, way::PATH_LATENCY, way::UNKNOWN_LATENCY];
    path(ways, limit.into(), received.into(), link.map(u64::from))
}

fn etx(limit: u16, link: Option<u16>, joined: &Joined) -> Finding {
    let received = joined.sum(ETX).map_or(0, word);
    let ways = [way::ETX, way::PATH_ETX, way::UNKNOWN_ETX];
    path(ways, limit.into(), received.into(), link.map(u64::from))
}

/// A limit of the path: the first way where nothing was received, the second where something was,
/// the third where the link's value is not known.
fn path(ways: [u8; 3], limit: u64, received: u64, link: Option<u64>) -> Finding {
    let [of_link, of_path, unknown] = ways;
    let finding = match link {
        Some(link) if received == 0 => told(of_link, limit, link),
        Some(link) => told(of_path, limit, received + link),
        None => told(unknown, limit, 0),
    };
    Finding {
        which: received,
        ..finding
    }
}

/// A link of level 0 is not known.
fn quality(val: u8, link: u8) -> Finding {
    match link {
        0 => told(way::UNKNOWN_QUALITY, val.into(), 0),
        _ => told(way::QUALITY, val.into(), link.into()),
    }
}

/// An inclusion asks for the colour, an exclusion bars it.
fn link_colour(asked: u16, link: u16) -> Finding {
    let way = if asked & colour::INCLUDED != 0 {
        way::LACKS_COLOUR
    } else {
        way::HAS_COLOUR
    };
    told(way, (asked >> 6).into(), link.into())
}
