//! The finding: in what way a candidate that is barred by 11, 12, 14, 22 or 23 falls short. What a
//! constraint finds, bar 19, is in `unmet`.

use super::colour::HIGHEST;
use super::data::{Candidate, Finding, Neighbour, Own, CONTAINERS, SECOND_EDITION};
use super::joined::{containers, Joined};
use super::object::Objects;
use super::option::{Options, HEAD};
use super::unmet::unmet;
use super::verdict::{part, verdict, HIGHEST_ORDER, HIGHEST_PREFERENCE};
use super::way;

/// The bytes of an object's header.
const HEADER: u64 = 4;

/// How many of the numbers with a range edition 1 reads: the first.
const READ_BY_FIRST: usize = 6;

/// Tells what was asked of a candidate that is barred by 11, 12, 14, 19, 22 or 23, and what was
/// found.
pub fn examine(own: Own, candidate: &Candidate, lent: &[u8]) -> Finding {
    let Err(bar) = verdict(&own, candidate, lent) else {
        return Finding::default();
    };
    let run = part(candidate, lent).unwrap_or(&[]);
    match bar.number {
        11 => out_of_range(own.edition, &candidate.neighbour),
        12 => outside(candidate, lent),
        14 => object_cut(run),
        19 => at_object(run, bar.place, &candidate.neighbour),
        22 => option_cut(run),
        23 => too_many(run),
        _ => Finding::default(),
    }
}

/// The first number that is not in its range.
fn out_of_range(edition: u8, neighbour: &Neighbour) -> Finding {
    let numbers = [
        (way::SP, 1, 9, u64::from(neighbour.sp)),
        (way::RF, 1, 4, neighbour.rf.into()),
        (way::SR, 0, 5, neighbour.sr.into()),
        (way::LQL, 0, 7, neighbour.lql.into()),
        (way::TYPE, 0, 3, neighbour.nodetype.into()),
        (way::COLOUR, 0, HIGHEST.into(), neighbour.colour.into()),
        (way::ORDER, 0, HIGHEST_ORDER.into(), neighbour.order.into()),
        (
            way::PREFERENCE,
            0,
            HIGHEST_PREFERENCE.into(),
            neighbour.preference.into(),
        ),
    ];
    let read = if edition == SECOND_EDITION {
        numbers.len()
    } else {
        READ_BY_FIRST
    };
    for (way, which, asked, found) in numbers.into_iter().take(read) {
        if !(which..=asked).contains(&found) {
            return Finding {
                way,
                which,
                asked,
                found,
            };
        }
    }
    Finding::default()
}

/// Where a run stands that does not lie in the lent bytes.
fn outside(candidate: &Candidate, lent: &[u8]) -> Finding {
    Finding {
        way: way::OUTSIDE,
        which: candidate.start as u64,
        asked: candidate.size as u64,
        found: lent.len() as u64,
    }
}

/// The option that is cut short: its type and length, or its data.
fn option_cut(run: &[u8]) -> Finding {
    let mut options = Options { rest: run };
    options.by_ref().for_each(drop);
    let rest = options.rest;
    let (way, asked, found) = match rest {
        [_, length, data @ ..] => (way::OPTION_DATA, u64::from(*length), data.len() as u64),
        _ => (way::OPTION, HEAD as u64, rest.len() as u64),
    };
    Finding {
        way,
        which: (run.len() - rest.len()) as u64,
        asked,
        found,
    }
}

/// How many containers there are.
fn too_many(run: &[u8]) -> Finding {
    Finding {
        way: way::CONTAINERS,
        which: 0,
        asked: CONTAINERS as u64,
        found: containers(run).count() as u64,
    }
}

/// The first object whose header or body runs past the end of its container.
fn object_cut(run: &[u8]) -> Finding {
    let mut which = 0;
    for data in containers(run) {
        let mut objects = Objects::of(data);
        which += objects.by_ref().count() as u64;
        let (way, asked, found) = match objects.rest {
            [] => continue,
            [_, _, _, length, body @ ..] => (way::BODY, u64::from(*length), body.len()),
            header => (way::HEADER, HEADER, header.len()),
        };
        let found = found as u64;
        return Finding {
            way,
            which,
            asked,
            found,
        };
    }
    Finding::default()
}

/// What the constraint at a place of well-formed containers finds.
fn at_object(run: &[u8], place: u16, neighbour: &Neighbour) -> Finding {
    let Ok(joined) = Joined::read(run) else {
        return Finding::default();
    };
    match joined.objects().nth(place.into()) {
        Some(constraint) => unmet(&constraint, neighbour, &joined),
        None => Finding::default(),
    }
}
