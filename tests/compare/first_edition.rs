//! Edition 1 reads nothing of what edition 2 compares first: a call of the library in which only
//! that is other gives the same.

use super::compare::Given;
use super::generate::{set_any_site, Call};
use super::random::Random;
use super::reference::data::FIRST_EDITION;
use super::wrong::{run, Pair, Wrong};

/// Makes the second call of an unrefused call of edition 1, and tells whether there was one.
pub fn check(random: &mut Random, call: &Call, given: &Given) -> Result<bool, Wrong> {
    if call.own.edition != FIRST_EDITION || given.answer.refusal != 0 {
        return Ok(false);
    }
    let mut second = call.clone();
    for candidate in &mut second.candidates {
        set_any_site(random, &mut candidate.neighbour);
    }
    let other = run(random, &second)?;
    if other == *given {
        return Ok(true);
    }
    let pair = Pair {
        first: call.clone(),
        second,
        given: [given.clone(), other],
    };
    let what = "edition 1 reads order, grounded or preference";
    Err(Wrong::Pair(what.to_string(), Box::new(pair)))
}
