//! The runs of a call are fed in parts: a call on what is kept of them gives what the call on the
//! whole runs gives.

use super::compare::{self, Given, ToldDifference};
use super::examine::told_of;
use super::feeder::Feeder;
use super::feedings::Feedings;
use super::generate::{lay, pattern, Call};
use super::guarded::Guarded;
use super::random::Random;
use super::reference::data::KEPT_ROOM;
use super::wrong::{run, Pair, Wrong};

/// A reason and a finding of what is kept are asked for once in so many calls.
const TOLD_ONCE_IN: usize = 8;

/// Runs are shortened once in so many calls.
const SHORTENED_ONCE_IN: usize = 16;

/// Feeds every run of a call, of some calls also runs that end anywhere before, and makes the call
/// on what is kept.
pub fn check(
    random: &mut Random,
    call: &Call,
    given: &Given,
    feedings: &mut Feedings,
) -> Result<(), Wrong> {
    fed(random, call, given, feedings)?;
    if random.once_in(SHORTENED_ONCE_IN) {
        let call = shortened(random, call);
        let given = run(random, &call)?;
        fed(random, &call, &given, feedings)?;
    }
    Ok(())
}

/// The call as it is between two parts: each run ends where one of these may end.
fn shortened(random: &mut Random, call: &Call) -> Call {
    let mut short = call.clone();
    for (candidate, whole) in short.candidates.iter_mut().zip(call.given()) {
        if let Some(run) = call.run(whole) {
            candidate.size = random.within(0, run.len());
        }
    }
    short
}

/// Feeds every run of a call that is answered so, and makes the call on what is kept.
fn fed(
    random: &mut Random,
    call: &Call,
    given: &Given,
    feedings: &mut Feedings,
) -> Result<(), Wrong> {
    let room = random.pick(&[KEPT_ROOM, KEPT_ROOM, KEPT_ROOM + 1, KEPT_ROOM + 300]);
    let mut feeder = Feeder {
        lent: Guarded::new(&call.lent, random),
        buffer: Guarded::new(&pattern(random, room), random),
    };
    let mut kept = Vec::with_capacity(call.given().len());
    for candidate in call.given() {
        kept.push(match call.run(candidate) {
            Some(run) => feeder.feed(random, run, candidate.start, feedings)?,
            None => Vec::new(),
        });
    }
    let second = second_call(random, call, &kept);
    let other = run(random, &second)?;
    if other != *given {
        let what = "what is kept of the runs gives another answer".to_string();
        let pair = Pair {
            first: call.clone(),
            second,
            given: [given.clone(), other],
        };
        return Err(Wrong::Pair(what, Box::new(pair)));
    }
    if call.given().is_empty() || !random.once_in(TOLD_ONCE_IN) {
        return Ok(());
    }
    told(random, [call, &second])
        .map_err(|difference| Wrong::Told(Box::new(second), Box::new(difference)))
}

/// The call on what is kept of its runs; those that are not inside stay so.
fn second_call(random: &mut Random, call: &Call, kept: &[Vec<u8>]) -> Call {
    let mut second = Call {
        own: call.own,
        candidates: call.candidates,
        count: call.count,
        lent: Vec::new(),
        out: call.out.clone(),
    };
    let candidates = &mut second.candidates[..kept.len()];
    second.lent = lay(random, kept, candidates);
    for (candidate, whole) in candidates.iter_mut().zip(call.given()) {
        if call.run(whole).is_none() {
            candidate.start = second.lent.len() + 1;
        }
    }
    second
}

/// The reason and the finding at one position are the same in both calls; but of 12, 22 and 23 a
/// finding speaks of the bytes of a run.
fn told(random: &mut Random, calls: [&Call; 2]) -> Result<(), ToldDifference> {
    let position = random.below(calls[0].given().len());
    let mut lent = calls.map(|call| Guarded::new(&call.lent, random));
    let [whole, kept] = &mut lent;
    let first = compare::reason(whole, calls[0], position)?;
    let second = compare::reason(kept, calls[1], position)?;
    if first != second {
        let what = "the reason is another of what is kept";
        return Err(ToldDifference::new(what, position, &first, &second));
    }
    let first = compare::finding(whole, calls[0], position)?;
    let second = compare::finding(kept, calls[1], position)?;
    let (bar, _) = told_of(first.way);
    let alike = first == second || matches!(bar, 12 | 22 | 23) && told_of(second.way).0 == bar;
    if !alike {
        let what = "the finding is another of what is kept";
        return Err(ToldDifference::new(what, position, &first, &second));
    }
    Ok(())
}
