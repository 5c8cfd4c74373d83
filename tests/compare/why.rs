//! The reason at every position of a call: the library's is the reference's, and fits what the
//! library chooses.

use super::compare::{self, Given, ToldDifference};
use super::editions::{criteria, decisive, left_out};
use super::generate::{pattern, Call};
use super::guarded::Guarded;
use super::random::Random;
use super::reasons::Reasons;
use super::reference::data::{Answer, Reason, CANDIDATES, OUTPUT_ROOM};
use super::reference::reason::{
    BARRED, BEATEN, BY_ORDER, BY_POSITION, BY_RANK, CHOSEN, NO_SUCH_POSITION, REFUSED,
};
use super::wrong::{run, Wrong};

/// The refusal of an output that is too short.
pub const NO_ROOM: u8 = 4;

/// What the library chooses where the output is long enough: then nothing refuses the choice but
/// what refuses the question too.
pub fn answer(random: &mut Random, call: &Call, given: &Given) -> Result<Answer, Wrong> {
    if given.answer.refusal != NO_ROOM {
        return Ok(given.answer);
    }
    let mut roomy = call.clone();
    roomy.out = pattern(random, OUTPUT_ROOM);
    Ok(run(random, &roomy)?.answer)
}

/// Asks for the reason at each position of a call that is answered so, and notes it; `short` is
/// whether the call's own output is too short.
pub fn check(
    random: &mut Random,
    call: &Call,
    answer: &Answer,
    short: bool,
    reasons: &mut Reasons,
) -> Result<(), ToldDifference> {
    let mut lent = Guarded::new(&call.lent, random);
    for position in positions(random, call.count) {
        let reason = compare::reason(&mut lent, call, position)?;
        if let Some(what) = misfit(call, answer, position, &reason) {
            return Err(ToldDifference::misfit(what, position, answer, &reason));
        }
        reasons.note(call, answer, short, position, &reason);
    }
    Ok(())
}

/// Every position of a call, or as many as there can be, and its count; now and then one far behind
/// it, often such that fewer bits of it are a candidate's.
fn positions(random: &mut Random, count: usize) -> Vec<usize> {
    let most = CANDIDATES + 1;
    let mut positions: Vec<usize> = (0..count.min(most)).collect();
    positions.push(count);
    if random.once_in(2) {
        let small = random.below(count.clamp(1, CANDIDATES));
        let far = random.edgy_size();
        let cut = [1 << 8 | small, 1 << 16 | small, 1 << 32 | small];
        positions.push(random.pick(&[cut[0], cut[1], cut[2], usize::MAX, far]));
    }
    positions
}

/// What of a reason does not fit the choice, if anything.
fn misfit(call: &Call, answer: &Answer, position: usize, reason: &Reason) -> Option<&'static str> {
    let refusal = match answer.refusal {
        0 if position >= call.count => NO_SUCH_POSITION,
        number => number,
    };
    if reason.refusal != refusal || (reason.kind == REFUSED) != (refusal != 0) {
        return Some("the refusal is not the choice's");
    }
    if refusal != 0 {
        return None;
    }
    let verdict = answer.verdicts[position];
    let chosen = position == usize::from(answer.parent);
    if chosen != (reason.kind == CHOSEN) || (verdict != 10) != (reason.kind == BARRED) {
        return Some("the kind of the reason does not fit the choice");
    }
    match reason.kind {
        BARRED if (reason.number, reason.place) != (verdict, answer.places[position]) => {
            Some("the bar is not the choice's")
        }
        BEATEN => unbeaten(call, answer, position, reason),
        _ => None,
    }
}

/// What is wrong with the criterion on which the parent is said to be better, if anything.
fn unbeaten(
    call: &Call,
    answer: &Answer,
    position: usize,
    reason: &Reason,
) -> Option<&'static str> {
    let left_out = left_out(call.own.edition);
    let criteria = criteria(call, answer.parent.into(), position);
    let first = left_out + decisive(&criteria[left_out..]);
    if reason.parent != answer.parent {
        Some("the parent is not the choice's")
    } else if usize::from(reason.criterion) != usize::from(BY_ORDER) + first {
        Some("the criterion is not the first on which the two differ")
    } else if criteria[first].is_gt() || !against_is_better(reason) {
        Some("the parent is not the better on the criterion")
    } else if reason.criterion == BY_RANK && reason.against != answer.rank {
        Some("the parent's rank is not the choice's")
    } else {
        None
    }
}

/// Whether the parent's value is the better of the two: the lower order, rank or position, or what
/// is grounded, preferred or current.
fn against_is_better(reason: &Reason) -> bool {
    match reason.criterion {
        BY_ORDER | BY_RANK | BY_POSITION => reason.against < reason.value,
        _ => reason.against > reason.value,
    }
}
