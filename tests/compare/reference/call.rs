//! The whole call: refusals, a verdict on each candidate, the preferred parent, its containers.

use super::data::{Answer, Candidate, Own, CANDIDATES, FIRST_EDITION, OUTPUT_ROOM, SECOND_EDITION};
use super::hop::Hop;
use super::joined::Joined;
use super::standing::Standing;
use super::verdict::verdict;

/// The verdict number of an unbarred candidate.
const UNBARRED: u8 = 10;

/// The preferred parent so far.
pub struct Parent<'a> {
    pub standing: Standing,
    joined: Joined<'a>,
}

/// Gives each candidate a verdict, picks a parent and writes the containers to send on.
pub fn choose(
    own: Own,
    candidates: &[Candidate; CANDIDATES],
    count: usize,
    lent: &[u8],
    out: &mut [u8],
) -> Answer {
    let mut answer = Answer::refused(refusal(&own, count, out.len()));
    if answer.refusal != 0 {
        return answer;
    }
    let Some(parent) = preferred(&own, &candidates[..count], lent, &mut answer) else {
        return answer;
    };
    let Standing { position, rank, .. } = parent.standing;
    answer.parent = position as u8;
    answer.rank = rank;
    let hop = Hop {
        own: &own,
        link: &candidates[position].neighbour,
    };
    match hop.pass_on(&parent.joined, out) {
        Ok(size) => answer.size = size,
        Err(leaf) => answer.leaf = leaf,
    }
    answer
}

/// The first refusal of the whole call, or 0.
pub fn refusal(own: &Own, count: usize, room: usize) -> u8 {
    if own.minhop == 0 || own.nodetype > 3 {
        1
    } else if count > CANDIDATES {
        2
    } else if own.current().is_some_and(|current| current >= count) {
        3
    } else if room < OUTPUT_ROOM {
        4
    } else if !matches!(own.edition, FIRST_EDITION | SECOND_EDITION) {
        5
    } else {
        0
    }
}

/// The unbarred candidate that stands before all others. Verdicts, bits and their count go into
/// the answer.
pub fn preferred<'a>(
    own: &Own,
    candidates: &[Candidate],
    lent: &'a [u8],
    answer: &mut Answer,
) -> Option<Parent<'a>> {
    let mut best: Option<Parent> = None;
    for (position, candidate) in candidates.iter().enumerate() {
        let (rank, joined) = match verdict(own, candidate, lent) {
            Ok(unbarred) => unbarred,
            Err(bar) => {
                answer.verdicts[position] = bar.number;
                answer.places[position] = bar.place;
                continue;
            }
        };
        answer.verdicts[position] = UNBARRED;
        answer.bits |= 1 << position;
        let standing = Standing::new(own, &candidate.neighbour, rank, position);
        if best.as_ref().is_none_or(|best| standing < best.standing) {
            best = Some(Parent { standing, joined });
        }
    }
    answer.count = answer.bits.count_ones() as u8;
    best
}
