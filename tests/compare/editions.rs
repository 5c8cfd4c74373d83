//! How often each criterion of choice decided in each edition, how often the ranges that edition 2
//! alone has were reached, and how often an edition that there is not was refused.

use super::generate::Call;
use super::ranges::{only, Number};
use super::reference::data::{Answer, Neighbour, FIRST_EDITION, NO_PARENT, SECOND_EDITION};
use super::reference::rank::resulting;
use std::cmp::Ordering;

/// The highest interface order, and the highest root preference.
const HIGHEST: u8 = 7;

/// How many criteria there are, how many of them are edition 2's alone, and which is the rank.
const ALL: usize = 6;
const NEW: usize = 3;
const RANK: usize = 3;

/// What is counted, in words, each beside its numbers below.
const DECIDED: [&str; ALL] = [
    "edition 2, decided by interface order",
    "edition 2, decided by grounded",
    "edition 2, decided by root preference",
    "edition 2, decided by rank",
    "edition 2, decided by current parent",
    "edition 2, decided by position",
];
const AGAINST: [&str; ALL - 1] = [
    "edition 2, by interface order against all else",
    "edition 2, by grounded against all later",
    "edition 2, by root preference against all later",
    "edition 2, by rank against all later",
    "edition 2, by current parent against position",
];
const NOT_LEAST: &str = "edition 2, another's rank is less than the parent's";
const FIRST_AGAINST: [&str; ALL - NEW] = [
    "edition 1, by rank against order, grounded and preference",
    "edition 1, by current parent against these",
    "edition 1, by position against these",
];
const FIRST_ABOVE: [&str; 2] = [
    "edition 1, order above 7: unbarred",
    "edition 1, preference above 7: unbarred",
];
const ABOVE: [&str; 2] = [
    "edition 2, bar 11 for an order alone",
    "edition 2, bar 11 for a preference alone",
];
const JUST: [&str; 2] = [
    "edition 2, order 7: unbarred",
    "edition 2, preference 7: unbarred",
];
const NO_EDITION: [&str; 3] = [
    "refusal 5 for edition 0",
    "refusal 5 for edition 3",
    "refusal 5 for another edition",
];
const REFUSED_BEFORE: [&str; 4] = [
    "refusal 1 before 5",
    "refusal 2 before 5",
    "refusal 3 before 5",
    "refusal 4 before 5",
];

#[derive(Default)]
pub struct Editions {
    /// Unbarred candidates that the parent beats by each criterion in edition 2, and those of them
    /// for whom every later criterion is; position has no later one.
    decided: [u64; ALL],
    against: [u64; ALL - 1],
    /// Calls in which an unbarred candidate has a lower resulting rank than the parent.
    not_least: u64,
    /// Unbarred candidates that the parent beats by each criterion of edition 1, though all that it
    /// leaves out is for them.
    first_against: [u64; ALL - NEW],
    /// Orders, and preferences; one that bars is alone out of range.
    first_above: [u64; 2],
    above: [u64; 2],
    just: [u64; 2],
    /// Calls of an edition that there is not, refused by 5 and by each number before it.
    no_edition: [u64; 3],
    refused_before: [u64; 4],
}

impl Editions {
    /// Notes the edition of a call that was answered so, and what it decided.
    pub fn note(&mut self, call: &Call, answer: &Answer) {
        let edition = call.own.edition;
        if !matches!(edition, FIRST_EDITION | SECOND_EDITION) {
            self.refused(edition, answer.refusal);
        }
        for (candidate, verdict) in call.given().iter().zip(answer.verdicts) {
            self.ranges(edition, &candidate.neighbour, verdict);
        }
        if answer.parent != NO_PARENT {
            self.choice(call, answer);
        }
    }

    /// Notes the refusal of an edition that there is not.
    fn refused(&mut self, edition: u8, refusal: u8) {
        match (refusal, edition) {
            (1..=4, _) => self.refused_before[usize::from(refusal - 1)] += 1,
            (5, 0) => self.no_edition[0] += 1,
            (5, 3) => self.no_edition[1] += 1,
            (5, _) => self.no_edition[2] += 1,
            _ => {}
        }
    }

    /// Notes an order and a preference that are at the edge of their range or beyond it.
    fn ranges(&mut self, edition: u8, link: &Neighbour, verdict: u8) {
        let numbers = [
            (Number::Order, link.order),
            (Number::Preference, link.preference),
        ];
        for (index, (number, value)) in numbers.into_iter().enumerate() {
            let counts = match (edition, verdict) {
                (FIRST_EDITION, 10) if value > HIGHEST => &mut self.first_above,
                (SECOND_EDITION, 10) if value == HIGHEST => &mut self.just,
                (SECOND_EDITION, 11) if only(number, edition, link) => &mut self.above,
                _ => continue,
            };
            counts[index] += 1;
        }
    }

    /// Notes by what the parent beats each of the other unbarred candidates.
    fn choice(&mut self, call: &Call, answer: &Answer) {
        let parent = usize::from(answer.parent);
        let mut least = true;
        for other in (0..call.count).filter(|&other| other != parent) {
            if answer.verdicts[other] != 10 {
                continue;
            }
            let criteria = criteria(call, parent, other);
            let (new, old) = criteria.split_at(NEW);
            if call.own.edition == SECOND_EDITION {
                least &= criteria[RANK].is_le();
                self.second(&criteria);
            } else if new.iter().all(|one| one.is_gt()) {
                self.first_against[decisive(old)] += 1;
            }
        }
        self.not_least += u64::from(!least);
    }

    /// Notes by what the parent beats another in edition 2.
    fn second(&mut self, criteria: &[Ordering; ALL]) {
        let at = decisive(criteria);
        self.decided[at] += 1;
        if at < self.against.len() && criteria[at + 1..].iter().all(|one| one.is_gt()) {
            self.against[at] += 1;
        }
    }

    /// What was counted, in words.
    pub fn counts(&self) -> Vec<(&'static str, u64)> {
        let mut counts = Vec::new();
        counts.extend(DECIDED.into_iter().zip(self.decided));
        counts.extend(AGAINST.into_iter().zip(self.against));
        counts.push((NOT_LEAST, self.not_least));
        counts.extend(FIRST_AGAINST.into_iter().zip(self.first_against));
        counts.extend(FIRST_ABOVE.into_iter().zip(self.first_above));
        counts.extend(ABOVE.into_iter().zip(self.above));
        counts.extend(JUST.into_iter().zip(self.just));
        counts.extend(NO_EDITION.into_iter().zip(self.no_edition));
        counts.extend(REFUSED_BEFORE.into_iter().zip(self.refused_before));
        counts
    }
}

/// How many criteria an edition leaves out, the first.
pub fn left_out(edition: u8) -> usize {
    if edition == FIRST_EDITION {
        NEW
    } else {
        0
    }
}

/// For whom each criterion is, in edition 2's order: less for the parent, greater for the other.
pub fn criteria(call: &Call, parent: usize, other: usize) -> [Ordering; ALL] {
    let [one, two] = [parent, other].map(|position| &call.candidates[position].neighbour);
    let is_current = |position| call.own.current() == Some(position);
    [
        one.order.cmp(&two.order),
        two.grounded().cmp(&one.grounded()),
        two.preference.cmp(&one.preference),
        resulting(&call.own, one).cmp(&resulting(&call.own, two)),
        is_current(other).cmp(&is_current(parent)),
        parent.cmp(&other),
    ]
}

/// The first criterion that is for the one or the other; two positions are never the same.
pub fn decisive(criteria: &[Ordering]) -> usize {
    let first = criteria.iter().position(|one| one.is_ne());
    first.expect("two positions")
}
