//! How often each reason was given, and where more than one thing could have been told.

use super::editions::{criteria, decisive, left_out};
use super::generate::Call;
use super::reference::data::{Answer, Reason, FIRST_EDITION};
use super::reference::reason::{
    BARRED, BEATEN, BY_ORDER, BY_POSITION, BY_RANK, CHOSEN, NO_SUCH_POSITION, REFUSED,
};
use super::report::{Counts, Row, BARS};

/// What refuses a question, and what is counted as refused before the last of these.
const REFUSALS: [u8; 6] = [0, 1, 2, 3, 5, 6];
const BEFORE_LAST: [&str; 4] = [
    "reason refused by 1 before 6",
    "reason refused by 2 before 6",
    "reason refused by 3 before 6",
    "reason refused by 5 before 6",
];

/// The criteria on which alone two can differ, but for their position; edition 1 has the last two.
const ALONE: [&str; 5] = [
    "edition 2, beaten on interface order alone",
    "edition 2, beaten on grounded alone",
    "edition 2, beaten on root preference alone",
    "edition 2, beaten on rank alone",
    "edition 2, beaten by the current parent alone",
];
const FIRST_ALONE: [&str; 2] = [
    "edition 1, beaten on rank alone",
    "edition 1, beaten by the current parent alone",
];

pub struct Reasons {
    refusals: Counts,
    kinds: Counts,
    bars: Counts,
    /// Criteria, in edition 1 and in edition 2.
    first: Counts,
    second: Counts,
    before_last: [u64; 4],
    alone: [u64; 5],
    first_alone: [u64; 5],
    /// Reasons of calls that a short output refuses, and questions that the edition then refuses.
    without_room: u64,
    without_edition: u64,
    /// Parents of a node that joins as a leaf.
    leaf_chosen: u64,
    /// Positions refused of which some lower bits are a candidate's.
    cut: u64,
}

impl Reasons {
    pub fn new() -> Reasons {
        Reasons {
            refusals: [0; 256],
            kinds: [0; 256],
            bars: [0; 256],
            first: [0; 256],
            second: [0; 256],
            before_last: [0; 4],
            alone: [0; 5],
            first_alone: [0; 5],
            without_room: 0,
            without_edition: 0,
            leaf_chosen: 0,
            cut: 0,
        }
    }

    /// Notes the reason at a position of a call that is answered so where its output is long enough;
    /// `short` is whether it is not.
    pub fn note(&mut self, call: &Call, answer: &Answer, short: bool, at: usize, reason: &Reason) {
        self.refusals[usize::from(reason.refusal)] += 1;
        self.kinds[usize::from(reason.kind)] += 1;
        self.without_room += u64::from(short && reason.refusal == 0);
        self.without_edition += u64::from(short && reason.refusal == 5);
        match reason.kind {
            REFUSED => self.refused(call.count, at, reason.refusal),
            CHOSEN => self.leaf_chosen += u64::from(answer.leaf != 0),
            BARRED => self.bars[usize::from(reason.number)] += 1,
            BEATEN => self.beaten(call, at, reason),
            _ => {}
        }
    }

    fn refused(&mut self, count: usize, at: usize, refusal: u8) {
        if refusal == NO_SUCH_POSITION {
            let cuts = [at as u8 as usize, at as u16 as usize, at as u32 as usize];
            self.cut += u64::from(cuts.iter().any(|&cut| cut < count));
        } else if at >= count {
            let before = REFUSALS[1..].iter().position(|&one| one == refusal);
            if let Some(index) = before {
                self.before_last[index] += 1;
            }
        }
    }

    fn beaten(&mut self, call: &Call, at: usize, reason: &Reason) {
        let (counts, alone) = if call.own.edition == FIRST_EDITION {
            (&mut self.first, &mut self.first_alone)
        } else {
            (&mut self.second, &mut self.alone)
        };
        counts[usize::from(reason.criterion)] += 1;
        let left_out = left_out(call.own.edition);
        let criteria = criteria(call, reason.parent.into(), at);
        let first = left_out + decisive(&criteria[left_out..]);
        let behind = alone.len();
        if first < behind && criteria[first + 1..behind].iter().all(|one| one.is_eq()) {
            alone[first] += 1;
        }
    }

    /// The numbers that were told, each to be told often enough.
    pub fn numbers(&self) -> Vec<Row<'_>> {
        vec![
            ("reason refused", REFUSALS.to_vec(), &self.refusals),
            ("reason", (REFUSED..=BEATEN).collect(), &self.kinds),
            ("reason barred", BARS.to_vec(), &self.bars),
            (
                "edition 1, beaten by",
                (BY_RANK..=BY_POSITION).collect(),
                &self.first,
            ),
            (
                "edition 2, beaten by",
                (BY_ORDER..=BY_POSITION).collect(),
                &self.second,
            ),
        ]
    }

    /// What else was counted, in words.
    pub fn counts(&self) -> Vec<(&'static str, u64)> {
        let mut counts = Vec::new();
        counts.extend(BEFORE_LAST.into_iter().zip(self.before_last));
        counts.extend(ALONE.into_iter().zip(self.alone));
        let first = self.first_alone.into_iter().skip(left_out(FIRST_EDITION));
        counts.extend(FIRST_ALONE.into_iter().zip(first));
        counts.extend([
            ("reasons of a call without room", self.without_room),
            ("reason refused by 5 without room", self.without_edition),
            ("chosen, joining as a leaf", self.leaf_chosen),
            ("refused by 6, cut to a candidate's position", self.cut),
        ]);
        counts
    }
}
