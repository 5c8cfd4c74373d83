//! How often each finding was given, and where more than one way could have been told.

use super::examine::barring;
use super::generate::Call;
use super::options::{containers, objects_of};
use super::ranges::out;
use super::reference::data::{Answer, Candidate, Finding, OVERLOADED, SECOND_EDITION};
use super::reference::way;
use super::report::{Counts, Row};
use std::ops::RangeInclusive;

/// The ways of bar 13, which no call gives.
const FRAMES: RangeInclusive<u8> = 10..=12;

/// The E bit of an NE flags byte.
const ESTIMATED: u8 = 0x01;

pub struct Findings {
    ways: Counts,
    /// Findings though a choice would be refused for the own numbers, and none of an order or a
    /// preference that only edition 2 would not allow.
    refused_own: u64,
    unread: u64,
    /// The first way is told of several: numbers out of range; an aggregating node and one not
    /// overloaded; type and energy.
    ranges: u64,
    states: u64,
    energies: u64,
    /// Objects cut short in another container than the first, and options cut short behind others.
    later_object: u64,
    later_option: u64,
    /// Sums that are beyond the field of a latency or an ETX.
    latency_beyond: u64,
    etx_beyond: u64,
    /// Something received where the link's latency or ETX is not known.
    latency_unknown: u64,
    etx_unknown: u64,
}

impl Findings {
    pub fn new() -> Findings {
        Findings {
            ways: [0; 256],
            refused_own: 0,
            unread: 0,
            ranges: 0,
            states: 0,
            energies: 0,
            later_object: 0,
            later_option: 0,
            latency_beyond: 0,
            etx_beyond: 0,
            latency_unknown: 0,
            etx_unknown: 0,
        }
    }

    /// Notes the finding of a candidate of a call that is answered so.
    pub fn note(&mut self, call: &Call, answer: &Answer, position: usize, finding: &Finding) {
        let Finding {
            way, which, found, ..
        } = *finding;
        let candidate = &call.candidates[position];
        self.ways[usize::from(way)] += 1;
        self.refused_own += u64::from(way != 0 && matches!(answer.refusal, 1 | 5));
        self.unread += u64::from(answer.refusal == 5 && only_edition_2_bars(call, candidate));
        match way {
            way::SP..=way::PREFERENCE => {
                let out = out(call.own.edition, &candidate.neighbour);
                self.ranges += u64::from(out.iter().filter(|&&out| out).count() > 1);
            }
            way::AGGREGATOR | way::OTHER_TYPE => {
                let constraint = barring(call, answer, position);
                self.constraint(way, constraint, candidate);
            }
            way::HEADER | way::BODY => self.later_object += u64::from(later(call, candidate)),
            way::OPTION | way::OPTION_DATA => self.later_option += u64::from(which > 0),
            way::PATH_LATENCY => self.latency_beyond += u64::from(found > u32::MAX.into()),
            way::PATH_ETX => self.etx_beyond += u64::from(found > u16::MAX.into()),
            way::UNKNOWN_LATENCY => self.latency_unknown += u64::from(which != 0),
            way::UNKNOWN_ETX => self.etx_unknown += u64::from(which != 0),
            _ => {}
        }
    }

    /// Notes an NSA or NE constraint of which the first of two things is told, if there are two.
    fn constraint(&mut self, way: u8, constraint: Option<&[u8]>, candidate: &Candidate) {
        let Some(body) = constraint.map(|object| &object[4..]) else {
            return;
        };
        let neighbour = &candidate.neighbour;
        if way == way::AGGREGATOR {
            let both = body[1] & OVERLOADED & neighbour.flags != 0;
            self.states += u64::from(both);
        } else {
            let above = neighbour.energy().is_some_and(|energy| energy > body[1]);
            self.energies += u64::from(body[0] & ESTIMATED != 0 && !above);
        }
    }

    /// The ways that were told, each to be told often enough; bar 13's are not among them.
    pub fn numbers(&self) -> Vec<Row<'_>> {
        let ways = (0..=way::CONTAINERS).filter(|way| !FRAMES.contains(way));
        vec![("finding", ways.collect(), &self.ways)]
    }

    /// The ways that were told and are not to be.
    pub fn never(&self) -> Row<'_> {
        ("finding", FRAMES.collect(), &self.ways)
    }

    /// What else was counted, in words.
    pub fn counts(&self) -> [(&'static str, u64); 11] {
        [
            (
                "findings for own numbers that are refused",
                self.refused_own,
            ),
            ("findings, out of range in edition 2 alone", self.unread),
            ("findings, several numbers out of range", self.ranges),
            ("findings, neither aggregating nor free", self.states),
            ("findings, another type and its energy", self.energies),
            (
                "findings, an object cut short in a later container",
                self.later_object,
            ),
            (
                "findings, an option cut short behind others",
                self.later_option,
            ),
            ("findings, a latency beyond the field", self.latency_beyond),
            ("findings, an ETX beyond the field", self.etx_beyond),
            (
                "findings, received and unknown latency",
                self.latency_unknown,
            ),
            ("findings, received and unknown ETX", self.etx_unknown),
        ]
    }
}

/// Whether numbers are out of range in edition 2, but not in the call's edition.
fn only_edition_2_bars(call: &Call, candidate: &Candidate) -> bool {
    let bars = |edition| out(edition, &candidate.neighbour).contains(&true);
    bars(SECOND_EDITION) && !bars(call.own.edition)
}

/// Whether the objects of the first container fill it, so that one that is cut short stands in
/// another.
fn later(call: &Call, candidate: &Candidate) -> bool {
    let containers = call.run(candidate).and_then(containers);
    let first = containers.as_ref().and_then(|all| all.first());
    first.is_some_and(|first| objects_of(first).is_some())
}
