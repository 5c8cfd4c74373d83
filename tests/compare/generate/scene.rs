//! What the runs and numbers of one call have in common, so that each kind of answer is reached
//! often: a run that is passed on needs everything in it to be in order.

use super::site::Site;
use crate::random::Random;
use crate::reference::data::{Own, CANDIDATES};

/// Which objects of unknown type may stand in the containers; each allows those before it.
#[derive(Clone, Copy, PartialEq, Eq, PartialOrd, Ord)]
pub enum Unknown {
    Absent,
    /// Recorded metrics and optional constraints.
    Harmless,
    /// Aggregated metrics too.
    Aggregated,
    /// Mandatory constraints too.
    Mandatory,
}

#[derive(Clone, Copy, PartialEq, Eq)]
pub enum Length {
    Short,
    Medium,
    /// Filled up to 255 bytes or a little less, if it is one container.
    Full,
}

/// Over how many containers the objects of a run are spread.
#[derive(Clone, Copy, PartialEq, Eq)]
pub enum Spread {
    Single,
    /// None up to ten, wherever the borders are.
    Several,
    /// One up to eight, each full or nearly.
    Long,
}

pub struct Scene {
    pub unknown: Unknown,
    pub tlvs: bool,
    /// Whether constraints are such that the neighbour meets them.
    pub fitting: bool,
    /// Whether aggregated metrics are such that this node can update them.
    pub passing: bool,
    pub length: Length,
    pub spread: Spread,
    /// Whether options that are no containers stand in the runs.
    pub others: bool,
    /// The resulting rank that many neighbours share.
    pub target: u32,
    /// What edition 2 compares before it.
    pub site: Site,
}

impl Scene {
    pub fn draw(random: &mut Random, own: &Own) -> Scene {
        use Unknown::*;
        let kinds = [Absent, Harmless, Harmless, Aggregated, Mandatory, Mandatory];
        let lengths = [Length::Short, Length::Short, Length::Medium, Length::Full];
        let spread = match random.below(8) {
            0..=3 => Spread::Single,
            4..=6 => Spread::Several,
            _ => Spread::Long,
        };
        Scene {
            unknown: random.pick(&kinds),
            tlvs: random.once_in(2),
            fitting: !random.once_in(3),
            passing: !random.once_in(3),
            length: random.pick(&lengths),
            spread,
            others: random.once_in(3),
            target: target(random, own),
            site: Site::draw(random),
        }
    }

    /// Long runs take their time, so few candidates have them.
    pub fn most_candidates(&self) -> usize {
        match self.spread {
            Spread::Long => 5,
            _ => CANDIDATES,
        }
    }

    /// Whether a single container is filled up with an object of unknown type.
    pub fn padded(&self) -> bool {
        self.spread == Spread::Single
            && self.length == Length::Full
            && self.unknown != Unknown::Absent
    }
}

/// A resulting rank: at the edge of bar 20, at the edge of bar 21, or between.
fn target(random: &mut Random, own: &Own) -> u32 {
    let limit = match own.lowest() {
        Some(lowest) if own.maxincrease != 0 => u32::from(lowest) + u32::from(own.maxincrease),
        _ => 65534,
    };
    match random.below(8) {
        0 => limit,
        1 => limit + 1,
        2 => 65534,
        3 => 65535,
        _ => random.within(0, limit.min(65534) as usize) as u32,
    }
}
