//! How often link colours were tried where a bit, a counter or a range decides.

use super::compare::Given;
use super::cut::{is_constraint, is_mandatory};
use super::generate::Call;
use super::options::objects;
use super::ranges::{only, Number};

const COLOUR: u8 = 8;

/// The largest counter, and the reserved bits in the last byte of a constraint.
const FULL: u16 = 63;
const RESERVED: u8 = 0x3E;

/// How often each sort was tried. A mandatory constraint is met where its candidate's verdict is
/// 10, not met where that is 19 at its place.
#[derive(Default)]
pub struct Colours {
    /// I=1 and a colour other than 0, beside a link's that is the same, that has more bits, or
    /// that has some of the bits and lacks others (not met).
    included_equal: u64,
    included_wider: u64,
    included_part: u64,
    /// I=0 and a colour other than 0, beside a link's that has some of the bits and lacks others
    /// (met), or that has them all (not met).
    excluded_part: u64,
    excluded_had: u64,
    /// Colour 0, whatever the link's: with I=1 met, with I=0 not.
    none_included: u64,
    none_excluded: u64,
    /// Records passed on in which a counter is one more than received; of these, those that have a
    /// full one of the link's colour before it.
    gained: u64,
    gained_behind_full: u64,
    /// Records passed on with a sub-object more than received, in which there was one of the link's
    /// colour, and in which there was none.
    opened_beside_full: u64,
    opened: u64,
    /// Candidates barred by 11 whose colour alone is out of range.
    out_of_range: u64,
    /// Constraints passed on, mandatory or not, with some of the five bits before I set as received
    /// and none of the reserved bits as sent.
    cleared: u64,
    /// Colour objects that bar by 15, 16 and 17.
    malformed: u64,
    repeated: u64,
    aggregated: u64,
}

impl Colours {
    /// Notes the colours of a call that was answered so, whose runs have these objects.
    pub fn note(&mut self, call: &Call, received: &[Vec<&[u8]>], given: &Given) {
        for (position, candidate) in call.given().iter().enumerate() {
            let verdict = given.answer.verdicts[position];
            let place = given.answer.places[position];
            let colour_alone = only(Number::Colour, call.own.edition, &candidate.neighbour);
            self.out_of_range += u64::from(verdict == 11 && colour_alone);
            for (index, object) in received[position].iter().enumerate() {
                if object[0] != COLOUR {
                    continue;
                }
                match verdict {
                    10 if is_mandatory(object) => self.met(object, candidate.neighbour.colour),
                    15..=17 | 19 if place == index as u16 => {
                        self.barred(verdict, object, candidate.neighbour.colour)
                    }
                    _ => {}
                }
            }
        }
        let parent = usize::from(given.answer.parent);
        if let (Some(parent), Some(received)) = (call.given().get(parent), received.get(parent)) {
            self.passed(parent.neighbour.colour, received, given);
        }
    }

    /// Notes a mandatory constraint of an unbarred candidate.
    fn met(&mut self, constraint: &[u8], link: u16) {
        let (asked, included) = asked(constraint);
        let wider = asked & !link == 0 && asked != link;
        self.none_included += u64::from(included && asked == 0);
        self.included_equal += u64::from(included && asked != 0 && asked == link);
        self.included_wider += u64::from(included && asked != 0 && wider);
        self.excluded_part += u64::from(!included && part(asked, link));
    }

    /// Notes a colour object that bars its candidate.
    fn barred(&mut self, verdict: u8, object: &[u8], link: u16) {
        match verdict {
            15 => self.malformed += 1,
            16 => self.repeated += 1,
            17 => self.aggregated += 1,
            _ => {
                let (asked, included) = asked(object);
                self.included_part += u64::from(included && part(asked, link));
                self.excluded_had += u64::from(!included && asked != 0);
                self.none_excluded += u64::from(!included && asked == 0);
            }
        }
    }

    /// Notes the colours that are passed on behind a link of a colour, beside those that were
    /// received.
    fn passed(&mut self, link: u16, received: &[&[u8]], given: &Given) {
        let passed = objects(&given.out[..usize::from(given.answer.size)]).unwrap_or_default();
        for (before, after) in received.iter().zip(passed) {
            if before[0] != COLOUR {
                continue;
            }
            if is_constraint(before) {
                let cleared = before[6] & RESERVED != 0 && after[6] & RESERVED == 0;
                self.cleared += u64::from(cleared && after[4] == 0);
            } else {
                self.recorded(&subs(before), &subs(after), link);
            }
        }
    }

    /// Notes the sub-objects of a record before and after a link of a colour was counted.
    fn recorded(&mut self, before: &[u16], after: &[u16], link: u16) {
        let grew = after.len() > before.len();
        let there = before.iter().any(|&sub| sub >> 6 == link);
        self.opened_beside_full += u64::from(grew && there);
        self.opened += u64::from(grew && !there);
        let mut pairs = before.iter().zip(after);
        if let Some(at) = pairs.position(|(before, &after)| before.checked_add(1) == Some(after)) {
            let full = before[..at].contains(&(link << 6 | FULL));
            self.gained += 1;
            self.gained_behind_full += u64::from(full);
        }
    }

    /// What was counted, in words.
    pub fn counts(&self) -> [(&'static str, u64); 16] {
        [
            ("colours asked, the link's equal", self.included_equal),
            ("colours asked, the link's wider", self.included_wider),
            ("colours asked, had in part: not met", self.included_part),
            ("colours excluded, had in part: met", self.excluded_part),
            ("colours excluded, had: not met", self.excluded_had),
            ("colour 0 asked: met", self.none_included),
            ("colour 0 excluded: not met", self.none_excluded),
            ("colour counters that gained one", self.gained),
            ("of these behind a full one", self.gained_behind_full),
            ("colours opened beside full ones", self.opened_beside_full),
            ("colours opened, being the first", self.opened),
            ("bar 11 for a colour alone", self.out_of_range),
            ("colour constraints cleared", self.cleared),
            ("bar 15 at a colour", self.malformed),
            ("bar 16 at a colour", self.repeated),
            ("bar 17 at a colour", self.aggregated),
        ]
    }
}

/// The colour that a constraint names, and its I.
fn asked(constraint: &[u8]) -> (u16, bool) {
    let sub = subs(constraint)[0];
    (sub >> 6, sub & 1 == 1)
}

/// Whether the link has some of the bits asked for, and lacks others.
fn part(asked: u16, link: u16) -> bool {
    asked & link != 0 && asked & !link != 0
}

/// The sub-objects of a colour object, each a colour and six bits.
fn subs(object: &[u8]) -> Vec<u16> {
    let subs = object[5..].chunks(2);
    subs.map(|sub| u16::from_be_bytes([sub[0], sub[1]]))
        .collect()
}
