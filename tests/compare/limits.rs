//! How often limits on latency and ETX were tried where more than the link's value could decide.

use super::cut::{is_constraint, is_mandatory, is_recorded};
use super::generate::Call;
use super::reference::data::{Answer, Neighbour};

const LATENCY: u8 = 5;
const ETX: u8 = 7;

/// How often mandatory limits that the link's value meets were not met, or stood in the run of an
/// unbarred candidate beside a metric that takes them to their edge or beyond.
#[derive(Default)]
pub struct Limits {
    unmet: u64,
    unmet_at_maximum: u64,
    reached: u64,
    beside_other_a: u64,
    beside_recorded: u64,
    beside_other_type: u64,
}

impl Limits {
    /// Notes the limits of a call that was answered so, whose runs have these objects.
    pub fn note(&mut self, call: &Call, received: &[Vec<&[u8]>], answer: &Answer) {
        for (position, candidate) in call.given().iter().enumerate() {
            let objects = &received[position];
            for (place, limit) in objects.iter().enumerate() {
                let Some(spare) = spare(limit, &candidate.neighbour) else {
                    continue;
                };
                match answer.verdicts[position] {
                    10 => objects
                        .iter()
                        .for_each(|one| self.beside(limit, spare, one)),
                    19 if answer.places[position] == place as u16 => self.unmet(limit),
                    _ => {}
                }
            }
        }
    }

    fn unmet(&mut self, limit: &[u8]) {
        let maximum = limit[4..].iter().all(|&byte| byte == 255);
        self.unmet += 1;
        self.unmet_at_maximum += u64::from(maximum);
    }

    /// Notes a metric beside a limit that is met, and that is so far above the link's value.
    fn beside(&mut self, limit: &[u8], spare: u32, metric: &[u8]) {
        if is_constraint(metric) || !matches!(metric[0], LATENCY | ETX) {
            return;
        }
        let same = metric[0] == limit[0];
        let recorded = is_recorded(metric);
        let adds = metric[2] & 0x70 == 0;
        let value = first(metric);
        self.reached += u64::from(same && !recorded && adds && value == spare && value > 0);
        if value > spare {
            self.beside_other_a += u64::from(same && !recorded && !adds);
            self.beside_recorded += u64::from(same && recorded);
            self.beside_other_type += u64::from(!same && !recorded && adds);
        }
    }

    /// What was counted, in words.
    pub fn counts(&self) -> [(&'static str, u64); 6] {
        [
            ("limits met by the link but not by the sum", self.unmet),
            ("of these at the maximum", self.unmet_at_maximum),
            ("limits met by the sum exactly", self.reached),
            (
                "limits met beside too large a maximum or minimum",
                self.beside_other_a,
            ),
            (
                "limits met beside too large a recorded value",
                self.beside_recorded,
            ),
            (
                "limits met beside too large a sum of the other type",
                self.beside_other_type,
            ),
        ]
    }
}

/// By how much a mandatory limit on latency or ETX is above the link's value, if that meets it.
fn spare(limit: &[u8], link: &Neighbour) -> Option<u32> {
    let value = match limit[0] {
        LATENCY => link.latency(),
        ETX => link.etx().map(u32::from),
        _ => None,
    }?;
    let limit = is_mandatory(limit).then(|| first(limit))?;
    limit.checked_sub(value)
}

/// The number that the body of a latency or ETX object begins with.
fn first(object: &[u8]) -> u32 {
    let size = if object[0] == LATENCY { 4 } else { 2 };
    let bytes = object[4..].iter().take(size);
    bytes.fold(0, |number, &byte| number << 8 | u32::from(byte))
}
