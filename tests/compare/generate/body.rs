//! The bodies of constraints and aggregated metrics, with values at or beside those that decide.

use super::object::{Body, Maker};

/// The size of a sub-object in a recorded metric.
pub fn unit(kind: u8) -> usize {
    match kind {
        4 | 5 => 4,
        6 => 1,
        _ => 2,
    }
}

impl Maker<'_> {
    /// The body of a constraint, its limit at or beside the neighbour's value.
    pub fn limit(&mut self, kind: u8) -> Body {
        let link = self.link;
        match kind {
            1 => self.state_asked(),
            2 => self.energy_asked(),
            3 => {
                let limit = self.bound(Some(self.hops.into()), 255, false, 1) as u8;
                Body {
                    bytes: vec![self.random.byte(), limit],
                    smooth: self.counted && self.hops < 255,
                }
            }
            4 => self.throughput_asked(),
            5 => self.sum_limit(5, link.latency(), u32::MAX),
            6 => {
                let val = self.bound(Some(link.lql.into()), 7, false, 0) as u8;
                let counter = self.random.byte() & 31;
                Body {
                    bytes: vec![self.random.byte(), val << 5 | counter],
                    smooth: link.lql > 0,
                }
            }
            7 => self.sum_limit(7, link.etx().map(u32::from), 65535),
            _ => self.colour_asked(),
        }
    }

    fn throughput_asked(&mut self) -> Body {
        let link = self.link.throughput();
        let limit = self.bound(link, u32::MAX, true, 0);
        Body {
            bytes: limit.to_be_bytes().to_vec(),
            smooth: link.is_some(),
        }
    }

    /// A limit on latency or ETX, beside the link's value or beside the sum. What the sum meets
    /// the link's value meets too, should there be no such metric.
    fn sum_limit(&mut self, kind: u8, link: Option<u32>, most: u32) -> Body {
        let received = self.added(kind).unwrap_or(0);
        let beside = match self.random.below(2) {
            0 => link,
            _ => link.map(|link| link.saturating_add(received).min(most)),
        };
        let limit = self.bound(beside, most, false, 0);
        let met = |link| u64::from(received) + u64::from(link) <= u64::from(limit);
        Body {
            bytes: limit.to_be_bytes()[4 - unit(kind)..].to_vec(),
            smooth: link.is_some_and(met),
        }
    }

    /// What a latency or ETX metric of the container holds if it is to be a sum.
    pub fn added(&self, kind: u8) -> Option<u32> {
        match kind {
            5 => self.latency,
            7 => self.etx,
            _ => None,
        }
    }

    /// A limit beside a value: on the side where it is met if constraints are to be, `apart` the
    /// least distance there.
    fn bound(&mut self, value: Option<u32>, most: u32, least: bool, apart: u32) -> u32 {
        let Some(value) = value else {
            return self.random.edgy_long() & most;
        };
        if !self.scene.fitting {
            return self.random.near(value, most);
        }
        let distance = apart + self.random.below(2) as u32;
        if least {
            value.saturating_sub(distance)
        } else {
            value.saturating_add(distance).min(most)
        }
    }

    fn state_asked(&mut self) -> Body {
        let asked = self.random.byte();
        let missing = asked & 0x02 & !self.link.flags | asked & 0x01 & self.link.flags;
        let asked = if self.scene.fitting {
            asked & !missing
        } else {
            asked
        };
        Body {
            bytes: vec![self.random.byte(), asked],
            smooth: self.scene.fitting,
        }
    }

    /// An NE constraint on the neighbour's type, or less often on another, at or beside its energy.
    fn energy_asked(&mut self) -> Body {
        let same = !self.random.once_in(3);
        let t = if same {
            self.link.nodetype
        } else {
            self.link.nodetype ^ self.random.within(1, 3) as u8
        };
        let included = self.random.once_in(2);
        let estimated = !self.random.once_in(3);
        let noise = self.random.byte() & 0xF0;
        let flags = noise | u8::from(included) << 3 | t << 1 | u8::from(estimated);
        let threshold = self.random.near(self.link.energy.into(), 255) as u8;
        let energy = self.link.energy();
        let smooth = match (included, estimated) {
            (true, false) => same,
            (true, true) => same && energy.is_some_and(|energy| energy > threshold),
            (false, false) => !same,
            (false, true) => !same || energy.is_some_and(|energy| energy >= threshold),
        };
        Body {
            bytes: vec![flags, threshold],
            smooth,
        }
    }

    /// The body of an aggregated metric, its value where sums and comparisons turn.
    pub fn total(&mut self, kind: u8, a: u8) -> Body {
        let link = self.link;
        match kind {
            1 => Body {
                bytes: self.bytes(2),
                smooth: true,
            },
            2 => {
                let estimated = self.scene.passing || !self.random.once_in(3);
                let flags = self.random.byte() & 0xFE | u8::from(estimated);
                let energy = self.turning(self.own.energy.into(), 255) as u8;
                Body {
                    bytes: vec![flags, energy],
                    smooth: estimated && self.own.energy().is_some(),
                }
            }
            3 => Body {
                bytes: vec![self.random.byte(), self.hops],
                smooth: self.hops < 255,
            },
            4 => self.link_total(4, link.throughput(), link.throughput, a),
            5 => self.link_total(5, link.latency(), link.latency, a),
            _ => {
                let value = self.received(7, link.etx.into(), 65535) as u16;
                Body {
                    bytes: value.to_be_bytes().to_vec(),
                    smooth: link.etx().is_some(),
                }
            }
        }
    }

    fn link_total(&mut self, kind: u8, known: Option<u32>, value: u32, a: u8) -> Body {
        let total = self.received(kind, value, u32::MAX);
        Body {
            bytes: total.to_be_bytes().to_vec(),
            smooth: known.is_some() && (a != 0 || total.checked_add(value).is_some()),
        }
    }

    /// What the metric of a link's value holds: what is to be added up, or any value.
    fn received(&mut self, kind: u8, local: u32, most: u32) -> u32 {
        match self.added(kind) {
            Some(value) => value,
            None => self.turning(local, most),
        }
    }

    /// A received value: beside the local one, or where the sum reaches the most there is.
    fn turning(&mut self, local: u32, most: u32) -> u32 {
        match self.random.below(4) {
            0 => self.random.near(local, most),
            1 => self.random.near(most - local, most),
            2 => self.random.pick(&[0, 1, most - 1, most]),
            _ => self.random.next() as u32 & most,
        }
    }

    /// A received value to be added up, often one whose sum fits; or none, and A is not 0.
    pub fn addend(&mut self, local: u32, most: u32) -> Option<u32> {
        match self.random.below(4) {
            0 => Some(self.turning(local, most)),
            1 => Some(self.random.within(0, (most - local) as usize) as u32),
            _ => None,
        }
    }
}
