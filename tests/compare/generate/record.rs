//! The bodies of recorded metrics.

use super::body::unit;
use super::object::{Body, Maker};

impl Maker<'_> {
    /// The body of a recorded metric.
    pub fn record(&mut self, kind: u8, room: usize) -> Body {
        let unit = unit(kind);
        let most = (room.saturating_sub(5) / unit).max(1);
        let few = self.random.within(1, 3);
        let subs = match self.random.below(12) {
            0 => most,
            _ => few,
        };
        match kind {
            6 => self.levels(subs),
            8 => self.colours(subs),
            _ => Body {
                bytes: self.bytes(unit * subs),
                smooth: true,
            },
        }
    }

    /// A recorded LQL body of so many sub-objects, often with the link's Val and a counter at an
    /// edge.
    pub fn levels(&mut self, subs: usize) -> Body {
        let mut bytes = vec![self.random.byte()];
        for _ in 0..subs {
            let plain = self.random.byte();
            let val = match self.random.below(2) {
                0 => self.link.lql & 7,
                _ => plain >> 5,
            };
            let counter = self.random.pick(&[0, 1, 29, 30, 31, 31, 31, plain & 31]);
            bytes.push(val << 5 | counter);
        }
        Body {
            bytes,
            smooth: true,
        }
    }
}
