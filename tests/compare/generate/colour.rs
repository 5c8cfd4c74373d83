//! Link colours: the link's own, the constraint on it, and the recorded ones.

use super::object::{Body, Maker};
use crate::random::Random;

/// All ten bits.
const ALL: u16 = 1023;

/// A colour in range: often none of the ten bits, one, few, many, all but one, or all.
pub fn colour(random: &mut Random) -> u16 {
    let any = random.next() as u16 & ALL;
    let other = random.next() as u16 & ALL;
    let one = 1 << random.below(10);
    let (few, many) = (any & other, any | other);
    random.pick(&[0, one, few, few, any, any, many, many, ALL ^ one, ALL])
}

impl Maker<'_> {
    /// A colour constraint, with noise in its reserved bits. It is met, but for some, if
    /// constraints are to be.
    pub fn colour_asked(&mut self) -> Body {
        let asked = self.colour_beside();
        let had = asked & !self.link.colour == 0;
        let met = self.scene.fitting && !self.random.once_in(4);
        let included = if met { had } else { self.random.once_in(2) };
        let noise = self.random.byte();
        let reserved = self.random.pick(&[0, 0x3E, noise & 0x3E, noise & 0x3E]);
        let sub = asked << 6 | u16::from(reserved) | u16::from(included);
        let [high, low] = sub.to_be_bytes();
        Body {
            bytes: vec![self.random.byte(), high, low],
            smooth: included == had,
        }
    }

    /// A colour equal to the link's, contained in it, wider, with bits of both sorts, apart from
    /// it, none or any; often a bit decides.
    fn colour_beside(&mut self) -> u16 {
        let link = self.link.colour & ALL;
        let any = self.random.next() as u16 & ALL;
        let bit = 1 << self.random.below(10);
        match self.random.below(8) {
            0 => link,
            1 => link & any,
            2 => link & !bit,
            3 => link | bit,
            4 => link & any | bit,
            5 => any & !link,
            6 => self.random.pick(&[0, bit, ALL]),
            _ => any,
        }
    }

    /// A recorded colour body of so many sub-objects, often of the link's colour or of one that
    /// differs in a bit, and with a counter at an edge; sometimes all counters are full.
    pub fn colours(&mut self, subs: usize) -> Body {
        let link = self.link.colour & ALL;
        let full = self.random.once_in(6);
        let mut bytes = vec![self.random.byte()];
        for _ in 0..subs {
            let plain = self.random.next() as u16;
            let beside = link ^ 1 << self.random.below(10);
            let colour = self.random.pick(&[link, link, beside, plain >> 6]);
            let counter = self.random.pick(&[0, 1, 31, 61, 62, 63, 63, plain & 63]);
            let counter = if full { 63 } else { counter };
            bytes.extend((colour << 6 | counter).to_be_bytes());
        }
        Body {
            bytes,
            smooth: true,
        }
    }
}
