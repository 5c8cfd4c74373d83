//! The parent's containers are updated for this hop, or the node joins as a leaf (31 to 36).

use super::colour;
use super::constraint::{long, word};
use super::data::{Neighbour, Own, AGGREGATOR, OVERLOADED};
use super::filling::Filling;
use super::joined::Joined;
use super::object::{
    Object, Usage, COLOUR, CONSTRAINT, ETX, HP, LATENCY, LQL, NE, NSA, OPTIONAL, PARTIAL, RECORDED,
    THROUGHPUT,
};
use super::option::{CONTAINER, HEAD};
use super::reserved::clear_reserved;

/// The E bit of an NE flags byte.
const ESTIMATED: u8 = 0x01;

/// The largest counter of an LQL sub-object.
const FULL: u8 = 31;

/// Where local values come from: own numbers for node metrics, the parent's link for link metrics.
pub struct Hop<'a> {
    pub own: &'a Own,
    pub link: &'a Neighbour,
}

impl Hop<'_> {
    /// Writes the outgoing containers and gives their size, or a leaf number and writes nothing.
    pub fn pass_on(&self, joined: &Joined, out: &mut [u8]) -> Result<u16, u8> {
        let mut filling = Filling::new();
        // 35 waits: another leaf number of a later object goes before it
        let mut filled = Ok(false);
        for object in joined.objects() {
            if let Some(number) = self.leaf(&object) {
                return Err(number);
            }
            filled = filled.and_then(|_| filling.add(self.size(&object)));
        }
        filled?;
        self.write_all(joined, out)
    }

    /// Writes the containers, which hold all objects.
    fn write_all(&self, joined: &Joined, out: &mut [u8]) -> Result<u16, u8> {
        let mut filling = Filling::new();
        let mut open = 0;
        let mut at = put(out, &[CONTAINER, 0]);
        for object in joined.objects() {
            if filling.add(self.size(&object))? {
                open = at;
                at += put(&mut out[open..], &[CONTAINER, 0]);
            }
            at += self.write(&object, &mut out[at..]);
            out[open + 1] = (at - open - HEAD) as u8;
        }
        Ok(at as u16)
    }

    /// The size of an object as it is sent on.
    pub fn size(&self, object: &Object) -> usize {
        4 + object.body.len() + self.growth(object)
    }

    /// The lowest of leaf numbers 31 to 34 and 36 that an object gives.
    fn leaf(&self, object: &Object) -> Option<u8> {
        if object.usage() != Usage::Aggregated {
            return None;
        }
        let allowed = match object.kind {
            NSA | NE => 0b110,
            HP => 0b001,
            THROUGHPUT | LATENCY | ETX => 0b111,
            _ => return Some(31),
        };
        if allowed >> object.aggregation() & 1 == 0 {
            return Some(32);
        }
        match object.kind {
            NE if object.body[0] & ESTIMATED == 0 || self.own.energy().is_none() => Some(33),
            THROUGHPUT if self.link.throughput().is_none() => Some(33),
            LATENCY if self.link.latency().is_none() => Some(33),
            ETX if self.link.etx().is_none() => Some(33),
            HP if object.body[1] == u8::MAX => Some(34),
            THROUGHPUT if !adds_up(object, self.link.throughput) => Some(36),
            LATENCY if !adds_up(object, self.link.latency) => Some(36),
            _ => None,
        }
    }

    /// By how many bytes an object's body grows.
    fn growth(&self, object: &Object) -> usize {
        if object.usage() != Usage::Recorded {
            return 0;
        }
        match object.kind {
            NE => 2,
            THROUGHPUT if self.link.throughput().is_some() => 4,
            LATENCY if self.link.latency().is_some() => 4,
            ETX if self.link.etx().is_some() => 2,
            LQL if self.counter(object.body).is_none() => 1,
            COLOUR if colour::counter(object.body, self.link.colour).is_none() => 2,
            _ => 0,
        }
    }

    /// The place, in an LQL body, of the first sub-object that can count this link.
    fn counter(&self, body: &[u8]) -> Option<usize> {
        let counts = |sub: &u8| sub >> 5 == self.link.lql && sub & FULL < FULL;
        body[1..].iter().position(counts).map(|place| place + 1)
    }

    /// Writes one object, updated and with reserved bits cleared, and gives its size.
    fn write(&self, object: &Object, out: &mut [u8]) -> usize {
        let (header, rest) = out.split_at_mut(4);
        let mut flags = object.flags & (PARTIAL | CONSTRAINT | OPTIONAL);
        let mut mode = object.mode;
        let mut size = object.body.len();
        rest[..size].copy_from_slice(object.body);
        match object.usage() {
            Usage::Constraint => mode &= !RECORDED,
            Usage::Aggregated => {
                flags &= !OPTIONAL;
                self.aggregate(object, &mut rest[..size]);
            }
            Usage::Recorded => {
                flags &= !OPTIONAL;
                match self.record(object, rest) {
                    Some(growth) => size += growth,
                    None => flags |= PARTIAL,
                }
            }
        }
        clear_reserved(object, &mut rest[..size]);
        header.copy_from_slice(&[object.kind, flags, mode, size as u8]);
        4 + size
    }

    /// Takes this hop's value into an aggregated metric, of which no leaf number was given.
    fn aggregate(&self, object: &Object, body: &mut [u8]) {
        let a = object.aggregation();
        match object.kind {
            NSA => {
                let own = self.own.flags & (AGGREGATOR | OVERLOADED);
                body[1] = if a == 1 { body[1] | own } else { body[1] & own };
            }
            NE => body[1] = aggregated(a, body[1].into(), self.own.energy.into()) as u8,
            HP => body[1] += 1,
            THROUGHPUT => {
                let value = aggregated(a, long(body), self.link.throughput);
                body.copy_from_slice(&value.to_be_bytes());
            }
            LATENCY => {
                let value = aggregated(a, long(body), self.link.latency);
                body.copy_from_slice(&value.to_be_bytes());
            }
            ETX => {
                let value = aggregated(a, word(body).into(), self.link.etx.into());
                let value = value.min(u16::MAX.into()) as u16;
                body.copy_from_slice(&value.to_be_bytes());
            }
            _ => {}
        }
    }

    /// Adds this hop's value to a recorded metric, behind the body that `out` begins with, and
    /// gives by how much it grew; nothing can be recorded of an unknown value or type.
    fn record(&self, object: &Object, out: &mut [u8]) -> Option<usize> {
        let end = object.body.len();
        match object.kind {
            NE => {
                let energy = self.own.energy();
                let flags = self.own.nodetype << 1 | u8::from(energy.is_some());
                Some(put(&mut out[end..], &[flags, energy.unwrap_or(0)]))
            }
            THROUGHPUT => {
                let value = self.link.throughput()?;
                out.copy_within(..end, 4); // the newest estimate stands first
                Some(put(out, &value.to_be_bytes()))
            }
            LATENCY => Some(put(&mut out[end..], &self.link.latency()?.to_be_bytes())),
            ETX => Some(put(&mut out[end..], &self.link.etx()?.to_be_bytes())),
            LQL => match self.counter(object.body) {
                Some(place) => {
                    out[place] += 1;
                    Some(0)
                }
                None => Some(put(&mut out[end..], &[self.link.lql << 5 | 1])),
            },
            COLOUR => match colour::counter(object.body, self.link.colour) {
                Some(place) => {
                    out[place] += 1;
                    Some(0)
                }
                None => Some(put(&mut out[end..], &colour::first(self.link.colour))),
            },
            _ => None,
        }
    }
}

/// Writes the bytes to the front of `out`, and gives how many they are.
fn put(out: &mut [u8], bytes: &[u8]) -> usize {
    out[..bytes.len()].copy_from_slice(bytes);
    bytes.len()
}

/// Whether a number of 32 bits, if it is to be added to the local one, has room for the sum.
fn adds_up(object: &Object, local: u32) -> bool {
    object.aggregation() != 0 || u64::from(long(object.body)) + u64::from(local) < 1 << 32
}

/// The sum, the larger, or the smaller.
fn aggregated(a: u8, received: u32, local: u32) -> u32 {
    match a {
        0 => received + local,
        1 => received.max(local),
        _ => received.min(local),
    }
}
