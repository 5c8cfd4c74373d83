//! Containers filled to the edge, so that what is sent on takes as many, one more, or too many.

use super::body::unit;
use super::object::{Maker, Role};
use super::MOST_DATA;
use crate::reference::data::CONTAINERS;

/// The types whose records grow, each of which may stand in a run once.
const GROWING: [u8; 6] = [2, 4, 5, 6, 7, 8];

/// The types whose constraints can have TLVs, each of which may stand in a run once too.
const FILLING: [u8; 3] = [1, 2, 3];

/// The smallest object: a header.
const LEAST: usize = 4;

/// What may still stand in a run, and how full its containers are to be.
struct Long<'a, 'b> {
    maker: &'b mut Maker<'a>,
    growing: Vec<u8>,
    filling: Vec<u8>,
    tight: bool,
}

/// The data of one container or more, up to eight.
pub fn containers(maker: &mut Maker) -> Vec<Vec<u8>> {
    let any = maker.random.within(1, CONTAINERS);
    let count = maker
        .random
        .pick(&[any, any, CONTAINERS - 1, CONTAINERS, CONTAINERS]);
    let tight = maker.random.once_in(2);
    let tlvs = maker.scene.tlvs;
    let mut long = Long {
        maker,
        growing: GROWING.to_vec(),
        filling: if tlvs { FILLING.to_vec() } else { Vec::new() },
        tight,
    };
    (0..count).map(|_| long.container()).collect()
}

impl Long<'_, '_> {
    /// One container: a record that may grow, before, between or behind what fills it.
    fn container(&mut self) -> Vec<u8> {
        let spare = self.maker.random.pick(&[0, 0, 1, 2, 3, 4, 5, 9]);
        let size = MOST_DATA - if self.tight { 0 } else { spare };
        let record = self.record(size);
        let mut objects = self.fillers(size - record.len());
        let place = self.maker.random.within(0, objects.len());
        objects.insert(place, record);
        objects.concat()
    }

    /// A record of a type that there was none of, if one is drawn: short, long, or as long as the
    /// container.
    fn record(&mut self, size: usize) -> Vec<u8> {
        let index = self.maker.random.below(2 * GROWING.len());
        if index >= self.growing.len() {
            return Vec::new();
        }
        let kind = self.growing.swap_remove(index);
        let any = self.maker.random.within(12, size);
        let whole = self.maker.random.pick(&[12, any, any, size]);
        let room = whole - LEAST;
        let body = match kind {
            6 => self.maker.levels(room - 1).bytes,
            8 => self.maker.colours((room - 1) / 2).bytes,
            _ => self.maker.bytes(room / unit(kind) * unit(kind)),
        };
        let mut record = self.maker.header(kind, Role::Recorded, true, 0, body.len());
        record.extend(body);
        record
    }

    /// Objects of so many bytes in all, if these are enough for one.
    fn fillers(&mut self, size: usize) -> Vec<Vec<u8>> {
        let mut objects = Vec::new();
        let mut rest = size;
        while rest >= LEAST {
            let some = self.maker.random.within(LEAST, rest);
            let last = rest < 3 * LEAST || self.maker.random.once_in(2);
            let whole = if last { rest } else { some };
            let whole = if rest - whole < LEAST { rest } else { whole };
            objects.push(self.filler(whole));
            rest -= whole;
        }
        objects
    }

    /// An object of so many bytes that bars nobody and does not grow, but for few.
    fn filler(&mut self, size: usize) -> Vec<u8> {
        let index = self.maker.random.below(12);
        if size >= LEAST + 4 && index < self.filling.len() {
            let kind = self.filling.swap_remove(index);
            let optional = Role::Constraint;
            let mut object = self.maker.header(kind, optional, true, 0, size - LEAST);
            let value = self.maker.bytes(size - LEAST - 4);
            object.extend([0, 0, 7, value.len() as u8]);
            object.extend(value);
            return object;
        }
        if index == 11 && self.maker.random.once_in(4) {
            return self.maker.unknown(size - LEAST);
        }
        self.maker.harmless(size - LEAST)
    }
}
