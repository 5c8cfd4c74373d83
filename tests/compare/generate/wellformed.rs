//! The objects of well-formed runs: of every type and usage, with TLVs and noise in ignored bits.

use super::body::unit;
use super::object::{Maker, Role};
use super::scene::{Length, Scene, Unknown};
use super::MOST_DATA;
use crate::random::Random;
use crate::reference::data::{Neighbour, Own};

/// Objects of so many bytes at most, with limits and values near those of the neighbour and the
/// node.
pub fn objects(
    random: &mut Random,
    scene: &Scene,
    own: &Own,
    link: &Neighbour,
    room: usize,
) -> Vec<Vec<u8>> {
    match random.below(40) {
        0 => Vec::new(),
        1 => minimal(random, scene, room),
        2 => vec![crowded(random)],
        3 => vec![recorded(random, scene, own, link)],
        _ => mixed(random, scene, own, link, room),
    }
}

/// Objects of any type and usage in any order, none repeated; a full container has padding.
fn mixed(
    random: &mut Random,
    scene: &Scene,
    own: &Own,
    link: &Neighbour,
    room: usize,
) -> Vec<Vec<u8>> {
    let count = match scene.length {
        Length::Short => random.within(0, 3),
        Length::Medium => random.within(2, 9),
        Length::Full => random.within(1, 14),
    };
    let mut maker = Maker::new(random, scene, own, link);
    let mut objects: Vec<Vec<u8>> = Vec::with_capacity(count + 1);
    let mut size = 0;
    let mut used = [false; 16];
    for settled in settle(&mut maker, count) {
        let unknown = scene.unknown != Unknown::Absent && maker.random.once_in(4);
        let left = MOST_DATA.min(room - size);
        let object = if unknown && settled.is_none() {
            let body = maker.short_body(left);
            maker.unknown(body)
        } else {
            let (kind, role) = settled.unwrap_or_else(|| maker.kind_and_role());
            maker.known_once(&mut used, kind, role, left)
        };
        if !object.is_empty() && object.len() <= left {
            size += object.len();
            objects.push(object);
        }
    }
    let spare = maker.random.pick(&[0, 0, 0, 1, 2, 3, 4, 5, 6, 7, 8]);
    let full = MOST_DATA - spare;
    if scene.padded() && size + 4 <= full {
        objects.push(maker.harmless(full - size - 4));
    }
    objects
}

/// The types and roles that are settled for so many objects: often a limit on latency or ETX with
/// a metric before it or behind it, often an HP metric, and often an NE constraint.
fn settle(maker: &mut Maker, objects: usize) -> Vec<Option<(u8, Role)>> {
    let mut settled = vec![None; objects];
    if objects > 1 && maker.random.once_in(3) {
        let kind = maker.random.pick(&[5, 7]);
        let limit_at = maker.random.below(objects);
        let metric_at = (limit_at + maker.random.within(1, objects - 1)) % objects;
        settled[limit_at] = Some((kind, Role::Constraint));
        settled[metric_at] = Some(maker.metric_beside(kind));
    }
    let hops_at = maker.random.below(2 * objects + 1);
    if let Some(free @ None) = settled.get_mut(hops_at) {
        *free = Some((3, Role::Aggregated));
        maker.counted = true;
    }
    let energy_at = maker.random.below(4 * objects + 1);
    if let Some(free @ None) = settled.get_mut(energy_at) {
        *free = Some((2, Role::Constraint));
    }
    settled
}

/// Objects of unknown type and no body: as many as containers hold, or nearly.
fn minimal(random: &mut Random, scene: &Scene, room: usize) -> Vec<Vec<u8>> {
    let most = room / MOST_DATA * (MOST_DATA / 4);
    let any = random.within(1, most);
    let count = random.pick(&[most - 1, most, most, any]);
    let mut objects: Vec<Vec<u8>> = Vec::with_capacity(count);
    for _ in 0..count {
        let kind = random.pick(&[0, 9, 10, 200, 255]);
        let flags = random.byte() & 0xFC | random.pick(&[0x00, 0x01, 0x03]);
        let mode = random.byte() | 0x80;
        objects.push(vec![kind, flags, mode, 0]);
    }
    if scene.unknown == Unknown::Mandatory {
        let place = random.pick(&[0, count / 2, count - 1]);
        objects[place][1] = objects[place][1] & 0xFC | 0x02;
    }
    objects
}

/// One object with as many TLVs as a body holds, or nearly.
fn crowded(random: &mut Random) -> Vec<u8> {
    let kind = random.pick(&[1, 2, 3]);
    let tlvs = random.pick(&[122, 123, 124]);
    let flags = random.pick(&[0x00, 0x03]);
    let a = if kind == 3 { 0x00 } else { 0x10 };
    let mut data = vec![kind, flags, a, 2 + 2 * tlvs, random.byte(), random.byte()];
    for _ in 0..tlvs {
        data.extend([random.byte(), 0]);
    }
    data
}

/// One recorded metric that fills the container, or leaves room for one or two more hops.
fn recorded(random: &mut Random, scene: &Scene, own: &Own, link: &Neighbour) -> Vec<u8> {
    let kind = random.pick(&[2, 4, 5, 6, 7, 8]);
    let spare = random.pick(&[0, 0, 1, 2, 3, 4, 5, 8]);
    let mut maker = Maker::new(random, scene, own, link);
    let room = MOST_DATA - 4 - spare;
    let body = match kind {
        6 => maker.levels(room - 1).bytes,
        8 => maker.colours((room - 1) / 2).bytes,
        _ => maker.bytes(room / unit(kind) * unit(kind)),
    };
    let mut data = maker.header(kind, Role::Recorded, true, 0, body.len());
    data.extend(body);
    data
}
