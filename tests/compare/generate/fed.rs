//! The parts in which a run is fed, states of any bits, and lengths of buffers.

use crate::random::Random;
use crate::reference::data::{Fed, FED_SHORT, KEPT_ROOM};

/// The sizes of the parts of a run of so many bytes: one part, two, a few or many, some of them
/// empty.
pub fn parts(random: &mut Random, size: usize) -> Vec<usize> {
    let few = random.within(3, 8);
    let most = match random.below(16) {
        0..=3 => return vec![size],
        4..=7 => return two(random, size),
        8..=13 => 1 + 2 * size / few,
        14 => random.within(1, 8 + size / 16),
        // byte by byte, but for long runs
        _ => 1 + size / 512,
    };
    let empty = random.once_in(3);
    let mut parts = Vec::new();
    let mut rest = size;
    while rest > 0 {
        let least = usize::from(!(empty && random.once_in(4)));
        let part = random.within(least, most.min(rest));
        parts.push(part);
        rest -= part;
    }
    if empty || parts.is_empty() {
        parts.push(0);
    }
    parts
}

/// Two parts, often with a border at an end or beside it.
fn two(random: &mut Random, size: usize) -> Vec<usize> {
    let any = random.within(0, size);
    let first = random.pick(&[any, any, any, size.min(1), size.saturating_sub(1), 0, size]);
    vec![first, size - first]
}

/// A state of any bits, often one that could be reached, or nearly.
pub fn any_state(random: &mut Random) -> Fed {
    let plain = random.next();
    let few = random.below(10) as u8;
    let near = random.within(KEPT_ROOM - 4, KEPT_ROOM + 2) as u16;
    let [size, phase, keep, missing, count] = [0, 16, 24, 32, 40].map(|shift| plain >> shift);
    Fed {
        size: random.pick(&[0, near, near, 65535, size as u16]),
        phase: random.pick(&[few, few, few, FED_SHORT, phase as u8]),
        keep: random.pick(&[0, 1, few, 255, keep as u8]),
        missing: random.pick(&[0, 1, few, 255, missing as u8]),
        count: random.pick(&[few, few, 255, count as u8]),
    }
}

/// The length of a buffer: too short for what is kept of any run, just enough, or more.
pub fn any_room(random: &mut Random) -> usize {
    let short = random.below(KEPT_ROOM);
    let long = random.within(KEPT_ROOM, KEPT_ROOM + 100);
    random.pick(&[
        0,
        1,
        short,
        KEPT_ROOM - 1,
        KEPT_ROOM,
        KEPT_ROOM,
        KEPT_ROOM + 1,
        long,
    ])
}
