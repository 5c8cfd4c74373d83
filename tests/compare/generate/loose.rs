//! Containers that look like containers, though little in them needs to be in order.

use super::MOST_DATA;
use crate::random::Random;

/// A container of such data, its type or length sometimes wrong, or bytes without any order.
pub fn container(random: &mut Random) -> Vec<u8> {
    if random.once_in(16) {
        return noise(random);
    }
    let data = data(random);
    let mut container = vec![2, data.len() as u8];
    container.extend(data);
    match random.below(16) {
        0 => container[0] = random.edgy_byte(),
        1 => container[1] = container[1].wrapping_add(random.pick(&[1, 255])),
        2 => container.push(random.byte()),
        _ => {}
    }
    container
}

/// A few headers with bodies of about the right size: bars 14 to 17 are frequent.
pub fn data(random: &mut Random) -> Vec<u8> {
    let mut data = Vec::new();
    for _ in 0..random.within(1, 6) {
        object(random, &mut data);
    }
    if random.once_in(4) {
        // all once more, a byte changed: a repeat that may be malformed or forbidden as well
        let mut again = data.clone();
        let place = random.below(again.len());
        again[place] = random.edgy_byte();
        data.extend(again);
    }
    match random.below(8) {
        // the last header or body is cut short
        0 => data.truncate(data.len() - random.within(1, data.len().min(6))),
        // the last header has too few bytes
        1 => {
            let size = random.within(1, 3);
            data.extend((0..size).map(|_| random.byte()));
        }
        _ => {}
    }
    data.truncate(MOST_DATA);
    data
}

/// An object, mostly of a known type, whose size is mostly one that some type has.
fn object(random: &mut Random, data: &mut Vec<u8>) {
    let kind = match random.below(8) {
        0 => random.edgy_byte(),
        _ => random.within(1, 8) as u8,
    };
    let flags = random.byte() & random.pick(&[0x07, 0xFF]);
    let mode = random.byte();
    let other = random.below(24);
    let usual = match kind {
        4 | 5 => 4,
        8 => 3,
        _ => 2,
    };
    let unusual = random.pick(&[0, 1, 2, 2, 3, 4, 4, 5, 6, 8, other]);
    let size = random.pick(&[usual, usual, unusual]);
    data.extend([kind, flags, mode, size as u8]);
    let from = data.len();
    data.resize(from + size, 0);
    random.fill(&mut data[from..]);
    // what stands where a TLV's length would is small more often than not
    if size > 3 && random.once_in(2) {
        data[from + 3] = random.below(size) as u8;
    }
}

/// Bytes without any order.
fn noise(random: &mut Random) -> Vec<u8> {
    let size = random.pick(&[0, 1, 2, 3, 40]);
    let mut bytes = vec![0; size];
    random.fill(&mut bytes);
    bytes
}
