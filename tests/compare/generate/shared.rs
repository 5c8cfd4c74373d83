//! Runs that share bytes: coinciding, one inside another, or overlapping at an end.

use super::{Call, MOST_DATA};
use crate::options::split;
use crate::random::Random;

/// Points some of the candidates at bytes of other candidates.
pub fn overlap(random: &mut Random, call: &mut Call) {
    if call.count == 0 || call.lent.is_empty() {
        return;
    }
    match random.below(5) {
        0 => coincide(random, call),
        1 => nest(random, call),
        2 => link(random, call),
        3 => sections(random, call),
        _ => wherever(random, call),
    }
}

/// All, or some, have the run of one.
fn coincide(random: &mut Random, call: &mut Call) {
    let one = call.candidates[random.below(call.count)];
    let all = random.once_in(2);
    for candidate in &mut call.candidates[..call.count] {
        if all || random.once_in(2) {
            candidate.start = one.start;
            candidate.size = one.size;
        }
    }
}

/// One candidate's run becomes the body of an unknown object in a container around it.
fn nest(random: &mut Random, call: &mut Call) {
    let inner = call.candidates[random.below(call.count)];
    if inner.size > MOST_DATA - 4 {
        return;
    }
    let Some(bytes) = call.run(&inner).map(<[u8]>::to_vec) else {
        return;
    };
    let start = call.lent.len();
    let flags = random.pick(&[0x00, 0x02, 0x03]);
    let kind = random.pick(&[0, 9, 255]);
    call.lent.extend([2, bytes.len() as u8 + 4]);
    call.lent.extend([kind, flags, 0x80, bytes.len() as u8]);
    call.lent.extend(&bytes);
    for candidate in &mut call.candidates[..call.count] {
        match random.below(3) {
            0 => (candidate.start, candidate.size) = (start + 6, bytes.len()),
            1 => (candidate.start, candidate.size) = (start, bytes.len() + 6),
            _ => {}
        }
    }
}

/// Two containers, the last body bytes of the first being the head of the second.
fn link(random: &mut Random, call: &mut Call) {
    let start = call.lent.len();
    let flags = random.pick(&[0x00, 0x03]);
    let size = random.within(2, 6);
    call.lent
        .extend([2, size as u8 + 4, 200, flags, 0x80, size as u8]);
    call.lent.extend((2..size).map(|_| random.byte()));
    let second = call.lent.len();
    let body = random.below(6);
    call.lent
        .extend([2, body as u8 + 4, 201, flags, 0x8F, body as u8]);
    call.lent.extend((0..body).map(|_| random.byte()));
    for candidate in &mut call.candidates[..call.count] {
        match random.below(3) {
            0 => (candidate.start, candidate.size) = (start, size + 6),
            1 => (candidate.start, candidate.size) = (second, body + 6),
            _ => {}
        }
    }
}

/// Some have options of the run of one, one behind another: from the first on, up to the last, or
/// between.
fn sections(random: &mut Random, call: &mut Call) {
    let one = call.candidates[random.below(call.count)];
    let (options, _) = split(call.run(&one).unwrap_or_default());
    let mut ends = vec![0];
    for option in &options {
        ends.push(ends[ends.len() - 1] + option.len());
    }
    for candidate in &mut call.candidates[..call.count] {
        let any = random.below(ends.len());
        let first = random.pick(&[0, any]);
        let any = random.within(first, ends.len() - 1);
        let last = random.pick(&[ends.len() - 1, any]);
        if random.once_in(2) {
            candidate.start = one.start + ends[first];
            candidate.size = ends[last] - ends[first];
        }
    }
}

/// Any part of the lent bytes, mostly where a byte 2 and a length begin it.
fn wherever(random: &mut Random, call: &mut Call) {
    for candidate in &mut call.candidates[..call.count] {
        let start = random.below(call.lent.len());
        let found = call.lent[start..].iter().position(|&byte| byte == 2);
        match found.map(|place| start + place) {
            Some(at) if at + 1 < call.lent.len() && !random.once_in(4) => {
                candidate.start = at;
                candidate.size = 2 + usize::from(call.lent[at + 1]);
            }
            _ => {
                candidate.start = start;
                candidate.size = random.below(call.lent.len() - start + 2);
            }
        }
    }
}
