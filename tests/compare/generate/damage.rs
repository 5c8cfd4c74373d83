//! A valid call with one byte or one field damaged.

use super::numbers::other_edition;
use super::{pattern, Call};
use crate::options::split;
use crate::random::Random;
use crate::reference::data::{Candidate, CANDIDATES, CURRENT_GIVEN, OUTPUT_ROOM};

/// Changes one byte, often one of a run's first bytes or of an option's, or one bit of it.
pub fn byte(random: &mut Random, call: &mut Call) {
    let Some(candidate) = some_candidate(random, call) else {
        return;
    };
    if candidate.size == 0 {
        return;
    }
    let place = match random.below(4) {
        0 => random.below(candidate.size.min(2)),
        1 => random.below(candidate.size.min(8)),
        2 => head(random, call, &candidate),
        _ => random.below(candidate.size),
    };
    let bit = 1 << random.below(8);
    let any = random.edgy_byte();
    let byte = &mut call.lent[candidate.start + place];
    *byte = match random.below(4) {
        0 => byte.wrapping_add(1),
        1 => byte.wrapping_sub(1),
        2 => *byte ^ bit,
        _ => any,
    };
}

/// The index of the type or the length of an option of a run, or of one of the next bytes.
fn head(random: &mut Random, call: &Call, candidate: &Candidate) -> usize {
    let (options, _) = split(call.run(candidate).unwrap_or_default());
    let before = random.below(options.len().max(1));
    let start: usize = options[..before].iter().map(|option| option.len()).sum();
    let near = random.below(6);
    let at = start + random.pick(&[0, 1, 1, near]);
    at.min(candidate.size - 1)
}

fn some_candidate(random: &mut Random, call: &Call) -> Option<Candidate> {
    match call.given() {
        [] => None,
        given => Some(random.pick(given)),
    }
}

/// Changes one field: of own numbers, of the call, or of a candidate.
pub fn field(random: &mut Random, call: &mut Call) {
    match random.below(13) {
        0 => call.own.minhop = 0,
        1 => call.own.nodetype = random.pick(&[4, 5, 128, 255]),
        2 => call.count = random.pick(&[17, 17, 18, 255, 256, 1 << 16, 1 << 32, usize::MAX]),
        3 => current(random, call),
        4 => {
            let short = OUTPUT_ROOM - 1;
            let room = random.pick(&[0, 1, 257, short, short, short - 1]);
            call.out = pattern(random, room);
        }
        5 => several(random, call),
        6 => {
            let keep = call.lent.len().saturating_sub(random.within(1, 3));
            call.lent.truncate(keep);
        }
        7 => {
            let count = call.count.min(CANDIDATES);
            for candidate in &mut call.candidates[..count] {
                number(random, candidate);
            }
        }
        8 => edition(random, call),
        kind => {
            let count = call.count.clamp(1, CANDIDATES);
            let candidate = &mut call.candidates[random.below(count)];
            match kind {
                9 | 10 => number(random, candidate),
                _ => place(random, candidate, call.lent.len()),
            }
        }
    }
}

/// A current position that is not among the candidates.
fn current(random: &mut Random, call: &mut Call) {
    call.own.flags |= CURRENT_GIVEN;
    let beyond = call.count.saturating_add(random.below(3));
    call.own.current = random.pick(&[beyond, beyond, 16, 255, 256, 1 << 32, usize::MAX]);
}

/// Two or more fields at once, so that the order of refusals counts.
fn several(random: &mut Random, call: &mut Call) {
    current(random, call);
    call.out.truncate(random.below(OUTPUT_ROOM + 50));
    if random.once_in(2) {
        call.count = random.within(0, 17);
    }
    if random.once_in(2) {
        call.own.edition = other_edition(random);
    }
}

/// An edition that there is not, sometimes beside what refuses a call before it.
fn edition(random: &mut Random, call: &mut Call) {
    call.own.edition = other_edition(random);
    match random.below(16) {
        0 => call.own.minhop = 0,
        1 => call.count = random.within(17, 18),
        2..=4 => call.out.truncate(random.below(OUTPUT_ROOM + 50)),
        _ => {}
    }
}

/// A neighbour's number out of range, or at the edge of it.
fn number(random: &mut Random, candidate: &mut Candidate) {
    let neighbour = &mut candidate.neighbour;
    match random.below(11) {
        0 => neighbour.sp = random.pick(&[0, 1, 9, 10, 255]),
        1 => neighbour.rf = random.pick(&[0, 1, 4, 5, 255]),
        2 => neighbour.sr = random.pick(&[5, 6, 255]),
        3 => neighbour.lql = random.pick(&[0, 7, 8, 255]),
        4 => neighbour.nodetype = random.pick(&[3, 4, 255]),
        5 => neighbour.rank = random.pick(&[0, 65534, 65535]),
        6 => neighbour.flags ^= 1 << random.below(8),
        7 => {
            let above = neighbour.colour | 1 << random.within(10, 15);
            neighbour.colour = random.pick(&[0, 1023, 1024, 65535, above, above]);
        }
        8 => neighbour.order = random.pick(&[0, 7, 8, 255]),
        9 => neighbour.preference = random.pick(&[0, 7, 8, 255]),
        _ => neighbour.rank = random.edgy_word(),
    }
}

/// A run's place moved by a byte, to the end of the lent bytes, or far out of them.
fn place(random: &mut Random, candidate: &mut Candidate, lent: usize) {
    let huge = random.edgy_size();
    let complement = usize::MAX - candidate.start;
    match random.below(8) {
        0 => candidate.start = candidate.start.wrapping_sub(1),
        1 => candidate.start = candidate.start.wrapping_add(1),
        2 => candidate.size = candidate.size.wrapping_sub(1),
        3 => candidate.size = candidate.size.wrapping_add(1),
        4 => {
            candidate.start = lent + random.below(2);
            candidate.size = random.below(2);
        }
        5 => candidate.start = huge,
        // the sum at the edge of 64 bits, or one beyond
        6 => candidate.size = complement.wrapping_add(random.below(3)),
        _ => candidate.size = huge,
    }
}
