//! Own numbers and neighbours' numbers, in range or not.

use super::colour::colour;
use super::scene::Scene;
use crate::random::Random;
use crate::reference::data::{
    Candidate, Neighbour, Own, CANDIDATES, ENERGY_KNOWN, ETX_KNOWN, FIRST_EDITION, LATENCY_KNOWN,
    SECOND_EDITION, THROUGHPUT_KNOWN,
};

/// How many candidates a valid call has.
pub fn count(random: &mut Random) -> usize {
    let any = random.within(0, CANDIDATES);
    let few = random.within(1, 4);
    random.pick(&[0, 1, 1, 2, few, few, few, few, 15, CANDIDATES, any, any])
}

/// Own numbers in range; the current position is still to be set.
pub fn own(random: &mut Random) -> Own {
    let minhop = random.within(1, 1600) as u16;
    let maxincrease = random.edgy_word();
    Own {
        minhop: random.pick(&[1, 2, 128, 256, 256, 256, 1024, 65535, minhop, minhop]),
        maxincrease: random.pick(&[0, 1, 768, 2048, 65535, maxincrease]),
        lowest: random.edgy_word(),
        nodetype: random.below(4) as u8,
        flags: mostly_known(random),
        energy: random.edgy_byte(),
        edition: random.pick(&[FIRST_EDITION, SECOND_EDITION]),
        current: 0,
    }
}

/// A neighbour in range, whose resulting rank is often the scene's, or one beside it; sometimes one
/// of its values is not known.
pub fn neighbour(random: &mut Random, own: &Own, scene: &Scene) -> Neighbour {
    let (sp, rf, sr) = steps(random);
    let increase = u32::from(rf * sp + sr) * u32::from(own.minhop);
    let rank = match scene.target.checked_sub(increase) {
        Some(rank) if !random.once_in(4) => match random.below(8) {
            0 => random.near(rank, 65535),
            _ => rank,
        },
        _ => u32::from(random.edgy_word()),
    };
    let mut neighbour = any_neighbour(random);
    neighbour.rank = rank.min(65535) as u16;
    neighbour.sp = sp;
    neighbour.rf = rf;
    neighbour.sr = sr;
    neighbour.nodetype = random.below(4) as u8;
    neighbour.flags = mostly_known(random);
    if random.once_in(4) {
        neighbour.flags &=
            !random.pick(&[ENERGY_KNOWN, ETX_KNOWN, LATENCY_KNOWN, THROUGHPUT_KNOWN]);
    }
    neighbour.lql = random.below(8) as u8;
    neighbour.colour = colour(random);
    scene.site.set(random, own.edition, &mut neighbour);
    neighbour
}

/// Sp, Rf and Sr in range, small ones and the largest more often than those between.
fn steps(random: &mut Random) -> (u8, u8, u8) {
    match random.below(4) {
        0 => (1, 1, 0),
        1 if random.once_in(2) => (9, 4, 5),
        _ => (
            random.within(1, 9) as u8,
            random.within(1, 4) as u8,
            random.within(0, 5) as u8,
        ),
    }
}

/// Flags of which those that make a value known are mostly set; the unused ones are noise.
fn mostly_known(random: &mut Random) -> u8 {
    match random.below(3) {
        0 => random.byte(),
        _ => random.byte() | 0x3C,
    }
}

/// A neighbour of which no number needs to be in range.
pub fn any_neighbour(random: &mut Random) -> Neighbour {
    Neighbour {
        rank: random.edgy_word(),
        sp: random.edgy_byte(),
        rf: random.edgy_byte(),
        sr: random.edgy_byte(),
        nodetype: random.edgy_byte(),
        flags: random.byte(),
        energy: random.edgy_byte(),
        lql: random.edgy_byte(),
        etx: random.edgy_word(),
        latency: random.edgy_long(),
        throughput: random.edgy_long(),
        colour: random.edgy_word(),
        order: random.edgy_byte(),
        preference: random.edgy_byte(),
    }
}

/// Own numbers of which none needs to be in range, though most calls are not refused for them.
pub fn any_own(random: &mut Random) -> Own {
    let mut own = own(random);
    own.current = random.below(18);
    match random.below(8) {
        0 => own.minhop = 0,
        1 => own.nodetype = random.edgy_byte(),
        2 => own.current = random.edgy_size(),
        _ => own.minhop = own.minhop.max(1),
    }
    if random.once_in(4) {
        own.edition = other_edition(random);
    }
    own
}

/// An edition that there is not, but for few.
pub fn other_edition(random: &mut Random) -> u8 {
    let any = random.byte();
    random.pick(&[0, 3, 255, any])
}

/// Sixteen candidates out of range; those past the count keep these numbers.
pub fn garbage(random: &mut Random) -> [Candidate; CANDIDATES] {
    let mut candidates = [Candidate::default(); CANDIDATES];
    for candidate in &mut candidates {
        candidate.neighbour = any_neighbour(random);
        candidate.start = random.edgy_size();
        candidate.size = random.edgy_size();
    }
    candidates
}
