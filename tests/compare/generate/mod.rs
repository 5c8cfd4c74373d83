//! Random calls: valid, nearly valid, overlapping, malformed, far out of range.

mod body;
mod broken;
mod colour;
mod damage;
mod fed;
mod layout;
mod long;
mod loose;
mod numbers;
mod object;
mod option;
mod record;
mod rivals;
mod run;
mod scene;
mod shared;
mod site;
mod spread;
mod wellformed;

use super::random::Random;
use super::reference::data::{Candidate, Own, CANDIDATES, CURRENT_GIVEN, OUTPUT_ROOM};

pub use fed::{any_room, any_state, parts};
pub use layout::lay;
use scene::Scene;
pub use site::set_any_site;

/// The most data bytes of a container.
const MOST_DATA: usize = 255;

/// All that one call is given; `out` is the pattern that the output holds before it.
#[derive(Clone)]
pub struct Call {
    pub own: Own,
    pub candidates: [Candidate; CANDIDATES],
    pub count: usize,
    pub lent: Vec<u8>,
    pub out: Vec<u8>,
}

impl Call {
    /// The candidates that the call is about; none if there are too many.
    pub fn given(&self) -> &[Candidate] {
        self.candidates.get(..self.count).unwrap_or(&[])
    }

    /// A candidate's run of options, if it lies in the lent bytes.
    pub fn run(&self, candidate: &Candidate) -> Option<&[u8]> {
        let end = candidate.start.checked_add(candidate.size)?;
        self.lent.get(candidate.start..end)
    }
}

/// A call of a random kind.
pub fn call(random: &mut Random) -> Call {
    let kind = random.below(32);
    let mut call = match kind {
        0..=25 => ordered(random, 0),
        26..=29 => ordered(random, 2),
        _ => unordered(random),
    };
    match kind {
        15..=18 => damage::byte(random, &mut call),
        19..=23 => damage::field(random, &mut call),
        24..=26 => shared::overlap(random, &mut call),
        _ => {}
    }
    call
}

/// A call with numbers in range, whose runs are well-formed but for one in `loose` times (0: never).
fn ordered(random: &mut Random, loose: usize) -> Call {
    let mut own = numbers::own(random);
    let scene = Scene::draw(random, &own);
    let count = numbers::count(random).min(scene.most_candidates());
    own.current = random.below(count.max(1));
    if count == 0 {
        own.flags &= !CURRENT_GIVEN;
    }
    let mut candidates = numbers::garbage(random);
    let mut runs = Vec::with_capacity(count);
    for candidate in &mut candidates[..count] {
        candidate.neighbour = numbers::neighbour(random, &own, &scene);
        runs.push(if loose != 0 && random.once_in(loose) {
            run::disordered(random, &scene, &own, &candidate.neighbour)
        } else {
            run::ordered(random, &scene, &own, &candidate.neighbour)
        });
    }
    if random.once_in(4) {
        rivals::meet(random, &mut own, &mut candidates[..count]);
    }
    let lent = lay(random, &runs, &mut candidates[..count]);
    let any = random.within(OUTPUT_ROOM, OUTPUT_ROOM + 50);
    let room = random.pick(&[OUTPUT_ROOM, OUTPUT_ROOM, OUTPUT_ROOM + 1, any]);
    let out = pattern(random, room);
    Call {
        own,
        candidates,
        count,
        lent,
        out,
    }
}

/// A call of which nothing needs to be in range.
fn unordered(random: &mut Random) -> Call {
    let length = random.within(0, 400);
    let mut lent = vec![0; length];
    random.fill(&mut lent);
    let mut candidates = numbers::garbage(random);
    for candidate in &mut candidates {
        if random.once_in(2) {
            candidate.start = random.within(0, length + 1);
            candidate.size = random.within(0, length + 1);
        }
    }
    let own = numbers::any_own(random);
    let short = random.below(OUTPUT_ROOM);
    let room = random.pick(&[short, short, 257, OUTPUT_ROOM, OUTPUT_ROOM, OUTPUT_ROOM + 1]);
    Call {
        own,
        candidates,
        count: random.within(0, 17),
        lent,
        out: pattern(random, room),
    }
}

/// Random bytes for an output or a buffer, so that a byte written anew shows.
pub fn pattern(random: &mut Random, length: usize) -> Vec<u8> {
    let mut pattern = vec![0; length];
    random.scatter(&mut pattern);
    pattern
}
