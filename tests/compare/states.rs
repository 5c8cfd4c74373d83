//! States of any bits, and buffers that are too short: nothing is written that should not be, and a
//! state that was short once stays so.

use super::feeder::FeedDifference;
use super::feedings::Feedings;
use super::generate::{any_room, any_state, pattern, Call};
use super::guarded::Guarded;
use super::library;
use super::random::Random;
use super::reference::data::{Fed, FED_SHORT, KEPT_ROOM};

/// The most parts that are fed one after another, each into a buffer of its own.
const MOST: usize = 3;

/// Feeds parts of a call's lent bytes, from a state of any bits on.
pub fn check(
    random: &mut Random,
    call: &Call,
    feedings: &mut Feedings,
) -> Result<(), Box<FeedDifference>> {
    let mut state = any_state(random);
    for _ in 0..random.within(1, MOST) {
        let start = random.within(0, call.lent.len());
        let end = random.within(start, call.lent.len());
        let room = any_room(random);
        feedings.state(&state, room);
        state = step(random, state, &call.lent[start..end], room)?;
    }
    Ok(())
}

/// Feeds one part into a buffer of so many bytes.
fn step(
    random: &mut Random,
    before: Fed,
    part: &[u8],
    room: usize,
) -> Result<Fed, Box<FeedDifference>> {
    let mut lent = Guarded::new(part, random);
    let mut buffer = Guarded::new(&pattern(random, room), random);
    let after = library::feed(before, lent.part(), buffer.part());
    let short = room < KEPT_ROOM || before.phase == FED_SHORT;
    let what = if !lent.stands() {
        "a part, or bytes beside it, were written to"
    } else if !buffer.stands_behind(KEPT_ROOM) {
        "bytes beside the buffer, or behind what can be kept, were written to"
    } else if short && !buffer.stands() {
        "something is stored though the buffer is or was short"
    } else if short && (after.phase, after.size) != (FED_SHORT, before.size) {
        "the buffer is or was short, which the state does not say"
    } else {
        return Ok(after);
    };
    Err(Box::new(FeedDifference {
        what,
        before,
        after,
        fed: part.to_vec(),
        parts: vec![part.len()],
        expected: Vec::new(),
        kept: buffer.part().to_vec(),
    }))
}
