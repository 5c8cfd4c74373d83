//! A run is fed in parts: what is kept after a part is what the reference says.

use super::feedings::Feedings;
use super::generate::parts;
use super::guarded::Guarded;
use super::library;
use super::random::Random;
use super::reference::data::{Fed, FED_SHORT, KEPT_ROOM};
use super::reference::Kept;
use super::wrong::Wrong;

/// What is wrong with a state, or with what is kept of a run, after its last part.
pub struct FeedDifference {
    pub what: &'static str,
    pub before: Fed,
    pub after: Fed,
    /// What was fed, and the sizes of its parts.
    pub fed: Vec<u8>,
    pub parts: Vec<usize>,
    pub expected: Vec<u8>,
    pub kept: Vec<u8>,
}

/// What parts are lent of, and what they are fed into.
pub struct Feeder {
    pub lent: Guarded,
    pub buffer: Guarded,
}

impl Feeder {
    /// Feeds a run, which starts at this index of what is lent, in parts, and gives what is kept of
    /// it.
    pub fn feed(
        &mut self,
        random: &mut Random,
        run: &[u8],
        start: usize,
        feedings: &mut Feedings,
    ) -> Result<Vec<u8>, Wrong> {
        let sizes = parts(random, run.len());
        let mut before = Fed::default();
        let mut end = 0;
        for (index, size) in sizes.iter().enumerate() {
            let part = &mut self.lent.part()[start + end..start + end + size];
            let after = library::feed(before, part, self.buffer.part());
            end += size;
            let last = index + 1 == sizes.len();
            if last || random.once_in(2 + sizes.len() / 8) {
                if let Err((what, expected)) = self.compared(&run[..end], after, last) {
                    return Err(Wrong::Feed(Box::new(FeedDifference {
                        what,
                        before,
                        after,
                        fed: run[..end].to_vec(),
                        parts: sizes[..=index].to_vec(),
                        expected,
                        kept: self.buffer.part().to_vec(),
                    })));
                }
            }
            before = after;
        }
        feedings.note(run, &sizes, before.size.into());
        Ok(self.buffer.part()[..usize::from(before.size)].to_vec())
    }

    /// What is wrong after a part, and what should be kept.
    fn compared(
        &mut self,
        fed: &[u8],
        after: Fed,
        last: bool,
    ) -> Result<(), (&'static str, Vec<u8>)> {
        let kept = Kept::of(fed);
        let what = if last && !self.lent.stands() {
            "a part, or bytes beside it, were written to"
        } else if !self.buffer.stands_behind(KEPT_ROOM) {
            "bytes beside the buffer, or behind what can be kept, were written to"
        } else if after.phase == FED_SHORT {
            "the buffer is said to be short"
        } else if usize::from(after.size) != kept.bytes().len() {
            "another number of bytes is kept"
        } else if &self.buffer.part()[..usize::from(after.size)] != kept.bytes() {
            "other bytes are kept"
        } else {
            return Ok(());
        };
        Err((what, kept.bytes().to_vec()))
    }
}
