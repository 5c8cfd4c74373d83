//! Bytes lent to the library, with guard bytes on both sides of them.

use super::random::Random;

/// At least so many guard bytes stand on each side.
const GUARD: usize = 32;

/// The bytes, and behind them as many as they were before.
pub struct Guarded {
    both: Vec<u8>,
    start: usize,
    end: usize,
}

impl Guarded {
    /// A copy of the part between random guards; where it begins in memory differs too.
    pub fn new(part: &[u8], random: &mut Random) -> Guarded {
        let start = GUARD + random.below(16);
        let end = start + part.len();
        let mut both = Vec::with_capacity(2 * (end + GUARD));
        both.resize(start, 0);
        both.extend_from_slice(part);
        both.resize(end + GUARD, 0);
        random.scatter(&mut both[..start]);
        random.scatter(&mut both[end..]);
        both.extend_from_within(..);
        Guarded { both, start, end }
    }

    /// The part that is lent.
    pub fn part(&mut self) -> &mut [u8] {
        &mut self.both[self.start..self.end]
    }

    /// The bytes as they are, and as they were.
    fn halves(&self) -> (&[u8], &[u8]) {
        self.both.split_at(self.both.len() / 2)
    }

    /// Whether neither guard was written to.
    pub fn guards_stand(&self) -> bool {
        self.stands_behind(self.end - self.start)
    }

    /// Whether nothing was written to but the part, and of it nothing from this index on.
    pub fn stands_behind(&self, index: usize) -> bool {
        let from = self.end.min(self.start + index);
        let (bytes, before) = self.halves();
        bytes[..self.start] == before[..self.start] && bytes[from..] == before[from..]
    }

    /// Whether nothing was written to, the part and its guards.
    pub fn stands(&self) -> bool {
        let (bytes, before) = self.halves();
        bytes == before
    }
}
