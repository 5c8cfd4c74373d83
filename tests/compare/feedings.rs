//! How often runs were fed in how many parts, what was kept of them, and from which states.

use super::options::{is_container, split};
use super::reference::data::{Fed, CONTAINERS, FED_SHORT, KEPT_ROOM};

#[derive(Default)]
pub struct Feedings {
    /// Runs fed in 1 part, in 2, and in more; those with an empty part, and byte by byte.
    parts: [u64; 3],
    empty: u64,
    bytewise: u64,
    /// Runs of which an option is dropped that a part ends in, and of which a ninth container is
    /// kept as an empty one: one with data, one that a part ends in.
    split_dropped: u64,
    emptied: u64,
    split_ninth: u64,
    /// Runs with a tenth container.
    tenth: u64,
    /// Runs that end in a container that is kept, in the ninth, and in an option that is dropped.
    cut_kept: u64,
    cut_ninth: u64,
    cut_dropped: u64,
    /// Runs of which as much is kept as can be.
    most: u64,
    /// States of any bits: fed into a buffer that is long enough, into one that is not, and into
    /// one that is where one was not before.
    any: u64,
    short: u64,
    short_before: u64,
}

impl Feedings {
    /// Notes a run that was fed in parts of these sizes, and of which so many bytes are kept.
    pub fn note(&mut self, run: &[u8], sizes: &[usize], kept: usize) {
        let sort = sizes.len().min(3) - 1;
        self.parts[sort] += 1;
        self.empty += u64::from(sizes.contains(&0));
        self.bytewise += u64::from(sizes.len() > 2 && sizes.iter().all(|&size| size == 1));
        self.most += u64::from(kept == KEPT_ROOM);
        let (options, rest) = split(run);
        let count = options.iter().filter(|one| is_container(one)).count();
        self.tenth += u64::from(count > CONTAINERS + 1);
        match (rest.first(), count) {
            (None, _) => {}
            (Some(2), 0..CONTAINERS) => self.cut_kept += 1,
            (Some(2), CONTAINERS) => self.cut_ninth += 1,
            _ => self.cut_dropped += 1,
        }
        if count < options.len() || count > CONTAINERS {
            self.dropped(&options, &ends(sizes));
        }
    }

    /// Notes the options of which not all is kept, and parts that end in them.
    fn dropped(&mut self, options: &[&[u8]], ends: &[usize]) {
        let mut at = 0;
        let mut count = 0;
        let mut split_dropped = false;
        for option in options {
            let inside = at + 1..at + option.len();
            at += option.len();
            count += usize::from(is_container(option));
            let split = ends.iter().any(|end| inside.contains(end));
            if !is_container(option) || count > CONTAINERS + 1 {
                split_dropped |= split;
            } else if count == CONTAINERS + 1 {
                self.emptied += u64::from(option.len() > 2);
                self.split_ninth += u64::from(split);
            }
        }
        self.split_dropped += u64::from(split_dropped);
    }

    /// Notes a state of any bits that is fed into a buffer of so many bytes.
    pub fn state(&mut self, state: &Fed, room: usize) {
        let long = room >= KEPT_ROOM;
        let before = state.phase == FED_SHORT;
        self.any += u64::from(long && !before);
        self.short += u64::from(!long && !before);
        self.short_before += u64::from(long && before);
    }

    /// What was counted, in words.
    pub fn counts(&self) -> [(&'static str, u64); 16] {
        let [one, two, many] = self.parts;
        [
            ("runs fed in 1 part", one),
            ("runs fed in 2 parts", two),
            ("runs fed in more parts", many),
            ("runs fed byte by byte", self.bytewise),
            ("runs fed with an empty part", self.empty),
            (
                "a part ends in an option that is dropped",
                self.split_dropped,
            ),
            ("a ninth container is emptied", self.emptied),
            ("a part ends in a ninth container", self.split_ninth),
            ("runs fed with a tenth container", self.tenth),
            ("runs that end in a container that is kept", self.cut_kept),
            ("runs that end in a ninth container", self.cut_ninth),
            (
                "runs that end in an option that is dropped",
                self.cut_dropped,
            ),
            ("runs of which 2059 bytes are kept", self.most),
            ("states of any bits, fed into a buffer", self.any),
            ("states of any bits, the buffer is short", self.short),
            ("states of any bits, a buffer was short", self.short_before),
        ]
    }
}

/// Where each part ends in the run.
fn ends(sizes: &[usize]) -> Vec<usize> {
    let mut end = 0;
    sizes
        .iter()
        .map(|size| {
            end += size;
            end
        })
        .collect()
}
