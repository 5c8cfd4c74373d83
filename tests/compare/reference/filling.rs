//! Which container each object goes into that is sent on: the open one, or a new one where it would
//! make that pass 255 bytes of data.

use super::data::CONTAINERS;

/// The most data bytes of a container.
const MOST: usize = 255;

/// The leaf answer where an object finds no container.
const TOO_LONG: u8 = 35;

/// Containers that are filled in order; only the last is open.
pub struct Filling {
    count: usize,
    open: usize,
}

impl Filling {
    /// One container without data.
    pub fn new() -> Filling {
        Filling { count: 1, open: 0 }
    }

    /// Puts an object of so many bytes behind the others, and tells whether it opens a container;
    /// or 35, where it is too long for any or would open a ninth.
    pub fn add(&mut self, size: usize) -> Result<bool, u8> {
        let opens = self.open + size > MOST;
        if size > MOST || opens && self.count == CONTAINERS {
            return Err(TOO_LONG);
        }
        if opens {
            self.count += 1;
            self.open = 0;
        }
        self.open += size;
        Ok(opens)
    }
}
