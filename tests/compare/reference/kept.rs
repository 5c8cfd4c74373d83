//! What is kept of a run that is fed in parts, as all that was fed so far decides it: the first
//! eight containers whole, of a ninth that there is one, and of an option at the end that is cut
//! short that it is.

use super::data::{CONTAINERS, KEPT_ROOM};
use super::option::{Options, CONTAINER};

/// What a ninth container is kept as.
const EMPTY: [u8; 2] = [CONTAINER, 0];

/// The bytes that are kept.
pub struct Kept {
    bytes: [u8; KEPT_ROOM],
    size: usize,
}

impl Kept {
    /// What is kept where these bytes were fed, in whatever parts.
    pub fn of(fed: &[u8]) -> Kept {
        let mut kept = Kept {
            bytes: [0; KEPT_ROOM],
            size: 0,
        };
        let mut options = Options { rest: fed };
        let mut count = 0;
        for option in options.by_ref() {
            if !option.is_container() {
                continue;
            }
            match count {
                0..CONTAINERS => kept.put(option.bytes),
                CONTAINERS => kept.put(&EMPTY),
                _ => {}
            }
            count += 1;
        }
        match options.rest {
            [CONTAINER, ..] if count < CONTAINERS => kept.put(options.rest),
            [kind, ..] => kept.put(&[*kind]),
            [] => {}
        }
        kept
    }

    pub fn bytes(&self) -> &[u8] {
        &self.bytes[..self.size]
    }

    fn put(&mut self, bytes: &[u8]) {
        self.bytes[self.size..][..bytes.len()].copy_from_slice(bytes);
        self.size += bytes.len();
    }
}
