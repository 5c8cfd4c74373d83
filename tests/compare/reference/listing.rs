//! The listing of one container: a line per object, or the bar that it gives, of 13 to 17.

use super::joined::{Bar, Joined};
use super::object::{CONSTRAINT, OPTIONAL, RECORDED};
use super::option::CONTAINER;

/// Room for any listing: at most 63 lines of 17 bytes.
pub const LISTING_ROOM: usize = 1100;

/// Writes the listing of a container and gives its size; with too little room it writes nothing
/// and gives `usize::MAX`.
pub fn list(container: &[u8], out: &mut [u8]) -> usize {
    if out.len() < LISTING_ROOM {
        return usize::MAX;
    }
    let mut text = Text { out, size: 0 };
    match read(container) {
        Ok(joined) => {
            for object in joined.objects() {
                text.line(&[
                    object.kind,
                    u8::from(object.flags & CONSTRAINT != 0),
                    u8::from(object.flags & OPTIONAL != 0),
                    u8::from(object.mode & RECORDED != 0),
                    object.aggregation(),
                    object.precedence(),
                    object.body.len() as u8,
                ]);
            }
        }
        Err(bar) => {
            text.put(b"refused ");
            text.line(&[bar.number]);
        }
    }
    text.size
}

/// Reads what is to be one container and nothing else.
fn read(bytes: &[u8]) -> Result<Joined<'_>, Bar> {
    match bytes {
        [CONTAINER, length, data @ ..] if usize::from(*length) == data.len() => Joined::read(bytes),
        _ => Err(Bar::whole(13)),
    }
}

struct Text<'a> {
    out: &'a mut [u8],
    size: usize,
}

impl Text<'_> {
    fn put(&mut self, bytes: &[u8]) {
        self.out[self.size..][..bytes.len()].copy_from_slice(bytes);
        self.size += bytes.len();
    }

    /// Numbers with a space between, and a newline.
    fn line(&mut self, numbers: &[u8]) {
        for (index, &number) in numbers.iter().enumerate() {
            if index > 0 {
                self.put(b" ");
            }
            self.number(number);
        }
        self.put(b"\n");
    }

    fn number(&mut self, number: u8) {
        if number >= 100 {
            self.put(&[b'0' + number / 100]);
        }
        if number >= 10 {
            self.put(&[b'0' + number / 10 % 10]);
        }
        self.put(&[b'0' + number % 10]);
    }
}
