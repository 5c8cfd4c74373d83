//! The objects of a container: header bits, the body's shape, and bars 15 to 17.

pub const NSA: u8 = 1;
pub const NE: u8 = 2;
pub const HP: u8 = 3;
pub const THROUGHPUT: u8 = 4;
pub const LATENCY: u8 = 5;
pub const LQL: u8 = 6;
pub const ETX: u8 = 7;
pub const COLOUR: u8 = 8;

/// Byte 1 of an object header.
pub const PARTIAL: u8 = 0x04;
pub const CONSTRAINT: u8 = 0x02;
pub const OPTIONAL: u8 = 0x01;
/// Byte 2 of an object header; below it A and Prec.
pub const RECORDED: u8 = 0x80;

/// The A of an aggregated metric that is a sum.
const ADD: u8 = 0;

#[derive(Clone, Copy, Debug, PartialEq, Eq)]
pub enum Usage {
    Constraint,
    Aggregated,
    Recorded,
}

/// An object: the first three bytes of its header, and the body that the fourth measures.
#[derive(Clone, Copy, Debug)]
pub struct Object<'a> {
    pub kind: u8,
    pub flags: u8,
    pub mode: u8,
    pub body: &'a [u8],
}

/// The objects of a container in order; where a header or body runs past the end it stops, with a
/// rest left.
pub struct Objects<'a> {
    pub rest: &'a [u8],
}

impl<'a> Objects<'a> {
    pub fn of(data: &'a [u8]) -> Objects<'a> {
        Objects { rest: data }
    }
}

impl<'a> Iterator for Objects<'a> {
    type Item = Object<'a>;

    fn next(&mut self) -> Option<Object<'a>> {
        let (&[kind, flags, mode, length], rest) = self.rest.split_first_chunk()?;
        let (body, rest) = rest.split_at_checked(usize::from(length))?;
        self.rest = rest;
        Some(Object {
            kind,
            flags,
            mode,
            body,
        })
    }
}

impl Object<'_> {
    pub fn known(&self) -> bool {
        matches!(self.kind, NSA..=COLOUR)
    }

    pub fn usage(&self) -> Usage {
        if self.flags & CONSTRAINT != 0 {
            Usage::Constraint
        } else if self.mode & RECORDED != 0 {
            Usage::Recorded
        } else {
            Usage::Aggregated
        }
    }

    pub fn mandatory(&self) -> bool {
        self.flags & (CONSTRAINT | OPTIONAL) == CONSTRAINT
    }

    pub fn aggregation(&self) -> u8 {
        self.mode >> 4 & 7
    }

    /// Whether it is a metric that each node adds its value to.
    pub fn added_up(&self) -> bool {
        self.usage() == Usage::Aggregated && self.aggregation() == ADD
    }

    pub fn precedence(&self) -> u8 {
        self.mode & 0x0F
    }

    /// One bit per known type and C: sixteen for types 1 to 8.
    pub fn mark(&self) -> u16 {
        let constraint = self.flags & CONSTRAINT != 0;
        1 << (self.kind - NSA + 8 * u8::from(constraint))
    }

    /// Bars 15 to 17 of one object, where `seen` marks the known objects before it.
    pub fn bar(&self, seen: u16) -> Option<u8> {
        if !self.known() {
            return None;
        }
        let forbidden = matches!(
            (self.kind, self.usage()),
            (NSA | HP, Usage::Recorded) | (LQL | COLOUR, Usage::Aggregated)
        );
        if !forbidden && !self.shaped() {
            Some(15)
        } else if seen & self.mark() != 0 {
            Some(16)
        } else if forbidden {
            Some(17)
        } else {
            None
        }
    }

    /// Whether the body of a known object is as tabled for its type and usage.
    fn shaped(&self) -> bool {
        let size = self.body.len();
        let recorded = self.usage() == Usage::Recorded;
        match self.kind {
            NE | ETX if recorded => size >= 2 && size % 2 == 0,
            THROUGHPUT | LATENCY if recorded => size >= 4 && size % 4 == 0,
            LQL if recorded => size >= 2,
            COLOUR if recorded => size >= 3 && size % 2 == 1,
            THROUGHPUT | LATENCY => size == 4,
            LQL | ETX => size == 2,
            COLOUR => size == 3,
            _ => size >= 2 && tlvs_fit(&self.body[2..]),
        }
    }
}

/// Whether TLVs fill the bytes exactly; what stands in a value is not looked at.
fn tlvs_fit(mut rest: &[u8]) -> bool {
    while let [_, length, value @ ..] = rest {
        match value.get(usize::from(*length)..) {
            Some(next) => rest = next,
            None => return false,
        }
    }
    rest.is_empty()
}
