//! The numbers supplied and the answers, laid out as the C interface of the library has them.

pub const CANDIDATES: usize = 16;
pub const NO_PARENT: u8 = 255;
pub const NO_RANK: u16 = 65535;
pub const NO_PLACE: u16 = 65535;

/// The most containers of a run, and of what is sent on; the bytes that hold these, and those that
/// hold what is kept of a run that is fed in parts.
pub const CONTAINERS: usize = 8;
pub const OUTPUT_ROOM: usize = 2056;
pub const KEPT_ROOM: usize = 2059;

/// The phase after a part that came with a buffer under `KEPT_ROOM` bytes.
pub const FED_SHORT: u8 = 255;

/// The editions: by what unbarred candidates are compared.
pub const FIRST_EDITION: u8 = 1;
pub const SECOND_EDITION: u8 = 2;

/// Flags of own numbers and of a neighbour; the first two are the bits of the NSA body.
pub const OVERLOADED: u8 = 0x01;
pub const AGGREGATOR: u8 = 0x02;
pub const ENERGY_KNOWN: u8 = 0x04;
/// Flags of own numbers only.
pub const LOWEST_GIVEN: u8 = 0x08;
pub const CURRENT_GIVEN: u8 = 0x10;
/// Flags of a neighbour only.
pub const ETX_KNOWN: u8 = 0x08;
pub const LATENCY_KNOWN: u8 = 0x10;
pub const THROUGHPUT_KNOWN: u8 = 0x20;
pub const GROUNDED: u8 = 0x40;

#[repr(C)]
#[derive(Clone, Copy, Debug, Default, PartialEq, Eq)]
pub struct Own {
    pub minhop: u16,
    pub maxincrease: u16,
    pub lowest: u16,
    pub nodetype: u8,
    pub flags: u8,
    pub energy: u8,
    pub current: usize,
    pub edition: u8,
}

impl Own {
    pub fn lowest(&self) -> Option<u16> {
        (self.flags & LOWEST_GIVEN != 0).then_some(self.lowest)
    }

    pub fn current(&self) -> Option<usize> {
        (self.flags & CURRENT_GIVEN != 0).then_some(self.current)
    }

    pub fn energy(&self) -> Option<u8> {
        (self.flags & ENERGY_KNOWN != 0).then_some(self.energy)
    }
}

/// What is known of a neighbour and of the link to it.
#[repr(C)]
#[derive(Clone, Copy, Debug, Default, PartialEq, Eq)]
pub struct Neighbour {
    pub rank: u16,
    pub sp: u8,
    pub rf: u8,
    pub sr: u8,
    pub nodetype: u8,
    pub flags: u8,
    pub energy: u8,
    pub lql: u8,
    pub etx: u16,
    pub latency: u32,
    pub throughput: u32,
    pub colour: u16,
    pub order: u8,
    pub preference: u8,
}

impl Neighbour {
    pub fn energy(&self) -> Option<u8> {
        (self.flags & ENERGY_KNOWN != 0).then_some(self.energy)
    }

    pub fn etx(&self) -> Option<u16> {
        (self.flags & ETX_KNOWN != 0).then_some(self.etx)
    }

    pub fn latency(&self) -> Option<u32> {
        (self.flags & LATENCY_KNOWN != 0).then_some(self.latency)
    }

    pub fn throughput(&self) -> Option<u32> {
        (self.flags & THROUGHPUT_KNOWN != 0).then_some(self.throughput)
    }

    pub fn grounded(&self) -> bool {
        self.flags & GROUNDED != 0
    }
}

/// A neighbour, and the place of its run of options in the lent bytes.
#[repr(C)]
#[derive(Clone, Copy, Debug, Default, PartialEq, Eq)]
pub struct Candidate {
    pub neighbour: Neighbour,
    pub start: usize,
    pub size: usize,
}

#[repr(C)]
#[derive(Clone, Copy, Debug, PartialEq, Eq)]
pub struct Answer {
    pub refusal: u8,
    pub parent: u8,
    pub rank: u16,
    pub verdicts: [u8; CANDIDATES],
    pub places: [u16; CANDIDATES],
    pub bits: u16,
    pub count: u8,
    pub leaf: u8,
    pub size: u16,
}

impl Answer {
    /// The answer that holds nothing but a refusal's number: no parent, no rank, no verdict.
    pub fn refused(refusal: u8) -> Answer {
        Answer {
            refusal,
            parent: NO_PARENT,
            rank: NO_RANK,
            verdicts: [0; CANDIDATES],
            places: [NO_PLACE; CANDIDATES],
            bits: 0,
            count: 0,
            leaf: 0,
            size: 0,
        }
    }
}

/// Why the candidate at a position is the parent, or is not.
#[repr(C)]
#[derive(Clone, Copy, Debug, PartialEq, Eq)]
pub struct Reason {
    pub refusal: u8,
    pub kind: u8,
    pub number: u8,
    pub parent: u8,
    pub criterion: u8,
    pub place: u16,
    pub value: u16,
    pub against: u16,
}

impl Reason {
    /// The reason that holds nothing but a kind, and for a refused question its number.
    pub fn bare(refusal: u8, kind: u8) -> Reason {
        Reason {
            refusal,
            kind,
            number: 0,
            parent: NO_PARENT,
            criterion: 0,
            place: NO_PLACE,
            value: 0,
            against: 0,
        }
    }
}

/// In what way a barred candidate falls short; by default nothing is told.
#[repr(C)]
#[derive(Clone, Copy, Debug, Default, PartialEq, Eq)]
pub struct Finding {
    pub way: u8,
    pub which: u64,
    pub asked: u64,
    pub found: u64,
}

/// What was fed of a run so far; all zeros before the first part. Only the size says something to
/// callers, and the phase where it is `FED_SHORT`.
#[repr(C)]
#[derive(Clone, Copy, Debug, Default, PartialEq, Eq)]
pub struct Fed {
    pub size: u16,
    pub phase: u8,
    pub keep: u8,
    pub missing: u8,
    pub count: u8,
}
