//! The ways in which a candidate falls short, as the C interface numbers them.

/// Bar 11: which number is out of range.
pub const SP: u8 = 1;
pub const RF: u8 = 2;
pub const SR: u8 = 3;
pub const LQL: u8 = 4;
pub const TYPE: u8 = 5;
pub const COLOUR: u8 = 6;
pub const ORDER: u8 = 7;
pub const PREFERENCE: u8 = 8;

/// Bar 12.
pub const OUTSIDE: u8 = 9;

/// Bar 14.
pub const HEADER: u8 = 13;
pub const BODY: u8 = 14;

/// Bar 19, NSA.
pub const AGGREGATOR: u8 = 15;
pub const OVERLOADED: u8 = 16;

/// Bar 19, NE: three of an inclusion, three of an exclusion.
pub const OTHER_TYPE: u8 = 17;
pub const LITTLE_ENERGY: u8 = 18;
pub const UNKNOWN_ENERGY: u8 = 19;
pub const BARRED_TYPE: u8 = 20;
pub const BARRED_ENERGY: u8 = 21;
pub const BARRED_UNKNOWN: u8 = 22;

/// Bar 19, HP.
pub const HOPS: u8 = 23;
pub const UNKNOWN_HOPS: u8 = 24;

/// Bar 19, throughput.
pub const THROUGHPUT: u8 = 25;
pub const UNKNOWN_THROUGHPUT: u8 = 26;

/// Bar 19, latency and ETX: of the link alone, of the path, and of a link that is not known.
pub const LATENCY: u8 = 27;
pub const PATH_LATENCY: u8 = 28;
pub const UNKNOWN_LATENCY: u8 = 29;
pub const ETX: u8 = 30;
pub const PATH_ETX: u8 = 31;
pub const UNKNOWN_ETX: u8 = 32;

/// Bar 19, LQL.
pub const QUALITY: u8 = 33;
pub const UNKNOWN_QUALITY: u8 = 34;

/// Bar 19, colour.
pub const LACKS_COLOUR: u8 = 35;
pub const HAS_COLOUR: u8 = 36;

/// Bar 22: an option's type and length, and its data.
pub const OPTION: u8 = 37;
pub const OPTION_DATA: u8 = 38;

/// Bar 23.
pub const CONTAINERS: u8 = 39;
