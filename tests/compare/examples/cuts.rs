//! The cut and the places of demand 3, as the checks of pairs read them.

use super::bytes;
use crate::cut::{cut, is_unknown_mandatory, places_kept};
use crate::options::objects;

/// A run, and what the cut leaves of it.
const CUTS: &[(&str, &str)] = &[
    ("02 00", "02 00"),
    (
        "02 11 07 00 00 02 01 C9 02 02 00 02 08 00 C8 00 80 01 AA",
        "02 0C 07 00 00 02 01 C9 02 02 00 02 08 00",
    ),
    // types 0 and 9 to 255, header and body
    ("02 0D 00 00 80 00 09 02 00 01 AA FF 03 80 00", "02 00"),
    // NSA, NE and HP, as constraint or aggregated
    ("02 08 01 FF FF 04 AA BB 07 00", "02 06 01 FF FF 02 AA BB"),
    (
        "02 09 02 00 10 05 AA BB 07 01 00",
        "02 06 02 00 10 02 AA BB",
    ),
    (
        "02 09 02 02 80 05 AA BB 07 01 00",
        "02 06 02 02 80 02 AA BB",
    ),
    ("02 08 03 00 00 04 00 01 07 00", "02 06 03 00 00 02 00 01"),
    // every other object stays whole
    (
        "02 08 02 00 80 04 01 02 03 04",
        "02 08 02 00 80 04 01 02 03 04",
    ),
    ("02 07 06 00 80 03 FF 41 42", "02 07 06 00 80 03 FF 41 42"),
    (
        "02 0B 09 00 80 00 08 FA 80 03 FF FF FF",
        "02 07 08 FA 80 03 FF FF FF",
    ),
    (
        "02 09 08 00 80 05 FF 80 C1 07 00",
        "02 09 08 00 80 05 FF 80 C1 07 00",
    ),
    (
        "02 08 05 F8 00 04 01 02 03 04",
        "02 08 05 F8 00 04 01 02 03 04",
    ),
    // each container by itself; Pad1, PadN and other options stay, whatever is in them
    ("", ""),
    (
        "00 01 02 02 04 09 04 02 04 C8 03 00 00 00",
        "00 01 02 02 04 09 04 02 04 C8 03 00 00 00",
    ),
    ("02 04 C8 03 00 00 02 04 09 02 00 00", "02 00 02 00"),
    (
        "02 08 01 FF FF 04 AA BB 07 00 00 00 02 0A C8 03 00 00 07 00 00 02 01 C9 01 01 02",
        "02 06 01 FF FF 02 AA BB 00 00 02 06 07 00 00 02 01 C9 01 01 02",
    ),
];

/// An object, and whether it is an unknown mandatory constraint.
const MANDATORY: &[(&str, bool)] = &[
    ("02 04 00 02 00 00", true),
    ("02 04 09 FA 80 00", true),
    ("02 04 09 03 00 00", false),
    ("02 04 09 00 00 00", false),
    ("02 07 08 02 00 03 00 80 C1", false),
    ("02 06 07 02 00 02 00 00", false),
];

/// A run received, one passed on, and whether all places are kept.
const PLACES: &[(&str, &str, bool)] = &[
    ("02 05 C8 F9 FF 01 AA", "02 05 C8 04 FF 01 AA", true),
    ("02 05 C8 F9 FF 01 AA", "02 05 C8 00 FF 01 AA", false),
    ("02 05 C8 F9 FF 01 AA", "02 05 C8 05 FF 01 AA", false),
    ("02 05 C8 F9 FF 01 AA", "02 05 C8 0C FF 01 AA", false),
    ("02 05 C8 F9 FF 01 AA", "02 05 C8 04 8F 01 AA", false),
    ("02 05 C8 00 80 01 AA", "02 05 C8 04 80 01 2A", false),
    ("02 05 C8 00 80 01 AA", "02 04 C8 04 80 00", false),
    ("02 05 C8 03 80 01 AA", "02 05 C8 03 00 01 AA", true),
    ("02 05 C8 03 80 01 AA", "02 05 C8 03 80 01 AA", false),
    ("02 05 C8 03 00 01 AA", "02 05 C8 07 00 01 AA", false),
    // type 9 is unknown, and type 8 may change
    (
        "02 07 09 00 80 03 00 80 C1",
        "02 07 09 04 80 03 00 80 C1",
        true,
    ),
    (
        "02 07 09 00 80 03 00 80 C1",
        "02 07 09 04 80 03 00 80 C2",
        false,
    ),
    (
        "02 07 08 00 80 03 00 80 C1",
        "02 07 08 00 80 03 00 80 C2",
        true,
    ),
    // another index, one object less, bytes left over
    (
        "02 0A C8 03 00 00 07 00 80 02 00 00",
        "02 0A 07 00 80 02 00 00 C8 03 00 00",
        false,
    ),
    ("02 04 C8 03 00 00", "02 00", false),
    ("02 04 C8 03 00 00", "02 05 C8 03 00 00 00", false),
    // wherever containers begin
    (
        "02 00 00 02 05 C8 00 80 01 AA 02 04 C8 03 00 00",
        "02 09 C8 04 80 01 AA C8 03 00 00",
        true,
    ),
    (
        "02 09 C8 00 80 01 AA C8 03 00 00",
        "02 05 C8 04 80 01 AA 02 04 C8 03 00 00",
        true,
    ),
    (
        "02 09 C8 00 80 01 AA C8 03 00 00",
        "02 04 C8 03 00 00 02 05 C8 04 80 01 AA",
        false,
    ),
    // TLVs
    (
        "02 08 01 00 10 04 FF FF 07 00",
        "02 08 01 00 10 04 00 03 07 00",
        true,
    ),
    (
        "02 08 01 00 10 04 FF FF 07 00",
        "02 08 01 00 10 04 00 03 06 00",
        false,
    ),
    (
        "02 08 01 00 10 04 FF FF 07 00",
        "02 06 01 00 10 02 00 03",
        false,
    ),
];

/// The examples that do not hold, a line each.
pub fn failed() -> Vec<String> {
    let mut failed = Vec::new();
    for &(run, left) in CUTS {
        if cut(&bytes(run)) != Some(bytes(left)) {
            failed.push(format!("the cut of {run} is not {left}"));
        }
    }
    for &(container, mandatory) in MANDATORY {
        let container = bytes(container);
        let objects = objects(&container).unwrap_or_default();
        if objects.len() != 1 || is_unknown_mandatory(objects[0]) != mandatory {
            failed.push(format!(
                "{container:02X?} mandatory and unknown: not {mandatory}"
            ));
        }
    }
    for &(received, passed, kept) in PLACES {
        if places_kept(&bytes(received), &bytes(passed)).is_ok() != kept {
            failed.push(format!("places of {received} in {passed}: not {kept}"));
        }
    }
    failed
}
