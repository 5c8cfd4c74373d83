//! What is kept of runs that are fed in parts, and buffers that are too short.

use super::{bytes, framed, Trial, BEFORE};
use crate::library;
use crate::reference::data::{Fed, FED_SHORT, KEPT_ROOM};

/// What is fed, and what is kept of it.
const KEPT: &[(&str, &str)] = &[
    ("", ""),
    // containers, whole or not
    ("02 00", "02 00"),
    ("02", "02"),
    ("02 05", "02 05"),
    ("02 05 C8 03 00 01", "02 05 C8 03 00 01"),
    ("02 04 C8 03 00 00 02 00 02", "02 04 C8 03 00 00 02 00 02"),
    // other options: nothing, or the type where they are cut short
    ("00 00", ""),
    ("01", "01"),
    ("01 03", "01"),
    ("01 03 02 00", "01"),
    ("01 03 02 00 00", ""),
    ("01 00", ""),
    ("FF 00 00", ""),
    ("03 01", "03"),
    ("03 01 02", ""),
    ("00 02 00 00 03", "02 00 03"),
    ("00 02 00 00 03 02 02 02 02 01 00 00", "02 00 02 01 00"),
    ("02 01 00 03 02 02 00 00 02 01", "02 01 00 02 01"),
];

/// What is fed behind eight empty containers, and what is kept of it: a ninth is emptied, all later
/// ones are dropped.
const BEHIND_EIGHT: &[(&str, &str)] = &[
    ("00", ""),
    ("02", "02"),
    ("02 02", "02"),
    ("02 02 02", "02"),
    ("02 02 02 00", "02 00"),
    ("02 00", "02 00"),
    ("03 01", "03"),
    ("03 01 02", ""),
    ("03 01 02 02 01", "02"),
    ("02 00 02", "02 00 02"),
    ("02 00 02 01", "02 00 02"),
    ("02 00 02 01 02", "02 00"),
    ("02 00 02 00", "02 00"),
    ("02 00 02 00 02", "02 00 02"),
    ("02 03 C8 03 00 00 01 00 02 00 FF", "02 00 FF"),
];

pub fn hold(trial: &mut Trial) {
    for &(fed, kept) in KEPT {
        expect(trial, fed, kept);
    }
    let eight = "02 00 ".repeat(8);
    for &(fed, kept) in BEHIND_EIGHT {
        expect(trial, &format!("{eight}{fed}"), &format!("{eight}{kept}"));
    }
    let full = framed(&format!("C8 03 00 FB {}", "00 ".repeat(251))).repeat(8);
    let most = format!("{full}02 01 00 02 FF 00");
    expect(trial, &most, &format!("{full}02 00 02"));
}

/// What is kept of a run that is fed whole, byte by byte, and in two parts, split anywhere if it is
/// short.
fn expect(trial: &mut Trial, fed: &str, kept: &str) {
    let (fed, kept) = (bytes(fed), bytes(kept));
    let bytewise = fed.iter().map(|&byte| vec![byte]).collect();
    let mut ways = vec![vec![fed.clone()], bytewise];
    for border in (0..=fed.len()).step_by(1 + fed.len() / 64) {
        let (first, second) = fed.split_at(border);
        ways.push(vec![first.to_vec(), Vec::new(), second.to_vec()]);
    }
    let wrong = ways.iter().find(|parts| (trial.keep)(parts) != kept);
    if let Some(parts) = wrong {
        let given = (trial.keep)(parts);
        trial.expect(&format!("fed: {parts:02X?}"), kept, given);
    }
}

/// What the library keeps.
pub fn kept_by_library(parts: &[Vec<u8>]) -> Vec<u8> {
    let mut kept = vec![BEFORE; KEPT_ROOM];
    let mut state = Fed::default();
    for part in parts {
        state = library::feed(state, &mut part.clone(), &mut kept);
    }
    kept.truncate(state.size.into());
    kept
}

/// What does not hold of the library where a buffer is too short, a line each: nothing is stored,
/// and so it stays.
pub fn short() -> Vec<String> {
    let mut failed = Vec::new();
    let mut part = bytes("02 04 C8 03 00 00");
    for room in [0, 1, 257, KEPT_ROOM - 1] {
        let mut kept = vec![BEFORE; KEPT_ROOM];
        let fed = library::feed(Fed::default(), &mut part, &mut kept);
        let before = kept.clone();
        let short = library::feed(fed, &mut part, &mut kept[..room]);
        let after = library::feed(short, &mut part, &mut kept);
        let sizes = [fed.size, short.size, after.size] == [6; 3];
        let phases = fed.phase != FED_SHORT && [short.phase, after.phase] == [FED_SHORT; 2];
        if !sizes || !phases || kept != before {
            failed.push(format!(
                "a buffer of {room} bytes: {fed:?}, {short:?}, {after:?}"
            ));
        }
    }
    failed
}
