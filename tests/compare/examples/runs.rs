//! Runs of options: 22, 23 and 14, and objects that are joined over containers.

use super::{framed, Trial, NEIGHBOUR, OWN};
use crate::reference::data::NO_PLACE;

/// A run, the verdict, and the place of the object that bars.
const RUNS: &[(&str, u8, u16)] = &[
    // no container: as an empty one
    ("", 10, NO_PLACE),
    ("00", 10, NO_PLACE),
    ("00 00 00", 10, NO_PLACE),
    ("01 00", 10, NO_PLACE),
    ("03 00", 10, NO_PLACE),
    ("00 01 02 02 01 FF 01 02", 10, NO_PLACE),
    // what stands in other options is not read
    ("01 06 02 04 C8 02 00 00", 10, NO_PLACE),
    ("03 04 C8 02 00 00", 10, NO_PLACE),
    ("82 04 C8 02 00 00", 10, NO_PLACE),
    ("09 06 02 04 C8 02 00 00 02 00", 10, NO_PLACE),
    ("00 02 04 C8 02 00 00", 18, 0),
    ("01 00 02 04 C8 02 00 00 00", 18, 0),
    ("02 00 00", 10, NO_PLACE),
    // cut short: whatever the type, but for 0
    ("02", 22, NO_PLACE),
    ("01", 22, NO_PLACE),
    ("03", 22, NO_PLACE),
    ("FF", 22, NO_PLACE),
    ("02 01", 22, NO_PLACE),
    ("01 01", 22, NO_PLACE),
    ("FF FF", 22, NO_PLACE),
    ("03 05 00 00 00 00", 22, NO_PLACE),
    ("02 00 02", 22, NO_PLACE),
    ("02 00 00 00 01", 22, NO_PLACE),
    // before 14 and all that comes behind it
    ("02 03 07 00 00 01", 22, NO_PLACE),
    ("02 04 C8 02 00 00 02", 22, NO_PLACE),
    // an object that runs past its container, into the next or not
    ("02 04 07 00 00 02 02 02 01 C9", 14, NO_PLACE),
    ("02 03 07 00 00 02 03 02 01 C9", 14, NO_PLACE),
    ("02 05 07 00 00 02 01 00 02 01 C9", 14, NO_PLACE),
    ("02 01 07 02 04 C8 01 00 00", 14, NO_PLACE),
    ("02 04 C8 01 00 00 02 01 07", 14, NO_PLACE),
    // before 15 to 17 of any container
    ("02 05 07 00 00 01 01 02 01 07", 14, NO_PLACE),
    ("02 01 07 02 05 07 00 00 01 01", 14, NO_PLACE),
    ("02 04 01 00 80 00 00 02 03 C8 01 00", 14, NO_PLACE),
    // places count all objects
    ("02 06 07 00 00 02 01 C9 02 05 07 02 00 01 00", 15, 1),
    ("02 06 07 00 00 02 00 80 02 06 07 01 80 02 00 80", 16, 1),
    ("02 04 C8 01 00 00 02 00 02 04 01 00 80 00", 17, 1),
    ("02 08 C8 01 00 00 C8 01 00 00 02 04 C8 02 00 00", 18, 2),
    (
        "02 04 C8 01 00 00 03 02 AA BB 02 06 07 02 00 02 00 7F",
        19,
        1,
    ),
    (
        "02 06 07 00 00 02 00 80 02 06 07 02 00 02 01 00",
        10,
        NO_PLACE,
    ),
    // 15 to 17 of any container before 18 and 19
    ("02 04 C8 02 00 00 02 05 07 00 00 01 01", 15, 1),
    ("02 06 07 02 00 02 00 7F 02 04 01 00 80 00", 17, 1),
    // the first of 18 and 19
    ("02 04 C8 02 00 00 02 06 07 02 00 02 00 7F", 18, 0),
    ("02 06 07 02 00 02 00 7F 02 04 C8 02 00 00", 19, 0),
    // hops: the metric in a container before the limit's, or behind it
    (
        "02 06 03 02 00 02 00 04 02 06 03 00 00 02 00 03",
        10,
        NO_PLACE,
    ),
    ("02 06 03 02 00 02 00 04 02 06 03 00 00 02 00 04", 19, 0),
    ("02 06 03 00 00 02 00 04 02 06 03 02 00 02 00 04", 19, 1),
    // sums: 500 + 1000 and 457 + 128
    (
        "02 08 05 00 00 04 00 00 01 F4 02 08 05 02 00 04 00 00 05 DC",
        10,
        NO_PLACE,
    ),
    (
        "02 08 05 00 00 04 00 00 01 F4 02 08 05 02 00 04 00 00 05 DB",
        19,
        1,
    ),
    ("02 06 07 02 00 02 02 48 00 02 06 07 00 00 02 01 C9", 19, 0),
    (
        "02 06 07 02 00 02 02 49 00 02 06 07 00 00 02 01 C9",
        10,
        NO_PLACE,
    ),
];

pub fn hold(trial: &mut Trial) {
    for &(run, verdict, place) in RUNS {
        expect(trial, run, verdict, place);
    }
    counted(trial);
    far(trial);
}

fn expect(trial: &mut Trial, run: &str, verdict: u8, place: u16) {
    let (answer, _) = trial.one(OWN, NEIGHBOUR, run);
    let given = (answer.verdicts[0], answer.places[0]);
    trial.expect(run, (verdict, place), given);
}

/// Eight containers and nine: empty ones count, other options do not; 22 goes before 23, and 23
/// before the rest.
fn counted(trial: &mut Trial) {
    let eight = "02 00 ".repeat(8);
    let nine = "02 00 ".repeat(9);
    expect(trial, &eight, 10, NO_PLACE);
    expect(trial, &nine, 23, NO_PLACE);
    let others = "00 01 02 02 00 03 02 02 00 ".repeat(20);
    expect(trial, &format!("{others}{eight}{others}"), 10, NO_PLACE);
    expect(
        trial,
        &format!("{others}{eight}{others}02 00"),
        23,
        NO_PLACE,
    );
    let full = framed(&format!("C8 03 00 FB {}", "00 ".repeat(251)));
    expect(trial, &full.repeat(8), 10, NO_PLACE);
    expect(trial, &full.repeat(9), 23, NO_PLACE);
    for cut in ["02", "02 01", "03", "01 01"] {
        expect(trial, &format!("{nine}{cut}"), 22, NO_PLACE);
        expect(trial, &format!("{eight}{cut}"), 22, NO_PLACE);
    }
    for last in ["02 01 07", "02 04 07 00 00 00", "02 04 C8 02 00 00"] {
        expect(trial, &format!("{eight}{last}"), 23, NO_PLACE);
        expect(trial, &format!("{last} {eight}"), 23, NO_PLACE);
    }
}

/// Places of 255 and more, up to the last object of eight containers.
fn far(trial: &mut Trial) {
    let object = "C8 01 80 00 ";
    let most = framed(&object.repeat(63));
    for before in [254, 255, 256, 257, 441, 503] {
        let containers = most.repeat(before / 63);
        let last = format!("{}C8 02 00 00", object.repeat(before % 63));
        let run = format!("{containers}{}", framed(&last));
        expect(trial, &run, 18, before as u16);
    }
}
