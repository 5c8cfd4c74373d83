//! Link colours: which links meet a constraint, what is recorded of them, and bars 11 and 16.

use super::{bytes, framed, Trial, NEIGHBOUR, OWN};
use crate::reference::data::{Neighbour, NO_PLACE};

/// A link's colour, a constraint's sub-object, and the verdict.
const ASKED: &[(u16, &str, u8)] = &[
    // 515 has the bits 512, 2 and 1; I=1: equal, one of them, none
    (515, "80 C1", 10),
    (515, "80 01", 10),
    (515, "00 81", 10),
    (515, "00 41", 10),
    (515, "00 01", 10),
    // one bit more, one in place of another, one apart, all
    (515, "81 C1", 19),
    (515, "40 C1", 19),
    (515, "40 01", 19),
    (515, "FF C1", 19),
    // I=0: the other way round
    (515, "80 C0", 19),
    (515, "80 00", 19),
    (515, "00 80", 19),
    (515, "00 40", 19),
    (515, "00 00", 19),
    (515, "81 C0", 10),
    (515, "40 C0", 10),
    (515, "40 00", 10),
    (515, "FF C0", 10),
    // reserved bits ask for nothing
    (515, "80 FF", 10),
    (515, "80 FE", 19),
    (515, "81 FF", 19),
    (515, "81 FE", 10),
    (515, "80 E0", 19),
    // no bit is set, or all are
    (0, "00 01", 10),
    (0, "00 00", 19),
    (0, "00 41", 19),
    (0, "80 00", 10),
    (1023, "FF C1", 10),
    (1023, "FF C0", 19),
    (1023, "00 40", 19),
    (1023, "80 01", 10),
    (1022, "FF C1", 19),
    (511, "80 01", 19),
];

/// A link's colour, recorded sub-objects, and these with the link.
const RECORDED: &[(u16, &str, &str)] = &[
    (0, "00 00", "00 01"),
    (0, "00 3E", "00 3F"),
    (0, "00 3F", "00 3F 00 01"),
    (0, "FF C1", "FF C1 00 01"),
    (1023, "FF C0", "FF C1"),
    (1023, "FF FE", "FF FF"),
    (1023, "FF FF", "FF FF FF C1"),
    (1023, "7F C1 FF 81", "7F C1 FF 81 FF C1"),
    (3, "00 FF 00 C1 00 C1", "00 FF 00 C2 00 C1"),
    (4, "01 1F", "01 20"),
    (512, "80 3F 80 3F 00 01", "80 3F 80 3F 00 01 80 01"),
];

/// A link's colour, a run, and the verdict: 11 comes first.
const RANGE: &[(u16, &str, u8)] = &[
    (1023, "02 00", 10),
    (1024, "02 00", 11),
    (1539, "02 07 08 02 00 03 00 80 C1", 11),
    (65535, "02 00", 11),
    (1023, "02", 22),
    (1024, "02", 11),
];

/// An object of each known type and use, which the neighbour does not bar.
const USES: [&str; 16] = [
    "01 03 00 02 00 00",
    "01 00 10 02 00 00",
    "02 03 00 02 00 00",
    "02 00 80 02 00 00",
    "03 03 00 02 00 00",
    "03 00 00 02 00 00",
    "04 03 00 04 00 00 00 00",
    "04 00 80 04 00 00 00 00",
    "05 03 00 04 00 00 00 00",
    "05 00 80 04 00 00 00 00",
    "06 03 00 02 00 00",
    "06 00 80 02 00 00",
    "07 03 00 02 00 00",
    "07 00 80 02 00 00",
    "08 03 00 03 00 00 00",
    "08 00 80 03 00 00 00",
];

pub fn hold(trial: &mut Trial) {
    for &(colour, asked, verdict) in ASKED {
        let mandatory = format!("02 07 08 02 00 03 00 {asked}");
        judged(trial, colour, &mandatory, verdict);
        judged(trial, colour, &mandatory.replace("08 02", "08 03"), 10);
    }
    for &(colour, container, verdict) in RANGE {
        judged(trial, colour, container, verdict);
    }
    for &(colour, received, passed) in RECORDED {
        recorded(trial, colour, received, passed);
    }
    full(trial);
    repeats(trial);
}

/// The verdict on a neighbour whose link has this colour.
fn judged(trial: &mut Trial, colour: u16, container: &str, verdict: u8) {
    let neighbour = Neighbour {
        colour,
        ..NEIGHBOUR
    };
    let (answer, _) = trial.one(OWN, neighbour, container);
    let name = format!("colour {colour}: {container}");
    trial.expect(&name, verdict, answer.verdicts[0]);
}

/// A record as it leaves behind a link of this colour.
fn recorded(trial: &mut Trial, colour: u16, received: &str, passed: &str) {
    let neighbour = Neighbour {
        colour,
        ..NEIGHBOUR
    };
    let (answer, out) = trial.one(OWN, neighbour, &record(received));
    let name = format!("colour {colour}: {received}");
    let given = out[..usize::from(answer.size)].to_vec();
    trial.expect(&name, bytes(&record(passed)), given);
}

/// With 253 bytes of data there is room for one more; with 255 a counter can still gain.
fn full(trial: &mut Trial) {
    let most = "80 FF ".repeat(124);
    recorded(trial, 515, &most, &format!("{most}80 C1"));
    recorded(trial, 515, &format!("{most}80 FE"), &format!("{most}80 FF"));
}

/// A container with one colour record of these sub-objects.
fn record(subs: &str) -> String {
    let size = bytes(subs).len() + 1;
    format!("02 {:02X} 08 00 80 {size:02X} 00 {subs}", size + 4)
}

/// All sixteen uses stand in one container; any of them once more is a repeat.
fn repeats(trial: &mut Trial) {
    expect_bar(trial, &USES.join(" "), 10, NO_PLACE);
    for again in USES {
        expect_bar(trial, &format!("{} {again}", USES.join(" ")), 16, 16);
    }
}

/// The verdict on a container of such data, and its place.
fn expect_bar(trial: &mut Trial, data: &str, verdict: u8, place: u16) {
    let container = framed(data);
    let (answer, _) = trial.one(OWN, NEIGHBOUR, &container);
    let given = (answer.verdicts[0], answer.places[0]);
    trial.expect(&container, (verdict, place), given);
}
