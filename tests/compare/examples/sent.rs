//! How what is sent on is laid out in containers.

use super::{bytes, framed, Trial, BEFORE, NEIGHBOUR, OWN};
use crate::reference::data::OUTPUT_ROOM;

/// A run, and what leaves.
const SENT: &[(&str, &str)] = &[
    ("", "02 00"),
    ("00 01 02 00 00", "02 00"),
    ("02 00 02 00 02 00", "02 00"),
    (
        "02 06 07 00 00 02 01 C9 02 05 C8 00 80 01 AA",
        "02 0B 07 00 00 02 02 49 C8 04 80 01 AA",
    ),
    (
        "00 02 00 03 01 AA 02 05 C8 00 80 01 AA 01 01 BB 02 06 07 00 00 02 01 C9 00",
        "02 0B C8 04 80 01 AA 07 00 00 02 02 49",
    ),
];

/// The sizes of objects as received, and as they leave: nothing where they take more than eight
/// containers. A space stands between containers, `+` between objects of one. Objects are of
/// unknown type; but `r` is an ETX record, and `R` one with the link's ETX.
const SIZES: &[(&str, &str)] = &[
    ("255", "255"),
    ("200 55", "200+55"),
    ("200 56", "200 56"),
    ("100 100 55 4", "100+100+55 4"),
    ("100+155 255", "100+155 255"),
    // no object goes back to a container that has room
    ("250 200 4 4", "250 200+4+4"),
    // a record that grows: there is room, or the next object moves, and those behind it
    ("r100+153", "R102+153"),
    ("r100+154", "R102 154"),
    ("r100+155", "R102 155"),
    ("155+r100", "155 R102"),
    ("r252", "R254"),
    ("r100+155 100", "R102 155+100"),
    ("r100+155 101", "R102 155 101"),
    ("r100+155 200+55 200+55", "R102 155 200+55 200+55"),
    ("r100+155 55+200 200+55", "R102 155+55 200 200+55"),
    // eight, and a ninth
    (
        "255 255 255 255 255 255 255 255",
        "255 255 255 255 255 255 255 255",
    ),
    (
        "r100+155 255 255 255 255 255 255",
        "R102 155 255 255 255 255 255 255",
    ),
    ("r100+155 255 255 255 255 255 255 4", ""),
    ("255 255 255 255 255 255 255 155+r100", ""),
    (
        "r100+155 100 255 255 255 255 255 255",
        "R102 155+100 255 255 255 255 255 255",
    ),
];

pub fn hold(trial: &mut Trial) {
    for &(run, leaves) in SENT {
        expect(trial, run, run, Some(bytes(leaves)));
    }
    for &(received, leaves) in SIZES {
        let leaves = (!leaves.is_empty()).then(|| bytes(&run(leaves)));
        expect(trial, received, &run(received), leaves);
    }
}

/// What a run leaves as, or 35.
fn expect(trial: &mut Trial, name: &str, run: &str, leaves: Option<Vec<u8>>) {
    let (answer, out) = trial.one(OWN, NEIGHBOUR, run);
    let leaf = if leaves.is_some() { 0 } else { 35 };
    let mut expected = leaves.unwrap_or_default();
    let size = expected.len() as u16;
    expected.resize(OUTPUT_ROOM, BEFORE);
    trial.expect(
        name,
        (10, leaf, size),
        (answer.verdicts[0], answer.leaf, answer.size),
    );
    trial.expect(name, expected, out);
}

/// Containers of objects of these sizes, in hex.
fn run(sizes: &str) -> String {
    let containers = sizes.split(' ').map(|container| {
        let objects: Vec<String> = container.split('+').map(object).collect();
        framed(&objects.join(" "))
    });
    containers.collect::<Vec<String>>().join(" ")
}

fn object(size: &str) -> String {
    let number = size.trim_start_matches(['r', 'R']);
    let body = number.parse::<usize>().expect("a size") - 4;
    let zeros = |count| vec!["00"; count].join(" ");
    match size.as_bytes()[0] {
        b'r' => format!("07 00 80 {body:02X} {}", zeros(body)),
        b'R' => format!("07 00 80 {body:02X} {} 00 80", zeros(body - 2)),
        _ => format!("C8 03 00 {body:02X} {}", zeros(body)),
    }
}
