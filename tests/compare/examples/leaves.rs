//! Leaf answers.

use super::{Trial, BEFORE, NEIGHBOUR, OWN};
use crate::reference::data::{Neighbour, OUTPUT_ROOM, THROUGHPUT_KNOWN};

const LEAVES: &[(&str, u8)] = &[
    ("02 05 C8 00 00 01 AA", 31),
    ("02 05 C8 00 30 01 AA", 31),
    ("02 07 09 00 00 03 00 80 C1", 31),
    ("02 06 07 00 30 02 00 80", 32),
    ("02 06 07 00 70 02 00 80", 32),
    ("02 06 03 00 10 02 00 FF", 32),
    ("02 06 01 00 00 02 00 00", 32),
    ("02 06 02 00 00 02 00 00", 32),
    ("02 06 02 00 20 02 00 00", 33),
    ("02 08 04 00 00 04 00 00 00 01", 33),
    ("02 06 03 00 00 02 00 FF", 34),
    // the link's latency is 1000: 4294966296 and more do not add up
    ("02 08 05 00 00 04 FF FF FC 18", 36),
    ("02 08 05 FD 0F 04 FF FF FF FF", 36),
    ("02 0D 05 00 00 04 FF FF FF FF C8 00 00 01 AA", 36),
    ("02 0D C8 00 00 01 AA 05 00 00 04 FF FF FF FF", 31),
    // the first object that has one, though a later one has a lower number
    ("02 0B 03 00 00 02 00 FF C8 00 00 01 AA", 34),
    // in whichever container it stands
    ("02 06 03 00 00 02 00 FF 00 02 05 C8 00 00 01 AA", 34),
    ("02 00 02 05 C8 00 00 01 AA 02 06 03 00 00 02 00 FF", 31),
    ("02 06 07 00 00 02 00 80 02 06 02 00 20 02 00 00", 33),
];

pub fn hold(trial: &mut Trial) {
    for &(container, number) in LEAVES {
        leaf(trial, NEIGHBOUR, container, number);
    }
    let full = format!("02 FE 07 00 80 FA {}", "00 ".repeat(250));
    leaf(trial, NEIGHBOUR, &full, 35);
    // a colour takes two bytes more: an object of 255 has no room for it
    let colours = format!("02 FF 08 00 80 FB 00 {}", "80 FF ".repeat(125));
    leaf(trial, NEIGHBOUR, &colours, 35);
    ninth(trial);
    // 35 comes behind the others, whichever object is first
    let sum = "02 08 05 00 00 04 FF FF FF FF ";
    leaf(trial, NEIGHBOUR, &format!("{full}{sum}"), 36);
    leaf(trial, NEIGHBOUR, &format!("{sum}{full}"), 36);
    let known = Neighbour {
        flags: THROUGHPUT_KNOWN,
        throughput: 1000,
        ..NEIGHBOUR
    };
    leaf(trial, known, "02 08 04 00 00 04 FF FF FC 18", 36);
}

/// A record in the first of eight full containers takes two bytes more, so that there would be nine;
/// but where the last has an aggregated metric of unknown type, that is told.
fn ninth(trial: &mut Trial) {
    let zeros = "00 ".repeat(122);
    let first = format!("02 FF 07 00 80 7A {zeros}C8 03 00 7D {zeros}00 00 00 ");
    let other = format!("02 FF C8 03 00 FB {}", "00 ".repeat(251));
    leaf(trial, NEIGHBOUR, &(first.clone() + &other.repeat(7)), 35);
    let last = other.replace("C8 03", "C8 00");
    leaf(trial, NEIGHBOUR, &(first + &other.repeat(6) + &last), 31);
}

/// The answer to a call that ends as a leaf, and the output as it was.
fn leaf(trial: &mut Trial, neighbour: Neighbour, container: &str, number: u8) {
    let (answer, out) = trial.one(OWN, neighbour, container);
    let given = (answer.verdicts[0], answer.parent, answer.rank);
    trial.expect(container, (10, 0, 512), given);
    let given = (answer.leaf, answer.bits, answer.count, answer.size);
    trial.expect(container, (number, 1, 1, 0), given);
    trial.expect(container, vec![BEFORE; OUTPUT_ROOM], out);
}
