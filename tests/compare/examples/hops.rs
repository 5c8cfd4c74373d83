//! Containers updated for this hop, each of which leaves as one.

use super::{bytes, Trial, BEFORE, NEIGHBOUR, OWN};
use crate::reference::data::{Neighbour, Own, OUTPUT_ROOM, THROUGHPUT_KNOWN};

/// A container as received, and as it leaves.
const HOPS: &[(&str, &str)] = &[
    (
        "02 11 07 00 00 02 01 C9 02 02 00 02 08 00 C8 00 80 01 AA",
        "02 11 07 00 00 02 02 49 02 02 00 02 08 00 C8 04 80 01 AA",
    ),
    ("02 00", "02 00"),
    ("02 06 07 00 00 02 FF 7F", "02 06 07 00 00 02 FF FF"),
    ("02 06 07 00 00 02 FF 80", "02 06 07 00 00 02 FF FF"),
    ("02 06 07 00 10 02 00 7F", "02 06 07 00 10 02 00 80"),
    ("02 06 07 00 20 02 00 81", "02 06 07 00 20 02 00 80"),
    // the link's latency is 1000: a sum of 4294967295 is passed on, and so is the larger or the smaller of more
    (
        "02 08 05 00 00 04 FF FF FC 17",
        "02 08 05 00 00 04 FF FF FF FF",
    ),
    (
        "02 08 05 00 10 04 FF FF FF FF",
        "02 08 05 00 10 04 FF FF FF FF",
    ),
    (
        "02 08 05 00 20 04 FF FF FF FF",
        "02 08 05 00 20 04 00 00 03 E8",
    ),
    ("02 06 06 00 80 02 00 45", "02 06 06 00 80 02 00 46"),
    ("02 06 06 00 80 02 00 5F", "02 07 06 00 80 03 00 5F 41"),
    ("02 07 06 00 80 03 FF 5F 5E", "02 07 06 00 80 03 00 5F 5F"),
    // colours: the first of the link's own, 515, whose counter is below 63, or one at the end
    ("02 07 08 00 80 03 00 80 C0", "02 07 08 00 80 03 00 80 C1"),
    ("02 07 08 00 80 03 FF 80 FE", "02 07 08 00 80 03 00 80 FF"),
    (
        "02 07 08 00 80 03 00 80 FF",
        "02 09 08 00 80 05 00 80 FF 80 C1",
    ),
    (
        "02 0B 08 00 80 07 00 80 FF 80 DF 80 C1",
        "02 0B 08 00 80 07 00 80 FF 80 E0 80 C1",
    ),
    // one that has a bit more, less, or elsewhere is another
    (
        "02 0B 08 00 80 07 00 81 C1 80 81 40 C1",
        "02 0D 08 00 80 09 00 81 C1 80 81 40 C1 80 C1",
    ),
    ("02 06 03 00 00 02 FF FE", "02 06 03 00 00 02 00 FF"),
    // NSA per flag: this node aggregates and is not overloaded
    ("02 06 01 00 10 02 FF FD", "02 06 01 00 10 02 00 03"),
    ("02 06 01 00 20 02 FF FF", "02 06 01 00 20 02 00 02"),
    // NE on E_E only: own energy is 100
    ("02 06 02 00 10 02 FF 63", "02 06 02 00 10 02 0F 64"),
    ("02 06 02 00 20 02 0D 65", "02 06 02 00 20 02 0D 64"),
    ("02 06 02 00 80 02 F0 00", "02 08 02 00 80 04 00 00 03 64"),
    // recorded: latency and ETX behind the last, throughput unknown
    (
        "02 08 05 00 80 04 00 00 00 01",
        "02 0C 05 00 80 08 00 00 00 01 00 00 03 E8",
    ),
    ("02 06 07 00 80 02 FF FF", "02 08 07 00 80 04 FF FF 00 80"),
    (
        "02 08 04 00 80 04 00 00 00 01",
        "02 08 04 04 80 04 00 00 00 01",
    ),
    // header bits: reserved, O of a metric, R of a constraint; P, ignored A and Prec stay
    ("02 06 07 FD 0F 02 00 00", "02 06 07 04 0F 02 00 80"),
    ("02 06 07 FF FF 02 00 00", "02 06 07 07 7F 02 00 00"),
    ("02 06 07 F8 F0 02 00 00", "02 08 07 00 F0 04 00 00 00 80"),
    ("02 07 08 F9 FF 03 FF 80 C1", "02 07 08 00 FF 03 00 80 C2"),
    ("02 07 08 04 80 03 00 80 C1", "02 07 08 04 80 03 00 80 C2"),
    ("02 07 08 FF FF 03 FF 80 FF", "02 07 08 07 7F 03 00 80 C1"),
    ("02 05 C8 F9 FF 01 FF", "02 05 C8 04 FF 01 FF"),
    ("02 05 09 F9 FF 01 FF", "02 05 09 04 FF 01 FF"),
    ("02 05 C8 FB FF 01 FF", "02 05 C8 03 7F 01 FF"),
    // reserved bits of constraint bodies, and TLVs as received
    (
        "02 09 01 03 00 05 FF FF FF 01 FF",
        "02 09 01 03 00 05 00 03 FF 01 FF",
    ),
    (
        "02 08 02 03 00 04 FF FF FF 00",
        "02 08 02 03 00 04 0F FF FF 00",
    ),
    ("02 06 03 03 00 02 FF FF", "02 06 03 03 00 02 00 FF"),
    ("02 06 06 03 00 02 FF FF", "02 06 06 03 00 02 00 FF"),
    ("02 07 08 03 00 03 FF FF FF", "02 07 08 03 00 03 00 FF C1"),
    ("02 07 08 03 00 03 FF 00 3E", "02 07 08 03 00 03 00 00 00"),
    // a constraint and a record
    (
        "02 0E 08 02 00 03 80 80 21 08 00 80 03 01 00 01",
        "02 10 08 02 00 03 00 80 01 08 00 80 05 00 00 01 80 C1",
    ),
];

pub fn hold(trial: &mut Trial) {
    for &(received, leaves) in HOPS {
        let (answer, out) = trial.one(OWN, NEIGHBOUR, received);
        let mut expected = bytes(leaves);
        let size = expected.len() as u16;
        expected.resize(OUTPUT_ROOM, BEFORE);
        trial.expect(received, (0, size), (answer.leaf, answer.size));
        trial.expect(received, expected, out);
    }
    // a known throughput goes before the first
    let known = Neighbour {
        flags: THROUGHPUT_KNOWN,
        throughput: 0x01020304,
        ..NEIGHBOUR
    };
    let received = "02 08 04 00 80 04 AA BB CC DD";
    let (answer, out) = trial.one(OWN, known, received);
    let expected = bytes("02 0C 04 00 80 08 01 02 03 04 AA BB CC DD");
    trial.expect(received, 14, answer.size);
    trial.expect(received, expected, out[..14].to_vec());
    // and a sum of 4294967295 is passed on
    let known = Neighbour {
        throughput: 1,
        ..known
    };
    let received = "02 08 04 00 00 04 FF FF FF FE";
    let (_, out) = trial.one(OWN, known, received);
    let expected = bytes("02 08 04 00 00 04 FF FF FF FF");
    trial.expect(received, expected, out[..10].to_vec());
    // own energy unknown: E and E_E are 0, and P stays
    let own = Own { flags: 0, ..OWN };
    let received = "02 06 02 00 80 02 00 00";
    let (_, out) = trial.one(own, NEIGHBOUR, received);
    let expected = bytes("02 08 02 00 80 04 00 00 02 00");
    trial.expect(received, expected, out[..10].to_vec());
}
