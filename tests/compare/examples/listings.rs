//! Listings.

use super::{bytes, Trial, BEFORE};

const LISTINGS: &[(&str, &str)] = &[
    (
        "02 11 07 00 00 02 01 C9 02 02 00 02 08 00 C8 00 80 01 AA",
        "7 0 0 0 0 0 2\n2 1 0 0 0 0 2\n200 0 0 1 0 0 1\n",
    ),
    ("02 00", ""),
    (
        "02 08 00 FF FF 00 63 04 7A 00",
        "0 1 1 1 7 15 0\n99 0 0 0 7 10 0\n",
    ),
    (
        "02 10 08 FA 8F 03 FF FF FF 08 00 F5 05 FF FF FF FF FF",
        "8 1 0 1 0 15 3\n8 0 0 1 7 5 5\n",
    ),
    ("02 04 09 00 00 00", "9 0 0 0 0 0 0\n"),
    // one container and nothing else
    ("", "refused 13\n"),
    ("02", "refused 13\n"),
    ("03 00", "refused 13\n"),
    ("02 01", "refused 13\n"),
    ("02 00 00", "refused 13\n"),
    ("00 02 00", "refused 13\n"),
    ("02 00 02 00", "refused 13\n"),
    ("02 01 07 02", "refused 13\n"),
    ("02 03 07 00 00", "refused 14\n"),
    ("02 05 07 00 00 01 00", "refused 15\n"),
    ("02 0C 07 00 00 02 01 C9 07 00 00 02 01 C9", "refused 16\n"),
    ("02 06 01 00 80 02 00 00", "refused 17\n"),
    ("02 09 08 02 00 05 00 80 C1 80 C1", "refused 15\n"),
    ("02 06 08 00 80 02 00 80", "refused 15\n"),
    (
        "02 0E 08 02 00 03 00 80 C1 08 03 00 03 00 80 C1",
        "refused 16\n",
    ),
    ("02 07 08 00 00 03 00 80 C1", "refused 17\n"),
];

pub fn hold(trial: &mut Trial) {
    for &(container, text) in LISTINGS {
        let mut out = vec![BEFORE; 1100];
        let size = (trial.list)(&mut bytes(container), &mut out);
        let mut expected = text.as_bytes().to_vec();
        expected.resize(1100, BEFORE);
        trial.expect(container, text.len(), size);
        trial.expect(container, expected, out);
    }
    let mut out = vec![BEFORE; 1099];
    let size = (trial.list)(&mut [2, 0], &mut out);
    trial.expect("too little room", usize::MAX, size);
    trial.expect("too little room", vec![BEFORE; 1099], out);
}
