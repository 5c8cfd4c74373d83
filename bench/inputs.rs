//! The inputs of the benchmark: calls in which every candidate is unbarred, the first becomes the parent and its container is
//! passed on; but in `nobody` there is no candidate, and in `barred` all are barred.

use super::reference::data::{Candidate, Neighbour, Own, CANDIDATES, GROUNDED};

pub struct Input {
    pub own: Own,
    pub candidates: [Candidate; CANDIDATES],
    pub count: usize,
    pub lent: Vec<u8>,
    /// How many candidates are unbarred. Where any is, the first is the parent and its container is passed on.
    pub unbarred: u8,
}

/// A container's data, object by object.
struct Data(Vec<u8>);

impl Data {
    fn object(&mut self, mctype: u8, flags: u8, mode: u8, body: &[u8]) {
        self.0.extend([mctype, flags, mode, body.len() as u8]);
        self.0.extend(body);
    }
}

const CONSTRAINT: u8 = 0x02;
const OPTIONAL: u8 = 0x03;
const RECORDED: u8 = 0x80;
/// All of a neighbour's numbers are known.
const ALL_KNOWN: u8 = 0x3C;

/// Three to five known objects, some 30 bytes.
fn typical(position: usize) -> Vec<u8> {
    let mut data = Data(Vec::new());
    data.object(7, 0, 0, &[1, 0xC9]);
    data.object(5, 0, 0, &[0, 0, 1, 0]);
    if position % 2 == 0 {
        data.object(3, 0, 0, &[0, 3]);
    }
    data.object(2, CONSTRAINT, 0, &[0x0A, 0]);
    if position % 3 == 0 {
        data.object(6, 0, RECORDED, &[0, 0x45, 0x23]);
    }
    data.0
}

/// Recorded metrics up to a size; the link's numbers are unknown, so that they stay as long as they are.
fn recorded(size: usize) -> Vec<u8> {
    let mut data = Data(Vec::new());
    let part = ((size - 16) / 16 * 4).max(4);
    let series: Vec<u8> = (0..part).map(|k| (k * 7) as u8).collect();
    for mctype in [7, 5, 4] {
        data.object(mctype, 0, RECORDED, &series);
    }
    let mut levels = vec![0x7F; size.saturating_sub(data.0.len() + 4).max(2)];
    levels[0] = 0;
    *levels.last_mut().unwrap() = 0x41;
    data.object(6, 0, RECORDED, &levels);
    data.0
}

/// Recorded objects of unknown type without a body.
fn minimal_objects(size: usize) -> Vec<u8> {
    let mut data = Data(Vec::new());
    (0..size / 4).for_each(|_| data.object(200, 0, RECORDED, &[]));
    data.0
}

/// The same, but the first is an optional constraint, which bars nobody.
fn one_optional(size: usize) -> Vec<u8> {
    let mut data = minimal_objects(size);
    data[1] = OPTIONAL;
    data[2] = 0;
    data
}

/// TLVs without a value in the body of an NSA constraint.
fn minimal_tlvs(size: usize) -> Vec<u8> {
    let mut data = Data(Vec::new());
    data.object(1, CONSTRAINT, 0, &vec![0; size.saturating_sub(4) / 2 * 2]);
    data.0
}

/// Mostly objects of unknown type, and TLVs.
fn unknown_heavy() -> Vec<u8> {
    let body: Vec<u8> = (0..20).collect();
    let mut data = Data(Vec::new());
    (100..106).for_each(|mctype| data.object(mctype, 0, RECORDED, &body));
    (150..154).for_each(|mctype| data.object(mctype, OPTIONAL, 0, &body[..6]));
    data.object(7, 0, 0, &[1, 0xC9]);
    data.object(1, CONSTRAINT, 0, &[0; 30]);
    data.0
}

/// Five mandatory constraints, all met, and three metrics.
fn constraints() -> Vec<u8> {
    let mut data = Data(Vec::new());
    data.object(1, CONSTRAINT, 0, &[0, 0x01]); // not overloaded
    data.object(2, CONSTRAINT, 0, &[0x0B, 50]); // on battery, with more than 50 %
    data.object(3, CONSTRAINT, 0, &[0, 8]); // less than 8 hops
    data.object(5, CONSTRAINT, 0, &[0, 0, 0x10, 0]); // at most 4096 microseconds
    data.object(7, CONSTRAINT, 0, &[4, 0]); // an ETX of 8 at most
    data.object(3, 0, 0, &[0, 3]);
    data.object(5, 0, 0, &[0, 0, 1, 0]);
    data.object(7, 0, 0, &[1, 0xC9]);
    data.0
}

/// A mandatory colour that the link has, a record of ten colours of which the last is the link's, and two metrics.
fn colours() -> Vec<u8> {
    let mut data = Data(Vec::new());
    data.object(8, CONSTRAINT, 0, &[0, 0x80, 0x01]); // encrypted, the first bit
    let mut record = vec![0];
    (0..9).for_each(|k| record.extend([0x81 + k, 0x05]));
    record.extend([0x80, 0x03]);
    data.object(8, 0, RECORDED, &record);
    data.object(3, 0, 0, &[0, 3]);
    data.object(7, 0, 0, &[1, 0xC9]);
    data.0
}

/// A container with such data.
fn framed(data: Vec<u8>) -> Vec<u8> {
    let mut container = vec![2, data.len() as u8];
    container.extend(data);
    container
}

/// Eight full containers: recorded metrics in the first, in each of the others one object of unknown type.
fn eight_full() -> Vec<u8> {
    let mut run = framed(recorded(255));
    for _ in 0..7 {
        let mut data = Data(Vec::new());
        data.object(200, 0, RECORDED, &[0x5A; 251]);
        run.extend(framed(data.0));
    }
    run
}

/// So many containers of minimal objects.
fn containers(count: usize) -> Vec<u8> {
    framed(minimal_objects(255)).repeat(count)
}

/// A container behind 1,000 times Pad1.
fn padded(data: Vec<u8>) -> Vec<u8> {
    let mut run = vec![0; 1000];
    run.extend(framed(data));
    run
}

/// A call whose candidates have such containers, one behind another, at rising ranks.
fn call(count: usize, flags: u8, data_of: impl Fn(usize) -> Vec<u8>) -> Input {
    call_on(count, flags, |position| framed(data_of(position)))
}

/// A call whose candidates have such runs of options.
fn call_on(count: usize, flags: u8, run_of: impl Fn(usize) -> Vec<u8>) -> Input {
    let mut input = Input {
        own: Own {
            minhop: 256,
            nodetype: 1,
            flags: 0x04,
            energy: 100, // percent
            edition: 1,
            ..Own::default()
        },
        candidates: [Candidate::default(); CANDIDATES],
        count,
        lent: Vec::new(),
        unbarred: count as u8,
    };
    for position in 0..count {
        let run = run_of(position);
        input.candidates[position] = Candidate {
            neighbour: Neighbour {
                rank: 512 + 256 * position as u16,
                sp: 3,
                rf: 1,
                nodetype: 1,
                flags,
                energy: 100, // percent
                lql: 2,
                etx: 128,
                latency: 1000,
                throughput: 50_000,
                colour: 0x200,
                ..Neighbour::default()
            },
            start: input.lent.len(),
            size: run.len(),
        };
        input.lent.extend(run);
    }
    input
}

/// The typical call in edition 2: its candidates differ in nothing that comes before the rank.
fn second_edition() -> Input {
    let mut input = call(6, ALL_KNOWN | GROUNDED, typical);
    input.own.edition = 2;
    for candidate in &mut input.candidates {
        candidate.neighbour.order = 1;
        candidate.neighbour.preference = 3;
    }
    input
}

/// Sixteen candidates with an Sp above 9, which is bar 11.
fn barred() -> Input {
    let mut input = call(16, ALL_KNOWN, typical);
    for candidate in &mut input.candidates {
        candidate.neighbour.sp = 10;
    }
    input.unbarred = 0;
    input
}

/// The input of a name, its containers of so many data bytes at most where their size is free; of `runs`, so many containers.
pub fn named(name: &str, size: usize) -> Option<Input> {
    match name {
        "typical" => Some(call(6, ALL_KNOWN, typical)),
        "full" => Some(call(16, 0x04, |_| recorded(size))),
        "objects" => Some(call(16, ALL_KNOWN, |_| minimal_objects(size))),
        "tlvs" => Some(call(16, ALL_KNOWN, |_| minimal_tlvs(size))),
        "unknown" => Some(call(16, ALL_KNOWN, |_| unknown_heavy())),
        "constraints" => Some(call(16, ALL_KNOWN, |_| constraints())),
        "colours" => Some(call(16, ALL_KNOWN, |_| colours())),
        "optional" => Some(call(16, ALL_KNOWN, |_| one_optional(size))),
        "second" => Some(second_edition()),
        "eight" => Some(call_on(16, 0x04, |_| eight_full())),
        "runs" => Some(call_on(16, ALL_KNOWN, |_| containers(size))),
        "pads" => Some(call_on(6, ALL_KNOWN, |position| padded(typical(position)))),
        "nobody" => Some(call(0, ALL_KNOWN, typical)),
        "barred" => Some(barred()),
        _ => None,
    }
}
