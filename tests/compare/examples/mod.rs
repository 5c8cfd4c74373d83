//! Document 01's examples, and one case at least for each of its numbers, tried on the reference
//! and on the library; and the words of demand 3, as the checks of pairs read them.

mod bars;
mod choices;
mod colours;
mod cuts;
mod editions;
mod feedings;
mod findings;
mod hops;
mod leaves;
mod listings;
mod ranks;
mod reasons;
mod refusals;
mod runs;
mod sent;

use super::reference::data::*;
use super::{library, reference};

/// What stands in the output before a call.
const BEFORE: u8 = 0xEE;

const OWN: Own = Own {
    minhop: 256,
    maxincrease: 0,
    lowest: 0,
    nodetype: 1,
    flags: AGGREGATOR | ENERGY_KNOWN,
    energy: 100,
    edition: FIRST_EDITION,
    current: 0,
};

/// A mains-powered neighbour, one unit away, whose energy and throughput are unknown. Its colour
/// has the bits 512, 2 and 1: in a body 80 C0.
const NEIGHBOUR: Neighbour = Neighbour {
    rank: 256,
    sp: 1,
    rf: 1,
    sr: 0,
    nodetype: 0,
    flags: OVERLOADED | ETX_KNOWN | LATENCY_KNOWN,
    energy: 0,
    lql: 2,
    etx: 128,
    latency: 1000,
    throughput: 0,
    colour: 515,
    order: 0,
    preference: 0,
};

/// Either implementation, and what of it does not hold, a line each.
struct Trial {
    name: &'static str,
    choose: fn(Own, &[Candidate; CANDIDATES], usize, &mut [u8], &mut [u8]) -> Answer,
    list: fn(&mut [u8], &mut [u8]) -> usize,
    why: fn(Own, &[Candidate; CANDIDATES], usize, &mut [u8], usize) -> Reason,
    examine: fn(Own, &Candidate, &mut [u8]) -> Finding,
    /// What is kept of a run that is fed in these parts.
    keep: fn(&[Vec<u8>]) -> Vec<u8>,
    failed: Vec<String>,
}

/// The examples that do not hold, of the reference, of the library, of the cut, and of buffers that
/// are too short.
pub fn failed() -> Vec<String> {
    let mut trials = trials();
    for trial in &mut trials {
        ranks::hold(trial);
        refusals::hold(trial);
        bars::hold(trial);
        colours::hold(trial);
        leaves::hold(trial);
        hops::hold(trial);
        choices::hold(trial);
        editions::hold(trial);
        listings::hold(trial);
        reasons::hold(trial);
        findings::hold(trial);
        runs::hold(trial);
        sent::hold(trial);
        feedings::hold(trial);
    }
    let [reference, library] = trials.map(|trial| trial.failed);
    [reference, library, cuts::failed(), feedings::short()].concat()
}

/// Both implementations.
fn trials() -> [Trial; 2] {
    [
        Trial {
            name: "the reference",
            choose: |own, candidates, count, lent, out| {
                reference::choose(own, candidates, count, lent, out)
            },
            list: |container, out| reference::list(container, out),
            why: |own, candidates, count, lent, position| {
                reference::why(own, candidates, count, lent, position)
            },
            examine: |own, candidate, lent| reference::examine(own, candidate, lent),
            keep: |parts| reference::Kept::of(&parts.concat()).bytes().to_vec(),
            failed: Vec::new(),
        },
        Trial {
            name: "the library",
            choose: library::choose,
            list: library::list,
            why: library::why,
            examine: library::examine,
            keep: feedings::kept_by_library,
            failed: Vec::new(),
        },
    ]
}

impl Trial {
    /// One candidate with this run, given in hex, and an output that is just long enough.
    fn one(&self, own: Own, neighbour: Neighbour, run: &str) -> (Answer, Vec<u8>) {
        let mut lent = bytes(run);
        let mut candidates = [Candidate::default(); CANDIDATES];
        candidates[0] = Candidate {
            neighbour,
            start: 0,
            size: lent.len(),
        };
        let mut out = vec![BEFORE; OUTPUT_ROOM];
        let answer = (self.choose)(own, &candidates, 1, &mut lent, &mut out);
        (answer, out)
    }

    /// Notes an example that does not hold.
    fn expect<T: PartialEq + std::fmt::Debug>(&mut self, name: &str, expected: T, given: T) {
        if expected != given {
            let program = self.name;
            let line = format!("{name}: {program} gives {given:?}, not {expected:?}");
            self.failed.push(line);
        }
    }
}

/// Own numbers with this current parent, if any.
fn with_current(own: Own, current: Option<usize>) -> Own {
    match current {
        Some(current) => Own {
            current,
            flags: own.flags | CURRENT_GIVEN,
            ..own
        },
        None => own,
    }
}

/// The container of such data, in hex.
fn framed(data: &str) -> String {
    format!("02 {:02X} {data}", bytes(data).len())
}

fn bytes(hex: &str) -> Vec<u8> {
    let byte = |word| u8::from_str_radix(word, 16).expect("two hex digits");
    hex.split_whitespace().map(byte).collect()
}
