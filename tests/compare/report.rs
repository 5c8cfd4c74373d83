//! How often each number was given, and whether that is often enough.

use super::colours::Colours;
use super::compare::{Given, Listed};
use super::editions::Editions;
use super::feedings::Feedings;
use super::findings::Findings;
use super::generate::Call;
use super::limits::Limits;
use super::options::objects;
use super::pair_counts::Pairs;
use super::reasons::Reasons;
use super::runs::Runs;
use super::sent::Sent;

/// Every number is to be given so often, every sort of run, limit, colour, edition, feeding, reason
/// and finding to be tried so often, and every sort of pair.
const LEAST: u64 = 100;
const LEAST_PAIRS: u64 = 5000;

/// What is asked only of so many calls.
pub const ASKED_FROM: u64 = 150_000;

const REFUSALS: [u8; 6] = [0, 1, 2, 3, 4, 5];
pub const BARS: [u8; 12] = [11, 12, 14, 15, 16, 17, 18, 19, 20, 21, 22, 23];
const LEAVES: [u8; 7] = [0, 31, 32, 33, 34, 35, 36];
const LISTINGS: [u8; 6] = [0, 13, 14, 15, 16, 17];

/// The bar that only a listing gives.
const FRAME: u8 = 13;

/// How often each number of 8 bits was given.
pub type Counts = [u64; 256];

/// A name, the numbers that are to be given, and how often each was.
pub type Row<'a> = (&'static str, Vec<u8>, &'a Counts);

pub struct Report {
    calls: u64,
    refusals: Counts,
    verdicts: Counts,
    leaves: Counts,
    listings: Counts,
    without_room: u64,
    runs: Runs,
    sent: Sent,
    limits: Limits,
    colours: Colours,
    editions: Editions,
    pub feedings: Feedings,
    pub reasons: Reasons,
    pub findings: Findings,
    pub pairs: Pairs,
}

impl Report {
    pub fn new() -> Report {
        Report {
            calls: 0,
            refusals: [0; 256],
            verdicts: [0; 256],
            leaves: [0; 256],
            listings: [0; 256],
            without_room: 0,
            runs: Runs::default(),
            sent: Sent::default(),
            limits: Limits::default(),
            colours: Colours::default(),
            editions: Editions::default(),
            feedings: Feedings::default(),
            reasons: Reasons::new(),
            findings: Findings::new(),
            pairs: Pairs::default(),
        }
    }

    /// Notes an answer of the library. A leaf number counts where there is a parent, a verdict
    /// where the call is not refused.
    pub fn choice(&mut self, call: &Call, given: &Given) {
        let answer = &given.answer;
        self.calls += 1;
        self.refusals[usize::from(answer.refusal)] += 1;
        if answer.refusal == 0 {
            for verdict in answer.verdicts {
                self.verdicts[usize::from(verdict)] += 1;
            }
        }
        if answer.parent != 255 {
            self.leaves[usize::from(answer.leaf)] += 1;
        }
        self.runs.note(call, answer);
        self.sent.note(call, given);
        let received = |one| call.run(one).and_then(objects).unwrap_or_default();
        let received: Vec<Vec<&[u8]>> = call.given().iter().map(received).collect();
        self.limits.note(call, &received, answer);
        self.colours.note(call, &received, given);
        self.editions.note(call, answer);
    }

    /// Notes a listing of the library: the number that it was refused with, or 0.
    pub fn listing(&mut self, listed: &Listed) {
        if listed.size == usize::MAX {
            self.without_room += 1;
            return;
        }
        let number = match listed.text().strip_prefix("refused ") {
            Some(number) => number.trim_end().parse().unwrap_or(255),
            None => 0,
        };
        self.listings[number] += 1;
    }

    /// Prints what was given how often.
    pub fn print(&self) {
        println!("calls: {}", self.calls);
        for (name, numbers, counts) in self.numbers() {
            print_counts(name, &numbers, counts);
        }
        println!("listing without room: {}", self.without_room);
        for (name, count) in self.sorts().into_iter().chain(self.pairs.counts()) {
            println!("{name}: {count}");
        }
    }

    /// The numbers of answers, listings, reasons and findings, and how often each was given.
    fn numbers(&self) -> Vec<Row<'_>> {
        let mut rows = vec![
            ("refusal", REFUSALS.to_vec(), &self.refusals),
            ("verdict", [&[0, 10], &BARS[..]].concat(), &self.verdicts),
            ("leaf", LEAVES.to_vec(), &self.leaves),
            ("listing refused", LISTINGS.to_vec(), &self.listings),
        ];
        rows.extend(self.reasons.numbers());
        rows.extend(self.findings.numbers());
        rows
    }

    /// The numbers that are not to be given: bar 13 in a call, and what was found of it.
    fn never(&self) -> [Row<'_>; 2] {
        [
            ("verdict", vec![FRAME], &self.verdicts),
            self.findings.never(),
        ]
    }

    /// How often each sort of run, limit, colour, edition, feeding, reason and finding was tried.
    fn sorts(&self) -> Vec<(&'static str, u64)> {
        let mut sorts = self.runs.counts();
        sorts.extend(self.sent.counts());
        sorts.extend(self.limits.counts());
        sorts.extend(self.colours.counts());
        sorts.extend(self.editions.counts());
        sorts.extend(self.feedings.counts());
        sorts.extend(self.reasons.counts());
        sorts.extend(self.findings.counts());
        sorts
    }

    /// What was given and is not to be, a line each.
    pub fn wrongly(&self) -> Vec<String> {
        let mut lines = Vec::new();
        for (name, numbers, counts) in self.never() {
            for number in numbers {
                if counts[usize::from(number)] > 0 {
                    lines.push(format!("{name} {number} was given"));
                }
            }
        }
        lines
    }

    /// What was given or tried too seldom, a line each; few calls are not asked.
    pub fn too_seldom(&self) -> Vec<String> {
        let mut lines = Vec::new();
        for (name, numbers, counts) in self.numbers() {
            for number in numbers {
                if counts[usize::from(number)] < LEAST {
                    lines.push(format!(
                        "{name} {number} was given fewer than {LEAST} times"
                    ));
                }
            }
        }
        if self.without_room < LEAST {
            lines.push(format!("fewer than {LEAST} listings had too little room"));
        }
        for (name, count) in self.sorts() {
            if count < LEAST {
                lines.push(format!("{name}: fewer than {LEAST}"));
            }
        }
        for (name, count) in self.pairs.counts() {
            if count < LEAST_PAIRS {
                lines.push(format!("{name}: fewer than {LEAST_PAIRS}"));
            }
        }
        lines
    }
}

fn print_counts(name: &str, numbers: &[u8], counts: &Counts) {
    let counted: Vec<String> = numbers
        .iter()
        .map(|&number| format!("{number}: {}", counts[usize::from(number)]))
        .collect();
    println!("{name}  {}", counted.join("  "));
}
