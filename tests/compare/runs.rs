//! How often runs of each sort were received, and how often what decides a verdict stood in
//! different containers.

use super::cut::{is_constraint, is_mandatory, is_recorded};
use super::generate::Call;
use super::options::{containers, is_container, objects_of, split};
use super::reference::data::{Answer, CONTAINERS, NO_PLACE};
use super::reference::joined::Joined;

const PADN: u8 = 1;
const HP: u8 = 3;
const LATENCY: u8 = 5;
const ETX: u8 = 7;

/// The highest place that a byte holds.
const BYTE: u16 = 255;

/// An object, and which container of its run it stands in.
type Placed<'a> = (usize, &'a [u8]);

#[derive(Default)]
pub struct Runs {
    /// Runs with no container, 1, 2 to 8, and 9 or more.
    containers: [u64; 4],
    /// Runs with Pad1, PadN, another option, and an empty container beside others.
    pads: u64,
    padns: u64,
    others: u64,
    empty: u64,
    /// 22 behind nine containers or more; 23 though an object is cut short too.
    cut_behind_nine: u64,
    nine_before_cut: u64,
    /// 14 in a later container than one that has an object of 15 to 17.
    cut_behind_fault: u64,
    /// 15 to 19 at an object that does not stand in the first container.
    later: [u64; 5],
    /// 16 at an object whose first stands in another container.
    repeated_across: u64,
    /// A place that a byte does not hold.
    far: u64,
    /// A mandatory limit on hops, and one on latency or ETX, of an unbarred candidate or at the
    /// object that bars it, with a metric beside it that stands in another container.
    hops_across: [u64; 2],
    sums_across: [u64; 2],
}

impl Runs {
    /// Notes the runs of a call that was answered so.
    pub fn note(&mut self, call: &Call, answer: &Answer) {
        if answer.refusal != 0 {
            return;
        }
        for (position, candidate) in call.given().iter().enumerate() {
            let Some(run) = call.run(candidate) else {
                continue;
            };
            let (options, _) = split(run);
            let count = options.iter().filter(|one| is_container(one)).count();
            self.options(&options, count);
            let verdict = answer.verdicts[position];
            self.cut_behind_nine += u64::from(verdict == 22 && count > CONTAINERS);
            match verdict {
                14 => self.cut_behind_fault += u64::from(fault_before_cut(&options)),
                23 => self.nine_before_cut += u64::from(placed(run).is_none()),
                10 | 15..=19 if count > 1 => {
                    self.objects(verdict, answer.places[position], run);
                }
                _ => {}
            }
        }
    }

    fn options(&mut self, options: &[&[u8]], count: usize) {
        let sort = match count {
            0 => 0,
            1 => 1,
            2..=CONTAINERS => 2,
            _ => 3,
        };
        self.containers[sort] += 1;
        let kinds = |sort: fn(&[u8]) -> bool| u64::from(options.iter().any(|one| sort(one)));
        self.pads += kinds(|one| one[0] == 0);
        self.padns += kinds(|one| one[0] == PADN);
        self.others += kinds(|one| one[0] > 2);
        self.empty += kinds(|one| one == [2, 0]) & u64::from(count > 1);
    }

    /// Notes what decides a verdict on several containers.
    fn objects(&mut self, verdict: u8, place: u16, run: &[u8]) {
        let objects = placed(run).unwrap_or_default();
        let barring = objects.get(usize::from(place));
        if let Some(&(container, object)) = barring {
            self.later[usize::from(verdict - 15)] += u64::from(container > 0);
            let same = |other: &[u8]| {
                other[0] == object[0] && is_constraint(other) == is_constraint(object)
            };
            let first = objects.iter().find(|(_, other)| same(other));
            let across = first.is_some_and(|&(other, _)| other != container);
            self.repeated_across += u64::from(verdict == 16 && across);
            self.far += u64::from(place > BYTE);
        }
        let barred = usize::from(place != NO_PLACE);
        let limits = match (verdict, barring) {
            (10, _) => &objects[..],
            (19, Some(limit)) => std::slice::from_ref(limit),
            _ => &[],
        };
        for limit in limits.iter().filter(|(_, object)| is_mandatory(object)) {
            let across = objects.iter().any(|metric| decides_across(limit, metric));
            match limit.1[0] {
                HP => self.hops_across[barred] += u64::from(across),
                _ => self.sums_across[barred] += u64::from(across),
            }
        }
    }

    /// What was counted, in words.
    pub fn counts(&self) -> Vec<(&'static str, u64)> {
        let mut counts = vec![
            ("runs with Pad1", self.pads),
            ("runs with PadN", self.padns),
            ("runs with another option", self.others),
            ("runs with an empty container beside others", self.empty),
            ("22 behind nine containers", self.cut_behind_nine),
            ("23 with an object cut short", self.nine_before_cut),
            ("14 behind an object of 15 to 17", self.cut_behind_fault),
            ("16, the first in another container", self.repeated_across),
            ("places above 255", self.far),
        ];
        counts.extend(COUNTED.into_iter().zip(self.containers));
        counts.extend(LATER.into_iter().zip(self.later));
        counts.extend(HOPS_ACROSS.into_iter().zip(self.hops_across));
        counts.extend(SUMS_ACROSS.into_iter().zip(self.sums_across));
        counts
    }
}

const COUNTED: [&str; 4] = [
    "runs without a container",
    "runs with 1 container",
    "runs with 2 to 8 containers",
    "runs with 9 containers or more",
];
const LATER: [&str; 5] = [
    "15 in a later container",
    "16 in a later container",
    "17 in a later container",
    "18 in a later container",
    "19 in a later container",
];
const HOPS_ACROSS: [&str; 2] = [
    "hops within a limit in another container",
    "hops beyond a limit in another container",
];
const SUMS_ACROSS: [&str; 2] = [
    "sums within a limit in another container",
    "sums beyond a limit in another container",
];

/// The objects of a run's containers; none where one is cut short.
fn placed(run: &[u8]) -> Option<Vec<Placed<'_>>> {
    let mut placed = Vec::new();
    for (index, container) in containers(run)?.into_iter().enumerate() {
        placed.extend(objects_of(container)?.into_iter().map(|one| (index, one)));
    }
    Some(placed)
}

/// Whether the containers before the one in which an object is cut short have one of 15 to 17.
fn fault_before_cut(options: &[&[u8]]) -> bool {
    let whole = |option: &&&[u8]| !is_container(option) || objects_of(option).is_some();
    let before: Vec<&[u8]> = options.iter().take_while(whole).copied().collect();
    Joined::read(&before.concat()).is_err()
}

/// Whether a metric can decide on a limit, and stands in another container.
fn decides_across(limit: &Placed, metric: &Placed) -> bool {
    let object = metric.1;
    let sum = !is_recorded(object) && object[2] & 0x70 == 0;
    limit.0 != metric.0
        && object[0] == limit.1[0]
        && !is_constraint(object)
        && match object[0] {
            HP => true,
            LATENCY | ETX => sum,
            _ => false,
        }
}
