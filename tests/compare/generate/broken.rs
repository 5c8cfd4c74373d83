//! Runs that were well-formed: a border inside an object, an object that stands there twice or is
//! recorded where it was not, a ninth container, an end cut short.

use super::{option, MOST_DATA};
use crate::options::objects_in;
use crate::random::Random;
use crate::reference::data::CONTAINERS;

/// A run of such containers with one thing wrong or two.
pub fn run(random: &mut Random, mut containers: Vec<Vec<u8>>, others: bool) -> Vec<u8> {
    let mut cuts = false;
    for _ in 0..random.pick(&[1, 1, 2]) {
        match random.below(8) {
            0 => move_border(random, &mut containers),
            1 => repeat(random, &mut containers),
            2..=4 => turn(random, &mut containers),
            5 | 6 => add(random, &mut containers),
            _ => cuts = true,
        }
    }
    let mut run = option::run(random, &containers, others);
    if cuts {
        cut(random, &mut run);
    }
    run
}

/// A run of which as much is kept as can be, or nearly: eight full containers, a ninth, and an end
/// cut short, but for few.
pub fn most(random: &mut Random) -> Vec<u8> {
    let mut containers = Vec::with_capacity(CONTAINERS + 1);
    for _ in 0..CONTAINERS {
        let mut data = vec![200, 3, 0, (MOST_DATA - 4) as u8];
        data.resize(MOST_DATA, random.byte());
        containers.push(data);
    }
    let size = random.pick(&[0, 1, 4, MOST_DATA]);
    containers.push(vec![random.byte(); size]);
    let others = random.once_in(2);
    let mut run = option::run(random, &containers, others);
    match random.below(4) {
        0 => run.truncate(run.len() - size.min(3)),
        _ => cut(random, &mut run),
    }
    run
}

/// Puts an object behind those of a container, its own or another, if there is room.
fn repeat(random: &mut Random, containers: &mut [Vec<u8>]) {
    let all: Vec<&[u8]> = containers
        .iter()
        .flat_map(|data| objects_in(data).unwrap_or_default())
        .collect();
    if all.is_empty() {
        return;
    }
    let again = random.pick(&all).to_vec();
    let to = random.below(containers.len());
    if containers[to].len() + again.len() <= MOST_DATA {
        containers[to].extend(again);
    }
}

/// Changes the R of an object, its C, or its type by one.
fn turn(random: &mut Random, containers: &mut [Vec<u8>]) {
    if containers.is_empty() {
        return;
    }
    let index = random.below(containers.len());
    let data = &mut containers[index];
    let objects = objects_in(data).unwrap_or_default();
    let before = random.below(objects.len().max(1));
    let start: usize = objects[..before].iter().map(|object| object.len()).sum();
    let (place, bit) = random.pick(&[(2, 0x80), (2, 0x80), (1, 0x02), (0, 0x01)]);
    if let Some(byte) = data.get_mut(start + place) {
        *byte ^= bit;
    }
}

/// Moves some bytes from one container to the next or back, so that mostly an object crosses.
fn move_border(random: &mut Random, containers: &mut Vec<Vec<u8>>) {
    if containers.len() < 2 {
        let data = containers.pop().unwrap_or_default();
        let (front, back) = data.split_at(random.within(0, data.len()));
        containers.extend([front.to_vec(), back.to_vec()]);
        return;
    }
    let index = random.below(containers.len() - 1);
    let joined = [&containers[index][..], &containers[index + 1][..]].concat();
    let least = joined.len().saturating_sub(MOST_DATA);
    let most = joined.len().min(MOST_DATA);
    let near = containers[index].len() + random.below(9);
    let any = random.within(least, most);
    let border = random.pick(&[near.saturating_sub(4).clamp(least, most), any]);
    let (front, back) = joined.split_at(border);
    containers[index] = front.to_vec();
    containers[index + 1] = back.to_vec();
}

/// Makes them nine or more: copies of one of them, or empty ones, at the end or between.
fn add(random: &mut Random, containers: &mut Vec<Vec<u8>>) {
    let count = random.within(CONTAINERS + 1, CONTAINERS + 3);
    let copied = random.once_in(2);
    let behind = random.once_in(2);
    while containers.len() < count {
        let any = random.within(0, containers.len());
        let place = if behind { containers.len() } else { any };
        let again = match containers.first() {
            Some(first) if copied => first.clone(),
            _ => Vec::new(),
        };
        containers.insert(place, again);
    }
}

/// Cuts the run's end, or puts an option behind it that is cut short.
fn cut(random: &mut Random, run: &mut Vec<u8>) {
    let whole = run.len();
    match random.below(4) {
        0 => run.truncate(whole - random.within(0, whole.min(5))),
        1 => run.truncate(random.within(0, whole)),
        2 => run.push(random.pick(&[1, 2, 2, 3, 255])),
        _ => {
            if random.once_in(2) {
                option::other(random, run);
            } else {
                option::put(run, 2, &[200, 3, 0, 1, 0]);
            }
            run.truncate(random.within(whole + 1, run.len() - 1));
        }
    }
}
