//! Runs of options: containers, and between them Pad1, PadN and options of other types.

use crate::random::Random;

/// What looks like a container with a mandatory constraint of unknown type.
const LOOKALIKE: [u8; 6] = [2, 4, 200, 2, 0, 0];

/// A run of containers that hold such data, with other options between them if there are to be.
pub fn run(random: &mut Random, containers: &[Vec<u8>], others: bool) -> Vec<u8> {
    let size: usize = containers.iter().map(|data| data.len() + 2).sum();
    let mut run = Vec::with_capacity(size + 64);
    for data in containers {
        if others {
            between(random, &mut run);
        }
        put(&mut run, 2, data);
    }
    if others {
        between(random, &mut run);
    }
    run
}

/// An option of a type other than Pad1.
pub fn put(run: &mut Vec<u8>, kind: u8, data: &[u8]) {
    run.extend([kind, data.len() as u8]);
    run.extend(data);
}

/// No option, one or two, none of them a container.
fn between(random: &mut Random, run: &mut Vec<u8>) {
    for _ in 0..random.pick(&[0, 0, 1, 1, 2]) {
        match random.below(3) {
            0 => run.resize(run.len() + random.within(1, 5), 0),
            1 => {
                let data = data(random);
                put(run, 1, &data);
            }
            _ => other(random, run),
        }
    }
}

/// An option of another type: one that RPL has, or any.
pub fn other(random: &mut Random, run: &mut Vec<u8>) {
    let any = random.within(3, 255) as u8;
    let kind = random.pick(&[3, 4, 8, 9, 255, any]);
    let data = data(random);
    put(run, kind, &data);
}

/// What stands in an option that is no container: any bytes, or what looks like containers.
fn data(random: &mut Random) -> Vec<u8> {
    let any = random.within(0, 255);
    let few = random.within(0, 6);
    let size = random.pick(&[0, few, few, few, few, few, 14, 30, any, 254, 255]);
    let mut data = vec![0; size];
    if random.once_in(3) {
        for some in data.chunks_mut(LOOKALIKE.len()) {
            some.copy_from_slice(&LOOKALIKE[..some.len()]);
        }
    } else {
        random.fill(&mut data);
    }
    data
}
