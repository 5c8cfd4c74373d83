//! The run of options of one candidate.

use super::object::Maker;
use super::option;
use super::scene::{Scene, Spread};
use super::spread::spread;
use super::{broken, long, loose, wellformed, MOST_DATA};
use crate::random::Random;
use crate::reference::data::{Neighbour, Own, CONTAINERS};

/// A run in which all is in order, but that it may have nine containers or ten.
pub fn ordered(random: &mut Random, scene: &Scene, own: &Own, link: &Neighbour) -> Vec<u8> {
    let containers = containers(random, scene, own, link);
    let others = scene.others && !random.once_in(4);
    option::run(random, &containers, others)
}

/// A run in which little needs to be in order.
pub fn disordered(random: &mut Random, scene: &Scene, own: &Own, link: &Neighbour) -> Vec<u8> {
    match random.below(32) {
        0..=11 => loose::container(random),
        12 => broken::most(random),
        13..=16 => {
            let few = random.within(2, 3);
            let count = random.pick(&[few, few, CONTAINERS, CONTAINERS + 1]);
            let containers: Vec<Vec<u8>> = (0..count).map(|_| loose::data(random)).collect();
            option::run(random, &containers, scene.others)
        }
        _ => {
            let containers = containers(random, scene, own, link);
            broken::run(random, containers, scene.others)
        }
    }
}

/// The data of well-formed containers.
fn containers(random: &mut Random, scene: &Scene, own: &Own, link: &Neighbour) -> Vec<Vec<u8>> {
    match scene.spread {
        Spread::Single => {
            let objects = wellformed::objects(random, scene, own, link, MOST_DATA);
            vec![objects.concat()]
        }
        Spread::Several => {
            let room = CONTAINERS * MOST_DATA;
            let objects = wellformed::objects(random, scene, own, link, room);
            spread(random, objects)
        }
        Spread::Long => long::containers(&mut Maker::new(random, scene, own, link)),
    }
}
