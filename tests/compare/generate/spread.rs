//! Objects are spread over containers.

use super::MOST_DATA;
use crate::random::Random;
use crate::reference::data::CONTAINERS;

/// The data of containers that hold the objects in order, up to eight but for few, some of them
/// empty.
pub fn spread(random: &mut Random, objects: Vec<Vec<u8>>) -> Vec<Vec<u8>> {
    let more = random.within(CONTAINERS + 1, CONTAINERS + 2);
    let most = match random.below(24) {
        0 => more,
        _ => CONTAINERS,
    };
    let rarity = random.pick(&[1, 2, 2, 4, 100]);
    let mut left: usize = objects.iter().map(Vec::len).sum();
    let mut containers: Vec<Vec<u8>> = Vec::with_capacity(most);
    for object in objects {
        // those that are left have to find room in the containers that are left
        let free = most.saturating_sub(containers.len());
        let opens = left <= free * (MOST_DATA - 4) && random.once_in(rarity);
        left -= object.len();
        match containers.last_mut() {
            Some(open) if !opens && open.len() + object.len() <= MOST_DATA => open.extend(object),
            _ => containers.push(object),
        }
    }
    let fill = most > CONTAINERS || random.once_in(8);
    while containers.len() < most && (fill || random.once_in(3)) {
        let place = random.within(0, containers.len());
        containers.insert(place, Vec::new());
    }
    containers
}
