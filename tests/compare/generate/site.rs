//! What edition 2 compares first: interface order, grounded or not, root preference.

use crate::random::Random;
use crate::reference::data::{Neighbour, FIRST_EDITION, GROUNDED};

/// Two of each for all neighbours of a call, often one and the same, so that ties are frequent.
pub struct Site {
    orders: [u8; 2],
    grounded: [bool; 2],
    preferences: [u8; 2],
}

impl Site {
    pub fn draw(random: &mut Random) -> Site {
        let grounded = random.once_in(2);
        Site {
            orders: two(random),
            grounded: [grounded, random.once_in(2)],
            preferences: two(random),
        }
    }

    /// Gives them to a neighbour; sometimes, and in edition 1 often, any others.
    pub fn set(&self, random: &mut Random, edition: u8, neighbour: &mut Neighbour) {
        let rarity = if edition == FIRST_EDITION { 2 } else { 16 };
        if random.once_in(rarity) {
            set_any_site(random, neighbour);
            return;
        }
        neighbour.order = random.pick(&self.orders);
        neighbour.preference = random.pick(&self.preferences);
        ground(neighbour, random.pick(&self.grounded));
    }
}

/// Two numbers in range, the same or not.
fn two(random: &mut Random) -> [u8; 2] {
    let (low, high) = apart(random);
    random.pick(&[[low, low], [high, high], [low, high], [low, high]])
}

/// Two numbers in range, the first the lower, often beside each other or at an edge.
pub fn apart(random: &mut Random) -> (u8, u8) {
    let low = random.below(7) as u8;
    let high = random.within(usize::from(low) + 1, 7) as u8;
    random.pick(&[(0, 7), (low, low + 1), (low, 7), (low, high)])
}

/// Gives a neighbour an order and a preference that need not be in range, grounded or not.
pub fn set_any_site(random: &mut Random, neighbour: &mut Neighbour) {
    neighbour.order = any(random);
    neighbour.preference = any(random);
    ground(neighbour, random.once_in(2));
}

fn any(random: &mut Random) -> u8 {
    let inside = random.below(8) as u8;
    let plain = random.byte();
    random.pick(&[inside, inside, 7, 8, 255, plain])
}

/// Sets or clears the flag of a grounded DODAG.
pub fn ground(neighbour: &mut Neighbour, grounded: bool) {
    neighbour.flags &= !GROUNDED;
    if grounded {
        neighbour.flags |= GROUNDED;
    }
}
