//! The reserved bits of bodies, which are cleared on output.

use super::colour;
use super::data::{AGGREGATOR, OVERLOADED};
use super::object::{Object, Usage, COLOUR, HP, LQL, NE, NSA};

/// All of an NE flags byte that is not reserved.
const ENERGY_FLAGS: u8 = 0x0F;

/// Clears the reserved bits in the body of a known object; an unknown body stays.
pub fn clear_reserved(object: &Object, body: &mut [u8]) {
    match object.kind {
        NSA => {
            body[0] = 0;
            body[1] &= AGGREGATOR | OVERLOADED;
        }
        NE if object.usage() == Usage::Recorded => {
            for flags in body.iter_mut().step_by(2) {
                *flags &= ENERGY_FLAGS;
            }
        }
        NE => body[0] &= ENERGY_FLAGS,
        COLOUR if object.usage() == Usage::Constraint => {
            body[0] = 0;
            body[2] &= !colour::RESERVED;
        }
        HP | LQL | COLOUR => body[0] = 0,
        _ => {}
    }
}
