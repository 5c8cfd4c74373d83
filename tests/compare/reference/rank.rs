//! The rank rule of RFC 6552, and bars 20 and 21.

use super::data::{Neighbour, Own, NO_RANK};

/// Advertised rank plus (Rf × Sp + Sr) × MinHopRankIncrease, in whole numbers: it may pass 16 bits.
pub fn resulting(own: &Own, neighbour: &Neighbour) -> u32 {
    let units = u32::from(neighbour.rf) * u32::from(neighbour.sp) + u32::from(neighbour.sr);
    // bytes and 16 bits: at most 65,280 units of 65,535, so the sum fits 32 bits
    u32::from(neighbour.rank) + units * u32::from(own.minhop)
}

/// The resulting rank, unless it is infinite (20) or too far above the lowest advertised (21).
pub fn allowed(own: &Own, neighbour: &Neighbour) -> Result<u16, u8> {
    let rank = resulting(own, neighbour);
    if neighbour.rank == NO_RANK || rank >= u32::from(NO_RANK) {
        return Err(20);
    }
    match own.lowest() {
        Some(lowest) if own.maxincrease != 0 => {
            let limit = u32::from(lowest) + u32::from(own.maxincrease);
            if rank > limit {
                return Err(21);
            }
        }
        _ => {}
    }
    Ok(rank as u16)
}
