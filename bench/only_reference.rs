//! The independent implementation's choice alone, for the size of its code.

#[path = "../tests/compare/reference/mod.rs"]
#[allow(dead_code, unused_imports)]
mod reference;

use reference::data::{Answer, Candidate, Own, CANDIDATES};

#[no_mangle]
pub fn reference_choose(
    own: Own,
    candidates: &[Candidate; CANDIDATES],
    count: usize,
    lent: &[u8],
    out: &mut [u8],
) -> Answer {
    reference::choose(own, candidates, count, lent, out)
}
