//! The proved static library, behind safe functions of the reference's form.

use super::reference::data::{Answer, Candidate, Fed, Finding, Own, Reason, CANDIDATES};

#[repr(C)]
#[derive(Clone, Copy)]
struct Candidates {
    at: [Candidate; CANDIDATES],
}

extern "C" {
    fn gardhnosk_choose(
        own: Own,
        candidates: Candidates,
        count: usize,
        lent: *const u8,
        lent_len: usize,
        out: *mut u8,
        out_len: usize,
    ) -> Answer;
    fn gardhnosk_why(
        own: Own,
        candidates: Candidates,
        count: usize,
        lent: *const u8,
        lent_len: usize,
        position: usize,
    ) -> Reason;
    fn gardhnosk_examine(
        own: Own,
        candidate: Candidate,
        lent: *const u8,
        lent_len: usize,
    ) -> Finding;
    fn gardhnosk_feed(
        state: Fed,
        part: *const u8,
        part_len: usize,
        kept: *mut u8,
        kept_len: usize,
    ) -> Fed;
    fn gardhnosk_list(container: *const u8, len: usize, out: *mut u8, out_len: usize) -> usize;
}

/// The library's choice. The lent bytes are handed over as mutable, so that the compiler does not
/// take for granted what is to be tested: that they stay.
pub fn choose(
    own: Own,
    candidates: &[Candidate; CANDIDATES],
    count: usize,
    lent: &mut [u8],
    out: &mut [u8],
) -> Answer {
    let candidates = Candidates { at: *candidates };
    // SAFETY: both pointers are good for the lengths beside them, and the parts do not overlap.
    unsafe {
        gardhnosk_choose(
            own,
            candidates,
            count,
            lent.as_mut_ptr(),
            lent.len(),
            out.as_mut_ptr(),
            out.len(),
        )
    }
}

/// The library's reason at a position.
pub fn why(
    own: Own,
    candidates: &[Candidate; CANDIDATES],
    count: usize,
    lent: &mut [u8],
    position: usize,
) -> Reason {
    let candidates = Candidates { at: *candidates };
    // SAFETY: the pointer is good for the length beside it.
    unsafe {
        gardhnosk_why(
            own,
            candidates,
            count,
            lent.as_mut_ptr(),
            lent.len(),
            position,
        )
    }
}

/// The library's finding of a candidate.
pub fn examine(own: Own, candidate: &Candidate, lent: &mut [u8]) -> Finding {
    // SAFETY: the pointer is good for the length beside it.
    unsafe { gardhnosk_examine(own, *candidate, lent.as_mut_ptr(), lent.len()) }
}

/// The library's state after a part of a run, what is kept of the run being in `kept`.
pub fn feed(state: Fed, part: &mut [u8], kept: &mut [u8]) -> Fed {
    // SAFETY: both pointers are good for the lengths beside them, and the parts do not overlap.
    unsafe {
        gardhnosk_feed(
            state,
            part.as_mut_ptr(),
            part.len(),
            kept.as_mut_ptr(),
            kept.len(),
        )
    }
}

/// The library's listing of a container.
pub fn list(container: &mut [u8], out: &mut [u8]) -> usize {
    // SAFETY: both pointers are good for the lengths beside them, and the parts do not overlap.
    unsafe {
        gardhnosk_list(
            container.as_mut_ptr(),
            container.len(),
            out.as_mut_ptr(),
            out.len(),
        )
    }
}
