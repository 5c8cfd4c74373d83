//! One call on the library and on the reference: everything that they give is compared.

use super::generate::Call;
use super::guarded::Guarded;
use super::random::Random;
use super::reference::data::{Answer, Finding, Reason};
use super::{library, reference};
use std::fmt::Debug;

/// What a call gave: its answer and the output after it.
#[derive(Clone, PartialEq, Eq)]
pub struct Given {
    pub answer: Answer,
    pub out: Vec<u8>,
}

/// What differs, in words, with what the reference expects and what the library gave.
pub struct Difference {
    pub what: String,
    pub expected: Given,
    pub given: Given,
}

/// Chooses by the library and by the reference.
pub fn choice(random: &mut Random, call: &Call) -> Result<Given, Box<Difference>> {
    let mut lent = Guarded::new(&call.lent, random);
    let mut out = Guarded::new(&call.out, random);
    let answer = library::choose(
        call.own,
        &call.candidates,
        call.count,
        lent.part(),
        out.part(),
    );
    let given = Given {
        answer,
        out: out.part().to_vec(),
    };
    let expected = expected(call);
    let what = if !lent.stands() {
        "the lent bytes, or those beside them, were written to"
    } else if !out.guards_stand() {
        "bytes beside the output were written to"
    } else if given.answer != expected.answer {
        "the answer differs"
    } else if given.out != expected.out {
        "the output differs"
    } else {
        return Ok(given);
    };
    let what = what.to_string();
    Err(Box::new(Difference {
        what,
        expected,
        given,
    }))
}

/// What the reference gives.
fn expected(call: &Call) -> Given {
    let mut out = call.out.clone();
    let answer = reference::choose(call.own, &call.candidates, call.count, &call.lent, &mut out);
    Given { answer, out }
}

/// What a listing gave: its size and the output after it.
#[derive(Clone, PartialEq, Eq)]
pub struct Listed {
    pub size: usize,
    pub out: Vec<u8>,
}

impl Listed {
    /// The listing's text, or nothing where there was too little room.
    pub fn text(&self) -> String {
        String::from_utf8_lossy(self.out.get(..self.size).unwrap_or(&[])).into_owned()
    }
}

/// Where a listing differs, what the reference expects and what the library gave.
pub struct ListingDifference {
    pub what: &'static str,
    pub container: Vec<u8>,
    pub expected: Listed,
    pub given: Listed,
}

/// Lists by the library and by the reference, into an output that first holds `pattern`.
pub fn listing(
    random: &mut Random,
    container: &[u8],
    pattern: &[u8],
) -> Result<Listed, Box<ListingDifference>> {
    let mut lent = Guarded::new(container, random);
    let mut out = Guarded::new(pattern, random);
    let size = library::list(lent.part(), out.part());
    let given = Listed {
        size,
        out: out.part().to_vec(),
    };
    let mut text = pattern.to_vec();
    let size = reference::list(container, &mut text);
    let expected = Listed { size, out: text };
    let what = if !lent.stands() {
        "the container, or bytes beside it, were written to"
    } else if !out.guards_stand() {
        "bytes beside the output were written to"
    } else if given != expected {
        "the listing differs"
    } else {
        return Ok(given);
    };
    Err(Box::new(ListingDifference {
        what,
        container: container.to_vec(),
        expected,
        given,
    }))
}

/// Where what is told of the candidate at a position differs, what is expected and what the library
/// told.
pub struct ToldDifference {
    pub what: &'static str,
    pub position: usize,
    pub expected: String,
    pub given: String,
}

impl ToldDifference {
    pub fn new<T: Debug>(what: &'static str, position: usize, expected: &T, given: &T) -> Self {
        ToldDifference {
            what,
            position,
            expected: format!("{expected:?}"),
            given: format!("{given:?}"),
        }
    }

    /// What both tell does not fit what the library chose.
    pub fn misfit(
        what: &'static str,
        position: usize,
        answer: &Answer,
        given: &impl Debug,
    ) -> Self {
        ToldDifference {
            what,
            position,
            expected: format!("what fits {answer:?}"),
            given: format!("{given:?}"),
        }
    }
}

/// The reason at a position by the library, to which the lent bytes are lent, and by the reference.
pub fn reason(lent: &mut Guarded, call: &Call, position: usize) -> Result<Reason, ToldDifference> {
    let (own, candidates, count) = (call.own, &call.candidates, call.count);
    let given = library::why(own, candidates, count, lent.part(), position);
    let expected = reference::why(own, candidates, count, &call.lent, position);
    told("the reason differs", lent, position, expected, given)
}

/// The finding of the candidate at a position, in the same way.
pub fn finding(
    lent: &mut Guarded,
    call: &Call,
    position: usize,
) -> Result<Finding, ToldDifference> {
    let candidate = &call.candidates[position];
    let given = library::examine(call.own, candidate, lent.part());
    let expected = reference::examine(call.own, candidate, &call.lent);
    told("the finding differs", lent, position, expected, given)
}

/// What the library told, if the reference tells the same and nothing was written to.
fn told<T: Debug + PartialEq>(
    differs: &'static str,
    lent: &Guarded,
    position: usize,
    expected: T,
    given: T,
) -> Result<T, ToldDifference> {
    let what = if !lent.stands() {
        "the lent bytes, or those beside them, were written to"
    } else if given != expected {
        differs
    } else {
        return Ok(given);
    };
    Err(ToldDifference::new(what, position, &expected, &given))
}
