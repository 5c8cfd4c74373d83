//! Demand 3 on pairs of calls of the library: the second has every run cut.

use super::compare::Given;
use super::cut;
use super::generate::{lay, pattern, Call};
use super::random::Random;
use super::reference::data::{Candidate, CURRENT_GIVEN};
use super::reference::joined::Joined;
use super::sentences::{ranks_agree, resulting, Sentences, Sort};
use super::wrong::{run, Pair, Wrong};

/// Makes the second call of a call with well-formed runs, and tries each sentence of demand 3; none
/// where demand 3 does not speak of the call.
pub fn check(random: &mut Random, call: &Call, given: &Given) -> Result<Option<Sort>, Wrong> {
    let Some(runs) = wellformed(call, given) else {
        return Ok(None);
    };
    let second = second_call(random, call, &runs);
    let other = run(random, &second)?;
    let given = [given.clone(), other];
    let sentences = Sentences {
        call,
        runs: &runs,
        first: &given[0],
        second: &given[1],
    };
    let result = sentences.all();
    if result.is_ok() && call.count > 0 {
        let position = random.below(call.count);
        for (call, given) in [(call, &given[0]), (&second, &given[1])] {
            alone(random, call, given, position)?;
        }
    }
    match result {
        Ok(sort) => Ok(Some(sort)),
        Err(sentence) => {
            let first = call.clone();
            let pair = Pair {
                first,
                second,
                given,
            };
            Err(broken(sentence, pair))
        }
    }
}

/// A sentence that does not hold of a pair.
fn broken(sentence: String, pair: Pair) -> Wrong {
    Wrong::Pair(
        format!("demand 3 does not hold: {sentence}"),
        Box::new(pair),
    )
}

/// The candidates' runs, if the call is not refused and all of them are well-formed.
fn wellformed<'a>(call: &'a Call, given: &Given) -> Option<Vec<&'a [u8]>> {
    if given.answer.refusal != 0 {
        return None;
    }
    let read = |candidate| {
        let run = call.run(candidate)?;
        Joined::read(run).ok().map(|_| run)
    };
    call.given().iter().map(read).collect()
}

/// The call with each run cut, on bytes of its own in other lent bytes, and another output.
fn second_call(random: &mut Random, call: &Call, runs: &[&[u8]]) -> Call {
    let cut: Vec<Vec<u8>> = runs
        .iter()
        .map(|run| cut::cut(run).expect("a well-formed run"))
        .collect();
    let mut second = call.clone();
    second.lent = lay(random, &cut, &mut second.candidates[..call.count]);
    second.out = pattern(random, call.out.len());
    second
}

/// A candidate alone, with nothing lent but its run, has the verdict that it has among the others,
/// and where it is unbarred the rank that the formula gives: so its resulting rank is the same in
/// both calls.
fn alone(random: &mut Random, call: &Call, given: &Given, position: usize) -> Result<(), Wrong> {
    let candidate = &call.candidates[position];
    let mut single = Call {
        own: call.own,
        candidates: call.candidates,
        count: 1,
        lent: call.run(candidate).unwrap_or_default().to_vec(),
        out: call.out.clone(),
    };
    single.candidates[0] = Candidate {
        start: 0,
        ..*candidate
    };
    single.own.flags &= !CURRENT_GIVEN;
    let other = run(random, &single)?;
    let verdict = given.answer.verdicts[position];
    let rank = resulting(&call.own, candidate);
    let kept = other.answer.verdicts[0] == verdict && ranks_agree(&single, &other);
    if kept && (verdict != 10 || other.answer.rank as u64 == rank) {
        return Ok(());
    }
    let sentence = format!("candidate {position}: verdict or rank is another where it is alone");
    let pair = Pair {
        first: call.clone(),
        second: single,
        given: [given.clone(), other],
    };
    Err(broken(sentence, pair))
}
