//! The finding of every candidate of a call: the library's is the reference's, tells of what is not
//! as asked, and fits the library's verdict.

use super::compare::{self, ToldDifference};
use super::findings::Findings;
use super::generate::Call;
use super::guarded::Guarded;
use super::options::objects;
use super::random::Random;
use super::reference::data::{Answer, Finding, CANDIDATES};
use super::reference::way;

/// Asks for the finding of each candidate of a call that is answered so, and notes it.
pub fn check(
    random: &mut Random,
    call: &Call,
    answer: &Answer,
    findings: &mut Findings,
) -> Result<(), ToldDifference> {
    let mut lent = Guarded::new(&call.lent, random);
    for position in 0..call.count.min(CANDIDATES) {
        let finding = compare::finding(&mut lent, call, position)?;
        if let Some(what) = misfit(call, answer, position, &finding) {
            return Err(ToldDifference::misfit(what, position, answer, &finding));
        }
        findings.note(call, answer, position, &finding);
    }
    Ok(())
}

/// What of a finding is as asked, or does not fit the verdict, if anything. A refused call has no
/// verdicts.
fn misfit(
    call: &Call,
    answer: &Answer,
    position: usize,
    finding: &Finding,
) -> Option<&'static str> {
    if !falls_short(finding) {
        return Some("what was found is as asked");
    }
    let told = match answer.verdicts[position] {
        number @ (11 | 12 | 14 | 19 | 22 | 23) => number,
        _ => 0,
    };
    let (number, kind) = told_of(finding.way);
    if answer.refusal == 0 && number != told {
        Some("the finding does not fit the verdict")
    } else if told == 19 && barring(call, answer, position).map(|object| object[0]) != Some(kind) {
        Some("the finding is not of the object that bars")
    } else {
        None
    }
}

/// The object that bars a candidate by 15 to 19.
pub fn barring<'a>(call: &'a Call, answer: &Answer, position: usize) -> Option<&'a [u8]> {
    let run = call.run(&call.candidates[position])?;
    let place = usize::from(answer.places[position]);
    objects(run)?.get(place).copied()
}

/// The bar that a way is told of, and for 19 the type of the constraint; else 0.
pub fn told_of(way: u8) -> (u8, u8) {
    match way {
        way::SP..=way::PREFERENCE => (11, 0),
        way::OUTSIDE => (12, 0),
        way::HEADER | way::BODY => (14, 0),
        way::AGGREGATOR | way::OVERLOADED => (19, 1),
        way::OTHER_TYPE..=way::BARRED_UNKNOWN => (19, 2),
        way::HOPS | way::UNKNOWN_HOPS => (19, 3),
        way::THROUGHPUT | way::UNKNOWN_THROUGHPUT => (19, 4),
        way::LATENCY..=way::UNKNOWN_LATENCY => (19, 5),
        way::ETX..=way::UNKNOWN_ETX => (19, 7),
        way::QUALITY | way::UNKNOWN_QUALITY => (19, 6),
        way::LACKS_COLOUR | way::HAS_COLOUR => (19, 8),
        way::OPTION | way::OPTION_DATA => (22, 0),
        way::CONTAINERS => (23, 0),
        _ => (0, 0),
    }
}

/// Whether what was found is not what was asked for; where nothing was found, whether it is 0.
fn falls_short(finding: &Finding) -> bool {
    let Finding {
        way,
        which,
        asked,
        found,
    } = *finding;
    match way {
        way::SP..=way::PREFERENCE => !(which..=asked).contains(&found),
        way::OUTSIDE => u128::from(which) + u128::from(asked) > u128::from(found),
        way::HEADER | way::BODY | way::OPTION | way::OPTION_DATA => found < asked,
        way::OTHER_TYPE => found != asked,
        way::BARRED_TYPE => found == asked,
        way::LITTLE_ENERGY => found <= asked,
        way::BARRED_ENERGY | way::THROUGHPUT => found < asked,
        way::HOPS => found >= asked,
        way::LATENCY | way::ETX => which == 0 && found > asked,
        way::PATH_LATENCY | way::PATH_ETX => which > 0 && which <= found && found > asked,
        way::QUALITY | way::CONTAINERS => found > asked,
        way::LACKS_COLOUR => asked & !found != 0,
        way::HAS_COLOUR => asked & !found == 0,
        _ => found == 0,
    }
}
