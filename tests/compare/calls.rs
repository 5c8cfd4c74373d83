//! Many calls, each with all that is tried of it.

use super::arguments::Arguments;
use super::compare::{Given, ListingDifference};
use super::generate::{self, Call};
use super::options::containers;
use super::random::Random;
use super::reference::LISTING_ROOM;
use super::replay::Place;
use super::report::{Report, ASKED_FROM};
use super::wrong::Wrong;
use super::{compare, examine, feeding, first_edition, pairs, sent, states, why};

/// The program stops after so many differences.
const MOST_DIFFERENCES: usize = 5;

/// What the random streams of a call are for; each use has its own.
const CALL: u64 = 0;
const GUARDS: u64 = 1;
const LISTING: u64 = 2;
const PAIR: u64 = 3;
const UNREAD: u64 = 4;
const TOLD: u64 = 5;
const FED: u64 = 6;

/// A container is listed once in so many runs.
const LISTED_ONCE_IN: usize = 3;

/// Reasons and findings are asked for once in so many calls.
const TOLD_ONCE_IN: usize = 4;

/// States of any bits are fed once in so many calls.
const STATES_ONCE_IN: usize = 8;

/// Says which call was tried, should the program panic in it.
struct Trying<'a>(&'a Place);

impl Drop for Trying<'_> {
    fn drop(&mut self) {
        if std::thread::panicking() {
            eprintln!("in call {} of seed {}", self.0.call, self.0.seed);
        }
    }
}

/// Tries the calls that the arguments name, prints what was given, and tells whether all is well.
pub fn run(arguments: &Arguments) -> bool {
    let mut report = Report::new();
    let mut differences = 0;
    let mut place = Place {
        program: arguments.program.clone(),
        seed: arguments.seed,
        call: 0,
    };
    for call in arguments.from..arguments.from + arguments.count {
        place.call = call;
        if !one(&place, &mut report) {
            differences += 1;
        }
        if differences == MOST_DIFFERENCES {
            println!("\nstopped after {differences} differences");
            return false;
        }
    }
    report.print();
    println!("differences: {differences}");
    let mut wrong = report.wrongly();
    if arguments.count >= ASKED_FROM {
        wrong.extend(report.too_seldom());
    }
    for line in &wrong {
        println!("{line}");
    }
    differences == 0 && wrong.is_empty()
}

/// Tries one call, the listings of its containers, its pairs, its runs fed in parts and what is told
/// of it, up to the first difference, which is printed; tells whether there was none.
fn one(place: &Place, report: &mut Report) -> bool {
    let _trying = Trying(place);
    let stream = |usage| Random::of(place.seed, place.call, usage);
    let call = generate::call(&mut stream(CALL));
    let given = match compare::choice(&mut stream(GUARDS), &call) {
        Ok(given) => given,
        Err(difference) => {
            place.choice(&call, &difference);
            return false;
        }
    };
    if let Some(what) = sent::check(&given) {
        let (call, given) = (Box::new(call), Box::new(given));
        place.wrong(&Wrong::Sent(what, call, given));
        return false;
    }
    report.choice(&call, &given);
    if let Err(difference) = listings(&mut stream(LISTING), &call, report) {
        place.listing(&difference);
        return false;
    }
    if let Err(wrong) = beside(stream, &call, &given, report) {
        place.wrong(&wrong);
        return false;
    }
    true
}

/// Tries the pairs that a call is the first of: demand 3's, what edition 1 does not read, and what
/// is kept of its runs; and of some calls what is told, and states of any bits.
fn beside(
    stream: impl Fn(u64) -> Random,
    call: &Call,
    given: &Given,
    report: &mut Report,
) -> Result<(), Wrong> {
    if let Some(sort) = pairs::check(&mut stream(PAIR), call, given)? {
        report.pairs.note(&sort);
    }
    if first_edition::check(&mut stream(UNREAD), call, given)? {
        report.pairs.first_edition(&given.answer);
    }
    let mut random = stream(FED);
    feeding::check(&mut random, call, given, &mut report.feedings)?;
    if random.once_in(STATES_ONCE_IN) {
        states::check(&mut random, call, &mut report.feedings).map_err(Wrong::Feed)?;
    }
    let mut random = stream(TOLD);
    if random.once_in(TOLD_ONCE_IN) {
        told(&mut random, call, given, report)?;
    }
    Ok(())
}

/// Asks for the reason at every position of a call, and for the finding of every candidate.
fn told(random: &mut Random, call: &Call, given: &Given, report: &mut Report) -> Result<(), Wrong> {
    let answer = why::answer(random, call, given)?;
    let short = given.answer.refusal == why::NO_ROOM;
    why::check(random, call, &answer, short, &mut report.reasons)
        .and_then(|()| examine::check(random, call, &answer, &mut report.findings))
        .map_err(|difference| Wrong::Told(Box::new(call.clone()), Box::new(difference)))
}

/// Lists one container of some runs of a call, or now and then the run, or a part of the lent bytes
/// that need not be either.
fn listings(
    random: &mut Random,
    call: &Call,
    report: &mut Report,
) -> Result<(), Box<ListingDifference>> {
    let room = match random.below(64) {
        0 => random.below(LISTING_ROOM),
        1 => LISTING_ROOM - 1,
        2 => LISTING_ROOM + random.below(200),
        _ => LISTING_ROOM,
    };
    let pattern = generate::pattern(random, room);
    let start = random.within(0, call.lent.len());
    let end = random.within(start, call.lent.len());
    let runs = call.given().iter().filter_map(|one| call.run(one));
    for run in runs.chain([&call.lent[start..end]]) {
        if !random.once_in(LISTED_ONCE_IN) {
            continue;
        }
        let listed = match containers(run) {
            Some(all) if !all.is_empty() && !random.once_in(8) => random.pick(&all),
            _ => run,
        };
        report.listing(&compare::listing(random, listed, &pattern)?);
    }
    Ok(())
}
