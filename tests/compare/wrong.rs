//! What can be wrong beside the first call itself: with a pair of calls, with what is told or sent
//! on, or with what is kept of a run.

use super::compare::{choice, Difference, Given, ToldDifference};
use super::feeder::FeedDifference;
use super::generate::Call;
use super::random::Random;

/// Two calls and what the library gave in each.
pub struct Pair {
    pub first: Call,
    pub second: Call,
    pub given: [Given; 2],
}

pub enum Wrong {
    /// The two calls do not belong together as the words say.
    Pair(String, Box<Pair>),
    /// A further call that is needed differs from the reference.
    Call(Box<Call>, Box<Difference>),
    /// What is told of a candidate differs from the reference, or does not fit the choice.
    Told(Box<Call>, Box<ToldDifference>),
    /// What is sent on is not laid out in containers as it should be.
    Sent(&'static str, Box<Call>, Box<Given>),
    /// What is kept of a run that is fed in parts is not what should be.
    Feed(Box<FeedDifference>),
}

/// A further call, for a pair or for what is told.
pub fn run(random: &mut Random, call: &Call) -> Result<Given, Wrong> {
    choice(random, call).map_err(|difference| Wrong::Call(Box::new(call.clone()), difference))
}
