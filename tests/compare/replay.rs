//! A difference is printed so that it can be replayed by a command, or by hand.

use super::compare::{Difference, Given, ListingDifference, ToldDifference};
use super::feeder::FeedDifference;
use super::generate::Call;
use super::wrong::{Pair, Wrong};

/// Which call of which seed is tried, and the name that the program was started by.
pub struct Place {
    pub program: String,
    pub seed: u64,
    pub call: u64,
}

impl Place {
    fn print(&self, what: &str) {
        println!();
        println!("call {} of seed {}: {what}", self.call, self.seed);
        let Place {
            program,
            seed,
            call,
        } = self;
        println!("repeat: {program} --seed {seed} --from {call} --count 1");
    }

    pub fn choice(&self, call: &Call, difference: &Difference) {
        self.print(&difference.what);
        print_call(call);
        print_given("expected", &difference.expected);
        print_given("given", &difference.given);
    }

    pub fn listing(&self, difference: &ListingDifference) {
        self.print(difference.what);
        println!("container: {}", hex(&difference.container));
        println!("room: {}", difference.given.out.len());
        for (name, listed) in [
            ("expected", &difference.expected),
            ("given", &difference.given),
        ] {
            println!("{name}: size {}, text:", listed.size);
            print!("{}", listed.text());
            println!("{name} output: {}", hex(&listed.out));
        }
    }

    pub fn wrong(&self, wrong: &Wrong) {
        match wrong {
            Wrong::Call(call, difference) => {
                self.choice(call, difference);
                println!("(a further call, made for a pair or for what is told)");
            }
            Wrong::Told(call, difference) => self.told(call, difference),
            Wrong::Pair(what, pair) => self.both(what, pair),
            Wrong::Sent(what, call, given) => {
                self.print(what);
                print_call(call);
                print_given("given", given);
            }
            Wrong::Feed(difference) => self.feed(difference),
        }
    }

    fn told(&self, call: &Call, difference: &ToldDifference) {
        self.print(difference.what);
        print_call(call);
        println!("position: {}", difference.position);
        println!("expected: {}", difference.expected);
        println!("given: {}", difference.given);
    }

    fn feed(&self, difference: &FeedDifference) {
        self.print(difference.what);
        println!("fed, the last part too: {}", hex(&difference.fed));
        println!("sizes of the parts: {:?}", difference.parts);
        println!("state before the last part: {:?}", difference.before);
        println!("state after it: {:?}", difference.after);
        println!("expected to be kept: {}", hex(&difference.expected));
        let kept = &difference.kept;
        println!("buffer, {} bytes: {}", kept.len(), hex(kept));
    }

    fn both(&self, what: &str, pair: &Pair) {
        self.print(what);
        println!("the first call:");
        print_call(&pair.first);
        print_given("given", &pair.given[0]);
        println!("the second call:");
        print_call(&pair.second);
        print_given("given", &pair.given[1]);
    }
}

fn print_call(call: &Call) {
    println!("{:?}", call.own);
    println!("count: {}", call.count);
    for (index, candidate) in call.candidates.iter().enumerate() {
        let past = if index < call.count {
            ""
        } else {
            " (past the count)"
        };
        println!("candidate {index}{past}: {:?}", candidate.neighbour);
        let (start, size) = (candidate.start, candidate.size);
        let run = match call.run(candidate) {
            Some(run) => hex(run),
            None => "not inside".to_string(),
        };
        println!("  start {start}, size {size}: {run}");
    }
    println!("lent, {} bytes: {}", call.lent.len(), hex(&call.lent));
    println!(
        "output before, {} bytes: {}",
        call.out.len(),
        hex(&call.out)
    );
}

fn print_given(name: &str, given: &Given) {
    println!("{name}: {:?}", given.answer);
    println!("{name} output: {}", hex(&given.out));
}

fn hex(bytes: &[u8]) -> String {
    let pairs: Vec<String> = bytes.iter().map(|byte| format!("{byte:02X}")).collect();
    pairs.join(" ")
}
