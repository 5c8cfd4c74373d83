//! Compares the proved static library with a second implementation on random calls, in what is kept
//! of their runs when these are fed in parts, and in what is told of their candidates; and tries on
//! pairs of the library's calls demand 3, what edition 1 does not read, and runs fed in parts.

mod arguments;
mod calls;
mod colours;
mod compare;
mod cut;
mod editions;
mod examine;
mod examples;
mod feeder;
mod feeding;
mod feedings;
mod findings;
mod first_edition;
mod generate;
mod guarded;
mod library;
mod limits;
mod options;
mod pair_counts;
mod pairs;
mod random;
mod ranges;
mod reasons;
mod reference;
mod replay;
mod report;
mod runs;
mod sent;
mod sentences;
mod states;
mod why;
mod wrong;

use arguments::{Arguments, Wanted};
use std::process::ExitCode;

fn main() -> ExitCode {
    let arguments = match Arguments::read(std::env::args()) {
        Ok(Wanted::Run(arguments)) => arguments,
        Ok(Wanted::Usage) => {
            println!("{}", arguments::USAGE);
            return ExitCode::SUCCESS;
        }
        Err(message) => {
            eprintln!("{message}\n{}", arguments::USAGE);
            return ExitCode::from(2);
        }
    };
    let failed = examples::failed();
    for line in &failed {
        println!("example: {line}");
    }
    if !failed.is_empty() {
        return ExitCode::FAILURE;
    }
    println!("the examples hold of the library and of the second implementation");
    if arguments.examples_only || calls::run(&arguments) {
        ExitCode::SUCCESS
    } else {
        ExitCode::FAILURE
    }
}
