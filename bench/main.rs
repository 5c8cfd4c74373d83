//! Runs one input of the benchmark through one implementation, so that bench/run can count what a call takes:
//! `bench IMPLEMENTATION INPUT SIZE CALLS`, or `bench stack IMPLEMENTATION INPUT SIZE` for the deepest stack of a call.

mod inputs;
#[path = "../tests/compare/library.rs"]
#[allow(dead_code)] // the listing is not measured
mod library;
#[path = "../tests/compare/reference/mod.rs"]
#[allow(dead_code, unused_imports)]
mod reference;
mod stack;

use inputs::Input;
use reference::data::{Answer, NO_PARENT};
use std::time::Instant;

/// A call of the library, under a name of its own for the profiler.
#[inline(never)]
#[no_mangle]
fn bench_library(input: &mut Input, out: &mut [u8]) -> Answer {
    library::choose(
        input.own,
        &input.candidates,
        input.count,
        &mut input.lent,
        out,
    )
}

/// A call of the independent implementation.
#[inline(never)]
#[no_mangle]
fn bench_reference(input: &mut Input, out: &mut [u8]) -> Answer {
    reference::choose(input.own, &input.candidates, input.count, &input.lent, out)
}

type Call = fn(&mut Input, &mut [u8]) -> Answer;

fn call_of(name: &str) -> Call {
    match name {
        "library" => bench_library,
        "reference" => bench_reference,
        _ => fail(&format!(
            "no implementation is called {name}: library or reference"
        )),
    }
}

fn fail(why: &str) -> ! {
    eprintln!("bench: {why}");
    std::process::exit(2)
}

fn input_of(name: &str, size: &str) -> Input {
    let size = size
        .parse()
        .unwrap_or_else(|_| fail("SIZE is a number of data bytes"));
    inputs::named(name, size).unwrap_or_else(|| fail(&format!("no input is called {name}")))
}

/// Calls so often, and prints nanoseconds a call; both implementations must give one answer, and the input be what it says.
fn run(call: Call, mut input: Input, calls: u32) {
    let (mut mine, mut other) = ([0xEE; 2056], [0xEE; 2056]);
    let answer = bench_library(&mut input, &mut mine);
    if answer != bench_reference(&mut input, &mut other) || mine != other {
        fail("the two implementations differ on this input");
    }
    let parent = if input.unbarred == 0 { NO_PARENT } else { 0 };
    if answer.count != input.unbarred
        || answer.parent != parent
        || (answer.size == 0) != (parent == NO_PARENT)
    {
        fail("this input is not what bench/inputs.rs says");
    }
    let began = Instant::now();
    for _ in 0..calls {
        std::hint::black_box(call(&mut input, &mut mine));
    }
    println!(
        "{:.0}",
        began.elapsed().as_nanos() as f64 / f64::from(calls)
    );
}

fn main() {
    let words: Vec<String> = std::env::args().skip(1).collect();
    match words
        .iter()
        .map(String::as_str)
        .collect::<Vec<_>>()
        .as_slice()
    {
        ["stack", implementation, input, size] => println!(
            "{}",
            stack::deepest(call_of(implementation), input_of(input, size))
        ),
        [implementation, input, size, calls] => run(
            call_of(implementation),
            input_of(input, size),
            calls.parse().unwrap_or_else(|_| fail("CALLS is a number")),
        ),
        _ => fail(
            "usage: bench IMPLEMENTATION INPUT SIZE CALLS | bench stack IMPLEMENTATION INPUT SIZE",
        ),
    }
}
