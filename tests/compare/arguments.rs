//! The program's arguments.

use std::env::Args;

pub const USAGE: &str = "usage: compare [--seed S] [--count N] [--from K] | --examples | --help
  tries document 01's examples, then N calls of seed S, the first of them number K
  (S = 6551, N = 200000, K = 0 unless given); --examples tries the examples alone
  every run of a call is also fed in parts, and the call made on what is kept
  one call in four is also asked for the reason at each position, and for each finding
  from 150000 calls on, every number and sort of run, limit, colour, edition, feeding, reason, finding
  and pair is to be there often enough
exit status: 0 all agrees; 1 a difference, or something there too seldom; 2 bad arguments";

pub struct Arguments {
    pub program: String,
    pub seed: u64,
    pub count: u64,
    pub from: u64,
    pub examples_only: bool,
}

pub enum Wanted {
    Run(Arguments),
    Usage,
}

impl Arguments {
    pub fn read(mut words: Args) -> Result<Wanted, String> {
        let mut arguments = Arguments {
            program: words.next().unwrap_or_else(|| "compare".to_string()),
            seed: 6551,
            count: 200_000,
            from: 0,
            examples_only: false,
        };
        while let Some(word) = words.next() {
            match word.as_str() {
                "--seed" => arguments.seed = number(&word, words.next())?,
                "--count" => arguments.count = number(&word, words.next())?,
                "--from" => arguments.from = number(&word, words.next())?,
                "--examples" => arguments.examples_only = true,
                "--help" => return Ok(Wanted::Usage),
                _ => return Err(format!("compare: no such argument: {word}")),
            }
        }
        if arguments.from.checked_add(arguments.count).is_none() {
            return Err("compare: --from and --count pass 64 bits".to_string());
        }
        Ok(Wanted::Run(arguments))
    }
}

fn number(name: &str, value: Option<String>) -> Result<u64, String> {
    let value = value.ok_or(format!("compare: {name} needs a number"))?;
    value
        .parse()
        .map_err(|_| format!("compare: {name} needs a number below 2^64, not '{value}'"))
}
