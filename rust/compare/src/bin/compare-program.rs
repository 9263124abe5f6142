//! The program against the papers: `compare-program PROGRAM SEED COUNT`.
//!
//! Runs PROGRAM, which is `founded_support` as `rt run` builds it, over the
//! inputs of `compare::programs`, and holds what it prints to `paper`'s text. Its
//! status must be 0, its standard error empty and its input read to the end.
//! `compare-program` prints what was run, and ends with 1 at the first difference.

use std::process::{Command, ExitCode};
use std::time::Duration;

use compare::programs::{compare, process};

/// No run takes a second.
const LIMIT: Duration = Duration::from_secs(60);

fn main() -> ExitCode {
    let words: Vec<String> = std::env::args().skip(1).collect();
    let [program, seed, count] = &words[..] else {
        eprintln!("compare-program PROGRAM SEED COUNT");
        return ExitCode::from(2);
    };
    let (Ok(seed), Ok(count)) = (seed.parse(), count.parse()) else {
        eprintln!("SEED and COUNT are numbers");
        return ExitCode::from(2);
    };
    match compare(seed, count, |pieces| {
        process(&mut Command::new(program), LIMIT, pieces)
    }) {
        Ok(tally) => {
            println!("{tally}\nno difference");
            ExitCode::SUCCESS
        }
        Err(difference) => {
            println!("DIFFERENCE {difference}");
            ExitCode::FAILURE
        }
    }
}
