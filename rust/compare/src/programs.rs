//! A program held to the papers' text, over many inputs.
//!
//! How it is run is the caller's: `compare-program` starts a process, and a test
//! may put any function in its place.

mod inputs;
mod process;

use std::fmt;
use std::io;

pub use inputs::{Input, MOST, all};
pub use process::process;

use crate::ours::NUMBERS;

/// The seed and the count that the gate's run has.
pub const SEED: u64 = 20_261_117;
pub const COUNT: u64 = 300;

/// What a run left behind.
#[derive(Clone, Debug, PartialEq, Eq)]
pub struct Ended {
    pub printed: Vec<u8>,
    /// What it wrote to standard error.
    pub errors: Vec<u8>,
    /// None if a signal ended it.
    pub status: Option<i32>,
    /// Whether its input could be handed over whole.
    pub read: bool,
}

impl Ended {
    /// It printed this, and all else was as it should be.
    pub fn printing(printed: Vec<u8>) -> Self {
        Self {
            printed,
            errors: vec![],
            status: Some(0),
            read: true,
        }
    }
}

/// What was run.
#[derive(Clone, Copy, Debug, Default, PartialEq, Eq)]
pub struct Tally {
    pub runs: u64,
    /// Runs turned away, by number.
    pub refused: [u64; NUMBERS],
    pub with_missing: u64,
    /// Runs whose input came in several pieces.
    pub slow: u64,
    /// Runs with an input longer than any that is not refused.
    pub long: u64,
}

impl fmt::Display for Tally {
    fn fmt(&self, f: &mut fmt::Formatter<'_>) -> fmt::Result {
        let Self {
            runs,
            refused,
            with_missing,
            slow,
            long,
        } = self;
        let all: u64 = refused.iter().sum();
        write!(
            f,
            "{runs} runs: {all} refused, {with_missing} with missing atoms; "
        )?;
        writeln!(f, "{slow} fed slowly, {long} with more than {MOST} bytes")?;
        write!(f, "refused, by number:")?;
        for (number, count) in refused.iter().enumerate().filter(|(_, count)| **count > 0) {
            write!(f, " {number}: {count}")?;
        }
        Ok(())
    }
}

/// The first run that was not as the papers have it.
#[derive(Clone, Debug)]
pub struct Difference {
    /// Which run it was, from 1.
    pub run: u64,
    pub input: Input,
    pub what: String,
}

impl fmt::Display for Difference {
    fn fmt(&self, f: &mut fmt::Formatter<'_>) -> fmt::Result {
        write!(f, "in run {}, {}\n{}", self.run, self.input, self.what)
    }
}

/// Run the program over all inputs, up to the first difference. The program is
/// handed the pieces that its input comes in.
///
/// # Errors
/// The first run that did not print the papers' text, or not that alone.
pub fn compare(
    seed: u64,
    count: u64,
    mut program: impl FnMut(&[&[u8]]) -> io::Result<Ended>,
) -> Result<Tally, Box<Difference>> {
    let mut tally = Tally::default();
    for input in all(seed, count) {
        tally.runs += 1;
        let wanted = paper::program::run(&input.bytes);
        let fault = match program(&input.pieces()) {
            Ok(ended) => fault(&paper::program::text(&wanted), &ended),
            Err(error) => Some(format!("it was not run to its end: {error}")),
        };
        if let Some(what) = fault {
            let run = tally.runs;
            return Err(Box::new(Difference { run, input, what }));
        }
        match wanted {
            Ok(report) => tally.with_missing += u64::from(!report.missing.is_empty()),
            Err(refusal) => tally.refused[usize::from(refusal.number)] += 1,
        }
        tally.slow += u64::from(input.is_slow());
        tally.long += u64::from(input.bytes.len() > MOST);
    }
    Ok(tally)
}

fn fault(wanted: &[u8], ended: &Ended) -> Option<String> {
    if ended.printed != wanted {
        let (printed, wanted) = (short_text(&ended.printed), short_text(wanted));
        return Some(format!("printed {printed}\nwanted {wanted}"));
    }
    if ended.status != Some(0) {
        return Some(match ended.status {
            Some(status) => format!("it ended with {status}"),
            None => "a signal ended it".into(),
        });
    }
    if !ended.errors.is_empty() {
        let errors = short_text(&ended.errors);
        return Some(format!("on standard error: {errors}"));
    }
    (!ended.read).then(|| "it did not read its input to the end".into())
}

/// A text, or how it begins and ends.
fn short_text(text: &[u8]) -> String {
    const SHOWN: usize = 60;
    let quoted = |part: &[u8]| format!("{:?}", String::from_utf8_lossy(part));
    if text.len() <= 2 * SHOWN {
        return quoted(text);
    }
    let (start, end) = (&text[..SHOWN], &text[text.len() - SHOWN..]);
    format!("{} … {} ({} bytes)", quoted(start), quoted(end), text.len())
}
