//! Writes the recorded list to standard output, and its counts to standard error.

use std::io::{Write, stdout};

fn main() -> std::io::Result<()> {
    let recording = compare::record::make();
    let bytes = recording.bytes();
    eprintln!(
        "{} bytes, {} records: {:?} graphs and program runs; {:?} check, needed, prepare, complete; by number {:?}",
        bytes.len(),
        recording.records(),
        recording.kinds,
        recording.calls,
        recording.numbers
    );
    stdout().write_all(&bytes)
}
