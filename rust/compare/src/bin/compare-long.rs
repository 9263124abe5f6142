//! The long comparison: `compare-long SEED COUNT`.
//!
//! Compares the limits, every tiny content and pattern, COUNT random graphs, a
//! quarter as many under other numberings of their links, as many with masks of
//! all lengths and as many damaged copies, and search branches of a twentieth, in
//! the original, in the papers' reading and through the archive, each
//! in edition 1 and laid out in edition 2;
//! then the limits of edition 2, as many copies damaged in its own words, and
//! random graphs above edition 1's limits, one of the largest for each 100,000 of
//! COUNT; request 7's relations on a quarter as many; and as many pairs of graphs
//! by the order of request 14. It prints what it compared, and ends with 1 at the
//! first difference.

use std::collections::BTreeMap;
use std::process::ExitCode;
use std::time::Instant;

use compare::agree::{Difference, Tally};
use compare::calls::Word;
use compare::pairs;
use compare::random::WIDE_SCALES;
use compare::runs::{self, Compared};

/// Random graphs between two lines of the log.
const STEP: u64 = 100_000;

fn main() -> ExitCode {
    let numbers: Vec<u64> = std::env::args()
        .skip(1)
        .filter_map(|word| word.parse().ok())
        .collect();
    let [seed, count] = numbers[..] else {
        eprintln!("compare-long SEED COUNT");
        return ExitCode::from(2);
    };
    println!("seed {seed}, {count} random graphs");
    match all(seed, count) {
        Ok(families) => {
            for (edition, at) in [(1, 0), (2, 1)] {
                let mut total = Tally::default();
                for (family, tallies) in &families {
                    total.add(&tallies[at]);
                    println!("edition {edition}, {family}: {:?}", tallies[at]);
                }
                println!("edition {edition}, total: {total:?}");
            }
            println!("no difference");
            ExitCode::SUCCESS
        }
        Err(difference) => {
            println!("DIFFERENCE {difference:?}");
            ExitCode::FAILURE
        }
    }
}

type Families = BTreeMap<String, [Tally; 2]>;

fn all(seed: u64, count: u64) -> Result<Families, Box<Difference>> {
    let start = Instant::now();
    let mut families = Families::new();
    let mut say = |what: String, compared: Compared| {
        let tallies = compared?;
        let family = what.split(' ').next().unwrap_or_default();
        let sums = families.entry(family.into()).or_default();
        println!("[{:.0?}] {what}", start.elapsed());
        for ((edition, sum), tally) in (1..).zip(sums).zip(&tallies) {
            sum.add(tally);
            if *tally != Tally::default() {
                println!("  edition {edition}: {tally:?}");
            }
        }
        Ok::<(), Box<Difference>>(())
    };
    say("limits".into(), runs::limits(seed))?;
    say("wide-limits".into(), runs::wide_limits(seed, 6))?;
    for counts in runs::tiny_counts(&runs::LONG_PATTERNS) {
        say(format!("patterns {counts:?}"), runs::patterns(counts))?;
    }
    for sizes in runs::tiny_sizes(&runs::LONG_CONTENTS) {
        say(format!("contents {sizes:?}"), runs::contents(sizes))?;
    }
    let spans = |count: u64| {
        (0..count)
            .step_by(STEP as usize)
            .map(move |i| (i, count.min(i + STEP)))
    };
    for (from, to) in spans(count) {
        say(format!("random {from}..{to}"), runs::graphs(seed, from, to))?;
        for (scale, graphs) in WIDE_SCALES.into_iter().zip([100, 20, 4, 1]) {
            let (from, to) = (from / STEP * graphs, to.div_ceil(STEP) * graphs);
            say(
                format!("wide-random {} {from}..{to}", scale.atoms),
                runs::wide_graphs(seed, scale, from, to),
            )?;
        }
    }
    for (from, to) in spans(count / 4) {
        say(
            format!("renumbered {from}..{to}"),
            runs::renumbered(seed, from, to),
        )?;
        say(format!("short {from}..{to}"), runs::short(seed, from, to))?;
        say(
            format!("damaged {from}..{to}"),
            runs::damaged(seed, from, to),
        )?;
        say(
            format!("wide-damaged {from}..{to}"),
            runs::wide_damaged(seed, from, to),
        )?;
    }
    for (from, to) in spans(count / 20) {
        say(
            format!("searched {from}..{to}"),
            runs::searched(seed, from, to),
        )?;
    }
    say("wide-limits widest".into(), runs::widest())?;
    for (from, to) in spans(count / 4) {
        let held = runs::recut(u16::ARCHIVE, seed, from, to)?;
        println!("[{:.0?}] recut {from}..{to}: {held:?}", start.elapsed());
    }
    let mut tally = pairs::contents(&pairs::LONG_CONTENTS, pairs::ARCHIVE)?;
    for counts in [[1, 1, 1, 2], [0, 2, 0, 2], [1, 0, 2, 2]] {
        tally.add(&pairs::patterns(counts, pairs::ARCHIVE)?);
    }
    println!("[{:.0?}] pairs of tiny graphs: {tally:?}", start.elapsed());
    for (from, to) in spans(count / 4) {
        tally.add(&pairs::graphs(seed, from, to, pairs::ARCHIVE)?);
        println!("[{:.0?}] pairs up to {to}: {tally:?}", start.elapsed());
    }
    Ok(families)
}
