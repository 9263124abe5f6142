//! Tables in Markdown, and the bars.

use std::fmt::Write as _;

use crate::branches::Searched;
use crate::caches::Cache;
use crate::inputs::WIDE_WORDS;
use crate::measure::{CHECK, EDITION_1, Measured, NUMBERINGS, PASS, PLAIN, THEORY};
use crate::sides::{Before, Call};

fn thousands(number: usize) -> String {
    if number < 1_000 {
        return number.to_string();
    }
    format!("{},{:03}", number / 1_000, number % 1_000)
}

/// Times, and ratios to one of the others: a row for each input, two columns for
/// each call.
pub fn times(measured: &[Measured], other: usize) -> String {
    let mut table = String::from("| A = N = P | loops |");
    for call in Call::ALL {
        let _ = write!(table, " {}, µs | ratio |", call.name());
    }
    rows(table, measured, |cell| {
        let micros = cell.ours / 1_000.0;
        format!(" {micros:.2} | {} |", spread(cell.others[other].ratios))
    })
}

/// The check with links in any order, by edition: a row for each size.
pub fn any_order(editions: &[(usize, Vec<Measured>)]) -> String {
    let mut table =
        String::from("| edition | A = N = P | check, µs | ratio |\n|---|---|---|---|\n");
    for (edition, measured) in editions {
        for cell in measured {
            let (size, micros) = (thousands(cell.size), cell.ours / 1_000.0);
            let ratio = spread(cell.others[PLAIN].ratios);
            let _ = writeln!(table, "| {edition} | {size} | {micros:.2} | {ratio} |");
        }
    }
    table
}

/// The pass with every atom marked, by the pass: a row for each input.
pub fn unfounded(measured: &[Measured]) -> String {
    let mut table =
        String::from("| A = N = P | loops | unfounded, µs | by the pass |\n|---|---|---|---|\n");
    for cell in measured {
        let loops = if cell.loops { "yes" } else { "no" };
        let (size, micros) = (thousands(cell.size), cell.ours / 1_000.0);
        let ratio = spread(cell.others[PASS].ratios);
        let _ = writeln!(table, "| {size} | {loops} | {micros:.2} | {ratio} |");
    }
    table
}

/// The comparison of equal graphs, by how their links are numbered: a row for each size.
pub fn pairs(each: &[Vec<Measured>; 3]) -> String {
    let mut table = String::from("| A = N = P |");
    for numbering in NUMBERINGS {
        let _ = write!(table, " {numbering}, µs | checks |");
    }
    let columns = table.matches('|').count() - 1;
    table += &format!("\n|{}\n", "---|".repeat(columns));
    for (row, cell) in each[0].iter().enumerate() {
        let _ = write!(table, "| {} |", thousands(cell.size));
        for measured in each {
            let cell = &measured[row];
            let (micros, ratio) = (cell.ours / 1_000.0, spread(cell.others[CHECK].ratios));
            let _ = write!(table, " {micros:.2} | {ratio} |");
        }
        table.push('\n');
    }
    table
}

/// Ratios by what of the Rust is made before the call: two columns for each call.
pub fn befores(measured: &[Measured]) -> String {
    let mut table = String::from("| A = N = P | loops |");
    for call in Call::ALL.into_iter().filter(|&call| call != Call::Check) {
        let _ = write!(table, " {0}, from words | {0}, from lists |", call.name());
    }
    rows(table, measured, |cell| match cell.call {
        Call::Check => String::new(),
        _ => [Before::Words, Before::Lists]
            .map(|before| format!(" {} |", spread(cell.others[before as usize].ratios)))
            .concat(),
    })
}

/// The median, and the quartiles.
fn spread([low, middle, high]: [f64; 3]) -> String {
    format!("{middle:.2} ({low:.2} to {high:.2})")
}

/// Nanoseconds a vertex and edge: a row for each input, two columns for each call.
pub fn parts(measured: &[Measured]) -> String {
    let mut table = String::from("| A = N = P | loops |");
    for call in Call::ALL {
        let _ = write!(table, " {}, ns | the Rust, ns |", call.name());
    }
    rows(table, measured, |cell| {
        let [ours, theirs] = [cell.ours, cell.others[THEORY].best].map(|time| time / cell.parts);
        format!(" {ours:.1} | {theirs:.1} |")
    })
}

/// The rows under a first line, in the order measured.
fn rows(first: String, measured: &[Measured], cells: impl Fn(&Measured) -> String) -> String {
    let columns = first.matches('|').count() - 1;
    let mut table = first + "\n|" + &"---|".repeat(columns) + "\n";
    for row in measured.chunks(Call::ALL.len()) {
        let loops = if row[0].loops { "yes" } else { "no" };
        let _ = write!(table, "| {} | {loops} |", thousands(row[0].size));
        table.extend(row.iter().map(&cells));
        table.push('\n');
    }
    table
}

/// A figure held to a bar.
pub struct Bar {
    pub what: String,
    pub figure: f64,
    pub most: f64,
}

impl Bar {
    pub fn holds(&self) -> bool {
        self.figure <= self.most
    }
}

/// Edition 1: the loop test is at most as slow as the Rust, the pass takes at most 0.8 of
/// its time, the check at the largest graph at most 1.5 times plain Rust's; and
/// time a vertex and edge of the loop test and of the pass hardly grows with the graph.
pub fn bars(measured: &[Measured]) -> Vec<Bar> {
    let mut bars = Vec::new();
    let largest = measured.iter().map(|cell| cell.size).max();
    for cell in measured {
        let most = match cell.call {
            Call::LoopTest => 1.0,
            Call::Pass => 0.8,
            Call::Check if Some(cell.size) == largest => 1.5,
            _ => continue,
        };
        bars.push(Bar {
            what: format!("{}: ratio", name(cell)),
            figure: cell.others[THEORY].ratios[1],
            most,
        });
    }
    let grown = [Call::LoopTest, Call::Pass];
    for (call, loops) in grown
        .into_iter()
        .flat_map(|call| [(call, false), (call, true)])
    {
        let of = |size: usize| {
            measured
                .iter()
                .find(|cell| (cell.size, cell.loops, cell.call) == (size, loops, call))
        };
        if let (Some(small), Some(large)) = (of(64), of(1_024)) {
            bars.push(Bar {
                what: format!("{}: time a vertex and edge by that at 64", name(large)),
                figure: (large.ours / large.parts) / (small.ours / small.parts),
                most: 1.5,
            });
        }
    }
    bars
}

/// The pass within an allowance by the pass: a row for each input.
pub fn within(measured: &[Measured]) -> String {
    let mut table =
        String::from("| A = N = P | loops | µs | the pass, µs | ratio |\n|---|---|---|---|---|\n");
    for cell in measured {
        let other = &cell.others[PASS];
        let [ours, pass] = [cell.ours, other.best].map(|time| time / 1_000.0);
        let loops = if cell.loops { "yes" } else { "no" };
        let _ = writeln!(
            table,
            "| {} | {loops} | {ours:.1} | {pass:.1} | {} |",
            thousands(cell.size),
            spread(other.ratios)
        );
    }
    table
}

/// It takes at most 1.15 times as long.
pub fn within_bars(measured: &[Measured]) -> Vec<Bar> {
    let bars = measured.iter().map(|cell| Bar {
        what: format!("{} within an allowance: by the pass", name(cell)),
        figure: cell.others[PASS].ratios[1],
        most: 1.15,
    });
    bars.collect()
}

/// Edition 2 by edition 1: every call on the largest graph takes at most 1.3
/// times as long.
pub fn edition_bars(measured: &[Measured]) -> Vec<Bar> {
    let largest = measured.iter().map(|cell| cell.size).max();
    let held = measured.iter().filter(|cell| Some(cell.size) == largest);
    held.map(|cell| Bar {
        what: format!("{}: edition 2 by edition 1", name(cell)),
        figure: cell.others[EDITION_1].ratios[1],
        most: 1.3,
    })
    .collect()
}

/// The pass with every atom marked takes at most 0.8 of the pass's time on the
/// largest graphs of edition 1.
pub fn unfounded_bars(measured: &[Measured]) -> Vec<Bar> {
    let largest = measured.iter().filter(|cell| cell.size == 1_024);
    largest
        .map(|cell| Bar {
            what: format!("{}: by the pass", name(cell)),
            figure: cell.others[PASS].ratios[1],
            most: 0.8,
        })
        .collect()
}

/// The check with links in any order, by edition: from 1,024 atoms on it takes at
/// most 1.5 times plain Rust's time.
pub fn any_order_bars(editions: &[(usize, Vec<Measured>)]) -> Vec<Bar> {
    let mut bars = Vec::new();
    for (edition, measured) in editions {
        let large = measured.iter().filter(|cell| cell.size >= 1_024);
        bars.extend(large.map(|cell| Bar {
            what: format!(
                "check of edition {edition} at {}, links in any order: ratio",
                thousands(cell.size)
            ),
            figure: cell.others[PLAIN].ratios[1],
            most: 1.5,
        }));
    }
    bars
}

/// The comparison of two equal graphs of the largest size takes at most 2.5 times the
/// time of one check.
pub fn pair_bars(each: &[Vec<Measured>; 3]) -> Vec<Bar> {
    let mut bars = Vec::new();
    for (numbering, measured) in NUMBERINGS.into_iter().zip(each) {
        let large = measured.iter().filter(|cell| cell.size >= 1_024);
        bars.extend(large.map(|cell| Bar {
            what: format!(
                "equal graphs at {}, {numbering}: checks",
                thousands(cell.size)
            ),
            figure: cell.others[CHECK].ratios[1],
            most: 2.5,
        }));
    }
    bars
}

/// Edition 2 alone: the pass takes at most 0.7 of the Rust's time at every size,
/// and time a vertex and edge of a call is the same at all sizes, within a
/// factor of 4.
pub fn scale_bars(measured: &[Measured]) -> Vec<Bar> {
    let mut bars = Vec::new();
    for cell in measured.iter().filter(|cell| cell.call == Call::Pass) {
        bars.push(Bar {
            what: format!("wide {}: ratio", name(cell)),
            figure: cell.others[THEORY].ratios[1],
            most: 0.7,
        });
    }
    for (call, loops) in Call::ALL
        .into_iter()
        .flat_map(|call| [(call, false), (call, true)])
    {
        let of = measured
            .iter()
            .filter(|cell| (cell.call, cell.loops) == (call, loops));
        let times: Vec<f64> = of.map(|cell| cell.ours / cell.parts).collect();
        let low = times.iter().copied().fold(f64::INFINITY, f64::min);
        let high = times.iter().copied().fold(0.0, f64::max);
        bars.push(Bar {
            what: format!(
                "wide {} {} loops: most time a vertex and edge by least",
                call.name(),
                with(loops)
            ),
            figure: high / low,
            most: 4.0,
        });
    }
    bars
}

/// Search branches: a row for each input and share of cuts.
pub fn branches(measured: &[Searched]) -> String {
    let mut table = String::from(
        "| A = N = P | loops | cuts, % | lone pass, µs | 1 pair by it | 2 pairs by it | later pair, µs | by a lone pass \
         | the Rust's, µs | later pair by it | 64 pairs by 64 lone calls |\n|",
    );
    table += &("---|".repeat(11) + "\n");
    for cell in measured {
        let (size, loops) = (thousands(cell.size), if cell.loops { "yes" } else { "no" });
        let [lone, later, theirs] =
            [cell.lone, cell.later, cell.theirs].map(|nanos| format!("{:.2}", nanos / 1_000.0));
        let [one, two, all] = [cell.one, cell.two, cell.all].map(spread);
        let [by_lone, by_theirs] = [cell.by_lone, cell.by_theirs].map(finer);
        let _ = writeln!(
            table,
            "| {size} | {loops} | {} | {lone} | {one} | {two} | {later} | {by_lone} | {theirs} | {by_theirs} | {all} |",
            cell.cuts
        );
    }
    table
}

/// As `spread`, with a figure more.
fn finer([low, middle, high]: [f64; 3]) -> String {
    format!("{middle:.3} ({low:.3} to {high:.3})")
}

/// A pair after the second takes at most a fifth of a lone pass, without loops a
/// twentieth, and with loops at most 0.7 of the original's; 64 pairs take at most a
/// quarter of 64 lone calls.
pub fn branch_bars(measured: &[Searched]) -> Vec<Bar> {
    let mut bars = Vec::new();
    for cell in measured {
        let mut bar = |what: &str, [_, figure, _]: [f64; 3], most: f64| {
            let (size, with) = (thousands(cell.size), with(cell.loops));
            bars.push(Bar {
                what: format!("branch at {size} {with} loops, {} % cut: {what}", cell.cuts),
                figure,
                most,
            });
        };
        let most = if cell.loops { 0.2 } else { 0.05 };
        bar("later pair by lone pass", cell.by_lone, most);
        if cell.loops {
            bar("later pair by the original's", cell.by_theirs, 0.7);
        }
        bar("64 pairs by 64 lone calls", cell.all, 0.25);
    }
    bars
}

/// The atoms at which graph and work area of a wide call are as large as a cache.
pub fn filled(cache: Cache) -> f64 {
    cache.bytes as f64 / (WIDE_WORDS * size_of::<u32>()) as f64
}

/// Where the caches end.
pub fn caches(caches: &[Cache]) -> String {
    let mut lines = String::new();
    for &cache in caches {
        let (kibi, atoms) = (cache.bytes / 1_024, filled(cache) as usize);
        let _ = writeln!(
            lines,
            "graph and work area are as large as L{} ({} KiB) at {} atoms",
            cache.level,
            thousands(kibi),
            thousands(atoms)
        );
    }
    lines
}

fn with(loops: bool) -> &'static str {
    if loops { "with" } else { "without" }
}

fn name(cell: &Measured) -> String {
    let with = with(cell.loops);
    let (call, size) = (cell.call.name(), thousands(cell.size));
    format!("{call} at {size} {with} loops")
}
