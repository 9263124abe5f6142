//! The calls of two archives held to each other, and the check with links in any
//! order to plain Rust. This program is built once with each archive, and the one
//! is given the other's file:
//!
//! - `instructions count [BEFORE]`: instructions a call, as valgrind's callgrind
//!   counts them, each graph of the benchmark once;
//! - `instructions time BEFORE [RUNS]`: nanoseconds a call, the two programs in
//!   turn, each so many times;
//! - `instructions order`: instructions of the check with links in any order, and
//!   of the same walks in plain Rust.

use std::env;
use std::hint::black_box;
use std::path::{Path, PathBuf};
use std::process::{Command, ExitCode};
use std::time::Instant;

use bench::inputs::{self, Input, SIZES};
use bench::plain;
use bench::sides::{Call, Ours};
use bench::word::Word;

/// A call of an edition on the graphs of one size.
struct Cell {
    call: Call,
    edition: usize,
    size: usize,
    loops: bool,
    links: Links,
}

#[derive(Clone, Copy, PartialEq, Eq)]
enum Links {
    Upward,
    InAnyOrder,
    /// The same for the check in plain Rust.
    Plain,
}

/// All calls of both editions on all graphs, in the order of every table; then
/// the check with links in any order, once proved and once plain.
fn cells() -> Vec<Cell> {
    let mut cells = Vec::new();
    for (edition, call) in [1, 2]
        .into_iter()
        .flat_map(|e| Call::ALL.map(|call| (e, call)))
    {
        for (size, loops) in SIZES.into_iter().flat_map(|s| [(s, false), (s, true)]) {
            let links = Links::Upward;
            cells.push(Cell {
                call,
                edition,
                size,
                loops,
                links,
            });
        }
    }
    for (edition, size) in [1, 2].into_iter().flat_map(|e| SIZES.map(|size| (e, size))) {
        for links in [Links::InAnyOrder, Links::Plain] {
            let (call, loops) = (Call::Check, false);
            cells.push(Cell {
                call,
                edition,
                size,
                loops,
                links,
            });
        }
    }
    cells
}

/// Those of the tables that need another archive.
fn upward() -> impl Iterator<Item = (usize, Cell)> {
    let numbered = cells().into_iter().enumerate();
    numbered.filter(|(_, cell)| cell.links == Links::Upward)
}

impl Cell {
    fn name(&self) -> String {
        let loops = if self.loops { "yes" } else { "no" };
        format!(
            "{} | {} | {} | {loops}",
            self.edition,
            self.call.name(),
            self.size
        )
    }

    fn input<W: Word + compare::calls::Word>(&self) -> Input<W> {
        let input = inputs::input(self.size, self.loops, None);
        match self.links {
            Links::Upward => input,
            Links::InAnyOrder | Links::Plain => inputs::any_order(&input),
        }
    }

    fn graphs(&self) -> usize {
        self.input::<u16>().graphs.len()
    }

    /// The call on each graph once, for callgrind.
    fn once(&self) {
        match self.edition {
            1 => self.once_on::<u16>(),
            _ => self.once_on::<u32>(),
        }
    }

    fn once_on<W: Word + compare::calls::Word>(&self) {
        let input = self.input::<W>();
        let mut ours = Ours::new(&input.graphs[0]);
        for graph in &input.graphs {
            match self.links {
                Links::Plain => assert!(the_plain_check(graph)),
                _ => drop(black_box(ours.run(self.call, graph))),
            }
        }
    }

    /// Nanoseconds a call on all graphs, the best of some turns.
    fn best(&self) -> f64 {
        match self.edition {
            1 => self.best_on::<u16>(),
            _ => self.best_on::<u32>(),
        }
    }

    fn best_on<W: Word + compare::calls::Word>(&self) -> f64 {
        let input = self.input::<W>();
        let mut ours = Ours::new(&input.graphs[0]);
        let turns = (0..40).map(|_| {
            let start = Instant::now();
            for graph in &input.graphs {
                drop(black_box(ours.run(self.call, black_box(graph))));
            }
            start.elapsed().as_nanos() as f64 / input.graphs.len() as f64
        });
        turns.fold(f64::INFINITY, f64::min)
    }

    /// The name that callgrind counts by.
    fn symbol(&self) -> String {
        if self.links == Links::Plain {
            return "*the_plain_check*".into();
        }
        let call = match self.call {
            Call::Check => "check",
            Call::LoopTest => "needed",
            Call::Preparation => "prepare",
            Call::Pass => "complete",
            Call::Unfounded => "unfounded",
        };
        let width = if self.edition == 1 { "" } else { "wide_" };
        format!("founded_{width}{call}")
    }
}

/// A function of its own, so that it can be counted.
#[inline(never)]
fn the_plain_check<W: Word>(graph: &[W]) -> bool {
    plain::check(black_box(graph)).is_ok()
}

/// What a command writes to either stream.
fn said(command: &mut Command) -> String {
    let done = command.output().expect("it runs");
    let text = [done.stdout, done.stderr].concat();
    let text = String::from_utf8(text).expect("text");
    assert!(done.status.success(), "{text}");
    text
}

/// Instructions a call, with all that it calls, by a program and the number of a cell.
fn counted(program: &Path, number: usize, cell: &Cell) -> f64 {
    let text = said(
        Command::new("valgrind")
            .args(["--tool=callgrind", "--callgrind-out-file=/dev/null"])
            .arg(format!("--toggle-collect={}", cell.symbol()))
            .arg(program)
            .args(["once", &number.to_string()]),
    );
    let mut lines = text.lines();
    let total = lines.find_map(|line| line.split_once("Collected :"));
    let total = total.expect("a count").1.trim();
    total.parse::<f64>().expect("a number") / cell.graphs() as f64
}

/// A row of counts; of two the ratio too.
fn row(cell: &Cell, counts: &[f64]) {
    let figures: Vec<String> = counts.iter().map(|count| format!("{count:.1}")).collect();
    let ratio = match counts[..] {
        [first, second] => format!(" {:.4} |", second / first),
        _ => String::new(),
    };
    println!("| {} | {} |{ratio}", cell.name(), figures.join(" | "));
}

fn count(programs: &[PathBuf]) {
    for (number, cell) in upward() {
        let counted = |program: &PathBuf| counted(program, number, &cell);
        row(&cell, &programs.iter().map(counted).collect::<Vec<f64>>());
    }
}

/// The check with links in any order: plain Rust, then ours.
fn order(program: &Path) {
    let cells = cells();
    let plain = |cell: &Cell| cell.links == Links::Plain;
    for number in (0..cells.len()).filter(|&number| plain(&cells[number])) {
        let counts = [number, number - 1].map(|number| counted(program, number, &cells[number]));
        row(&cells[number], &counts);
    }
}

fn median(mut values: Vec<f64>) -> f64 {
    values.sort_by(f64::total_cmp);
    (values[(values.len() - 1) / 2] + values[values.len() / 2]) / 2.0
}

fn time(programs: &[PathBuf], runs: usize) {
    // By program, run and cell.
    let mut times = vec![vec![]; programs.len()];
    for run in 0..runs {
        for turn in 0..programs.len() {
            let program = (run + turn) % programs.len();
            let text = said(Command::new(&programs[program]).arg("best"));
            let run: Vec<f64> = text.lines().map(|l| l.parse().expect("a time")).collect();
            times[program].push(run);
        }
    }
    for (number, cell) in upward() {
        let of = |program: &Vec<Vec<f64>>| program.iter().map(|run| run[number]).collect();
        let all: Vec<Vec<f64>> = times.iter().map(of).collect();
        let best = |all: &Vec<f64>| all.iter().copied().fold(f64::INFINITY, f64::min);
        let (bests, medians): (Vec<f64>, Vec<f64>) = all
            .iter()
            .map(|all| (best(all), median(all.clone())))
            .unzip();
        let shown =
            |[before, after]: [f64; 2]| format!("{before:.1} | {after:.1} | {:.3}", after / before);
        let [bests, medians] = [bests, medians].map(|pair| shown([pair[0], pair[1]]));
        println!("| {} | {bests} | {medians} |", cell.name());
    }
}

fn main() -> ExitCode {
    let words: Vec<String> = env::args().skip(1).collect();
    let own = env::current_exe().expect("this program's file");
    let words: Vec<&str> = words.iter().map(String::as_str).collect();
    match words[..] {
        ["count"] => {
            println!(
                "| edition | call | A = N = P | loops | instructions |\n|---|---|---|---|---|"
            );
            count(&[own]);
        }
        ["count", before] => {
            println!("| edition | call | A = N = P | loops | before | after | ratio |");
            println!("|---|---|---|---|---|---|---|");
            count(&[before.into(), own]);
        }
        ["time", before, ref runs @ ..] => {
            let runs = runs.first().map_or(Ok(10), |runs| runs.parse());
            println!(
                "| edition | call | A = N = P | loops | best before, ns | after | ratio | median before, ns | after | ratio |"
            );
            println!("|---|---|---|---|---|---|---|---|---|---|");
            time(&[before.into(), own], runs.expect("a count"));
        }
        ["order"] => {
            println!("| edition | call | A = N = P | loops | plain Rust | ours | ratio |");
            println!("|---|---|---|---|---|---|---|");
            order(&own);
        }
        ["once", number] => cells()[number.parse::<usize>().expect("a number")].once(),
        ["best"] => upward().for_each(|(_, cell)| println!("{}", cell.best())),
        _ => {
            eprintln!(
                "instructions count [BEFORE] | instructions time BEFORE [RUNS] | instructions order"
            );
            return ExitCode::from(2);
        }
    }
    ExitCode::SUCCESS
}
