//! The call on undecided bits against the lone pass, on graphs of edition 1: a
//! round times both on every graph, one after the other.

use std::fmt::Write as _;
use std::hint::black_box;
use std::time::{Duration, Instant};

use compare::rng::Rng;

use crate::inputs::{self, Input, SIZES};
use crate::report::Bar;

/// One size, with or without loops.
pub struct Row {
    size: usize,
    loops: bool,
    /// The best round, in nanoseconds a call.
    pass: f64,
    undecided: f64,
    /// The call's time by the pass's, of each round: the median.
    ratio: f64,
}

/// The memory lent to both, used again and again.
struct Lent {
    clear: Vec<u64>,
    open: Vec<u64>,
    outputs: [Vec<u64>; 2],
    work: Vec<u16>,
}

impl Lent {
    /// One bit in eight is undecided.
    fn new(size: usize) -> Self {
        let words = size.div_ceil(64);
        let mut rng = Rng::new(size as u64);
        let eighth = |rng: &mut Rng| rng.word() & rng.word() & rng.word();
        Self {
            clear: vec![0; words],
            open: (0..words).map(|_| eighth(&mut rng)).collect(),
            outputs: [vec![0; words], vec![0; words]],
            work: vec![0; founded::WORK_WORDS],
        }
    }

    fn pass(&mut self, graph: &[u16]) {
        let (clear, output) = (&self.clear, &mut self.outputs[0]);
        founded::complete(graph, clear, clear, output, &mut self.work).expect("accepted");
    }

    fn undecided(&mut self, graph: &[u16]) {
        let [always, sometimes] = &mut self.outputs;
        let (clear, open) = (&self.clear, &self.open);
        founded::undecided(
            graph,
            clear,
            clear,
            open,
            open,
            always,
            sometimes,
            &mut self.work,
        )
        .expect("accepted");
    }
}

fn time(graphs: &[Vec<u16>], mut run: impl FnMut(&[u16])) -> f64 {
    let mut total = Duration::ZERO;
    for graph in graphs {
        let graph = black_box(graph);
        let start = Instant::now();
        run(graph);
        total += start.elapsed();
    }
    total.as_nanos() as f64 / graphs.len() as f64
}

fn row(input: &Input<u16>, rounds: usize) -> Row {
    let mut lent = Lent::new(input.size);
    let (mut best, mut ratios) = ([f64::INFINITY; 2], Vec::new());
    for _ in 0..rounds {
        let pass = time(&input.graphs, |graph| lent.pass(graph));
        let undecided = time(&input.graphs, |graph| lent.undecided(graph));
        best = [best[0].min(pass), best[1].min(undecided)];
        ratios.push(undecided / pass);
    }
    ratios.sort_by(f64::total_cmp);
    Row {
        size: input.size,
        loops: input.loops,
        pass: best[0],
        undecided: best[1],
        ratio: ratios[ratios.len() / 2],
    }
}

/// Every size, without loops and with.
pub fn all(rounds: usize) -> Vec<Row> {
    let each =
        |size: usize| [false, true].map(|loops| row(&inputs::input(size, loops, None), rounds));
    SIZES.into_iter().flat_map(each).collect()
}

/// A row for each.
pub fn table(rows: &[Row]) -> String {
    let mut table = String::from(
        "| A = N = P | loops | pass, µs | undecided, µs | ratio |\n|---|---|---|---|---|\n",
    );
    for row in rows {
        let loops = if row.loops { "yes" } else { "no" };
        let (pass, undecided) = (row.pass / 1_000.0, row.undecided / 1_000.0);
        let _ = writeln!(
            table,
            "| {} | {loops} | {pass:.2} | {undecided:.2} | {:.2} |",
            row.size, row.ratio
        );
    }
    table
}

/// At the largest size with loops at most 1.6 lone passes.
pub fn bars(rows: &[Row]) -> Vec<Bar> {
    let largest = rows.iter().filter(|row| row.loops).next_back();
    let bar = |row: &Row| Bar {
        what: format!("undecided by a lone pass, {} atoms with loops", row.size),
        figure: row.ratio,
        most: 1.6,
    };
    largest.map(bar).into_iter().collect()
}
