//! Rounds of all sides in turn.

use std::cell::RefCell;
use std::hint::black_box;
use std::rc::Rc;
use std::time::{Duration, Instant};

use founded::raw;

use crate::inputs::{self, Input, WIDE_SIZES};
use crate::plain;
use crate::sides::{Before, Call, Ours, Theirs};
use crate::word::Word;

/// One call on one input.
pub struct Measured {
    pub size: usize,
    pub loops: bool,
    pub call: Call,
    /// The best round, in nanoseconds a call.
    pub ours: f64,
    /// What ours is held to: the Rust three times, once for each [`Before`] in
    /// its order, or edition 1 alone, or the plain check alone.
    pub others: Vec<Other>,
    /// Vertices and edges of a graph, on average.
    pub parts: f64,
}

pub struct Other {
    /// The best round, in nanoseconds a call.
    pub best: f64,
    /// Our time by this, of each round: lower quartile, median, upper quartile.
    pub ratios: [f64; 3],
}

/// The time of the Rust that the ratio and the bars are about.
pub const THEORY: usize = Before::Theory as usize;

/// Where edition 2 is held to edition 1.
pub const EDITION_1: usize = 0;

/// Where the pass with every atom marked, or within an allowance, is held to the pass.
pub const PASS: usize = 0;

/// Where the check is held to the plain one.
pub const PLAIN: usize = 0;

/// About how long each side is timed in a round: short, so that few rounds are
/// disturbed, and at least one call.
const TURN: Duration = Duration::from_micros(400);

/// What reading the clock twice takes at least.
pub(crate) fn clock() -> Duration {
    let pairs = (0..100_000).map(|_| Instant::now().elapsed());
    pairs.min().unwrap_or_default()
}

/// The time of a call on one of the graphs, by its number.
pub(crate) type Side<'a> = Box<dyn FnMut(usize) -> Duration + 'a>;

fn ours<W: Word>(input: &Input<W>, call: Call) -> Side<'_> {
    let mut ours = Ours::new(&input.graphs[0]);
    for graph in &input.graphs {
        ours.answer(call, graph);
    }
    Box::new(move |number| {
        let graph = black_box(&input.graphs[number]);
        let start = Instant::now();
        black_box(ours.run(call, graph));
        start.elapsed()
    })
}

/// The Rust, by what is made before the call.
fn theirs<W: Word>(input: &Input<W>, call: Call) -> [Side<'_>; 3] {
    let graphs = input.graphs.iter();
    let theirs: Vec<Theirs> = graphs.map(|graph| Theirs::new(graph)).collect();
    let theirs = Rc::new(RefCell::new(theirs));
    Before::ALL.map(|before| -> Side<'_> {
        let theirs = Rc::clone(&theirs);
        Box::new(move |number| {
            let graph = black_box(&input.graphs[number]);
            theirs.borrow_mut()[number].run(call, graph, before, |run| {
                let start = Instant::now();
                black_box(run());
                start.elapsed()
            })
        })
    })
}

/// The pass within the largest allowance.
fn passes_within(input: &Input<u16>) -> Side<'_> {
    let mut ours = Ours::new(&input.graphs[0]);
    Box::new(move |number| {
        let graph = black_box(&input.graphs[number]);
        let mut allowance = u64::MAX;
        let start = Instant::now();
        let code = black_box(ours.within(graph, &mut allowance));
        let taken = start.elapsed();
        assert_eq!(code, 0, "a success");
        taken
    })
}

/// The check in plain Rust.
fn plain_check<W: Word>(input: &Input<W>) -> Side<'_> {
    Box::new(move |number| {
        let graph = black_box(&input.graphs[number]);
        let start = Instant::now();
        black_box(plain::check(graph)).expect("accepted");
        start.elapsed()
    })
}

/// The comparison of two graphs of equal content.
fn compared<'a>(graphs: &'a Input<u16>, others: &'a Input<u16>) -> Side<'a> {
    Box::new(move |number| {
        let graph = black_box(&graphs.graphs[number]);
        let other = black_box(&others.graphs[number]);
        let start = Instant::now();
        // Safety: each pointer and length is that of a slice.
        let code = black_box(unsafe {
            raw::founded_compare(graph.as_ptr(), graph.len(), other.as_ptr(), other.len())
        });
        let elapsed = start.elapsed();
        assert_eq!(code, 0, "equal content");
        elapsed
    })
}

/// Sides that are timed in turn, on the same graphs.
pub(crate) struct Turns<'a> {
    sides: Vec<Side<'a>>,
    graphs: usize,
    clock: Duration,
    /// Calls of each side in a round.
    calls: usize,
    /// A time for each side.
    rounds: Vec<Vec<f64>>,
}

impl<'a> Turns<'a> {
    /// Over so many graphs; the first side says how many calls a round has.
    pub(crate) fn new(sides: Vec<Side<'a>>, graphs: usize, clock: Duration) -> Self {
        let mut turns = Self {
            sides,
            graphs,
            clock,
            calls: graphs,
            rounds: vec![],
        };
        let once = turns.time(0, 0);
        turns.calls = (TURN.as_nanos() as f64 / once).ceil().max(1.0) as usize;
        turns
    }

    /// Nanoseconds a call of a side in a round: on one graph after the other,
    /// round after round.
    fn time(&mut self, side: usize, round: usize) -> f64 {
        let run = &mut self.sides[side];
        let calls = round * self.calls..(round + 1) * self.calls;
        let total: Duration = calls.map(|call| run(call % self.graphs)).sum();
        let clock = self.clock * self.calls as u32;
        total.saturating_sub(clock).as_nanos() as f64 / self.calls as f64
    }

    pub(crate) fn round(&mut self, round: usize) {
        let sides = self.sides.len();
        let mut times = vec![0.0; sides];
        for turn in 0..sides {
            let side = (round + turn) % sides;
            // The first time is thrown away: caches and branches settle.
            self.time(side, round);
            times[side] = self.time(side, round);
        }
        self.rounds.push(times);
    }

    /// The least over the rounds of what the times of all sides give.
    pub(crate) fn best(&self, of: impl Fn(&[f64]) -> f64) -> f64 {
        let times = self.rounds.iter().map(|times| of(times));
        times.fold(f64::INFINITY, f64::min)
    }

    /// Lower quartile, median and upper quartile of it.
    pub(crate) fn quartiles(&self, of: impl Fn(&[f64]) -> f64) -> [f64; 3] {
        let mut all: Vec<f64> = self.rounds.iter().map(|times| of(times)).collect();
        all.sort_by(f64::total_cmp);
        [1, 2, 3].map(|quarter| all[(all.len() - 1) * quarter / 4])
    }
}

struct Bench<'a> {
    /// Without times.
    measured: Measured,
    /// Ours first.
    turns: Turns<'a>,
}

impl<'a> Bench<'a> {
    /// Our call on an input, held to others.
    fn new<W: Word>(
        input: &'a Input<W>,
        call: Call,
        others: impl IntoIterator<Item = Side<'a>>,
        clock: Duration,
    ) -> Self {
        Self::of(input, call, ours(input, call), others, clock)
    }

    /// What is timed first on an input, held to others.
    fn of<W: Word>(
        input: &'a Input<W>,
        call: Call,
        first: Side<'a>,
        others: impl IntoIterator<Item = Side<'a>>,
        clock: Duration,
    ) -> Self {
        let graphs = input.graphs.len();
        let sides = std::iter::once(first).chain(others).collect();
        Self {
            measured: Measured {
                size: input.size,
                loops: input.loops,
                call,
                ours: f64::INFINITY,
                others: vec![],
                parts: input.parts as f64 / graphs as f64,
            },
            turns: Turns::new(sides, graphs, clock),
        }
    }

    fn measured(self) -> Measured {
        let turns = &self.turns;
        Measured {
            ours: turns.best(|times| times[0]),
            others: (1..turns.sides.len())
                .map(|side| Other {
                    best: turns.best(|times| times[side]),
                    ratios: turns.quartiles(|times| times[0] / times[side]),
                })
                .collect(),
            ..self.measured
        }
    }
}

/// Each once a round, all sides in turn.
fn run(mut benches: Vec<Bench>, rounds: usize) -> Vec<Measured> {
    for round in 0..rounds {
        for bench in &mut benches {
            bench.turns.round(round);
        }
    }
    benches.into_iter().map(Bench::measured).collect()
}

/// All calls on all inputs, held to the Rust.
pub fn all<W: Word>(inputs: &[Input<W>], rounds: usize) -> Vec<Measured> {
    let clock = clock();
    let benches = inputs.iter().flat_map(|input| {
        Call::ALL.map(|call| Bench::new(input, call, theirs(input, call), clock))
    });
    run(benches.collect(), rounds)
}

/// All calls of edition 2, held to those of edition 1 on the same content.
pub fn editions(graphs: Option<usize>, rounds: usize) -> Vec<Measured> {
    let (wide, narrow) = (inputs::all::<u32>(graphs), inputs::all::<u16>(graphs));
    let clock = clock();
    let benches = wide.iter().zip(&narrow).flat_map(|(wide, narrow)| {
        Call::ALL.map(|call| Bench::new(wide, call, [ours(narrow, call)], clock))
    });
    run(benches.collect(), rounds)
}

/// The pass within an allowance on graphs of edition 1, held to the pass.
pub fn within(graphs: Option<usize>, rounds: usize) -> Vec<Measured> {
    let inputs = inputs::all::<u16>(graphs);
    let clock = clock();
    let benches = inputs.iter().map(|input| {
        let pass = ours(input, Call::Pass);
        Bench::of(input, Call::Pass, passes_within(input), [pass], clock)
    });
    run(benches.collect(), rounds)
}

/// The least rounds of the largest graphs.
const LEAST: usize = 10;

/// Fewer rounds of graphs above 1,024 atoms.
fn fewer(rounds: usize, size: usize) -> usize {
    (rounds * WIDE_SIZES[0] / size).clamp(LEAST.min(rounds), rounds)
}

/// The check on graphs of these sizes with links in any order, held to the plain one.
pub fn any_order<W: Word + compare::calls::Word>(sizes: &[usize], rounds: usize) -> Vec<Measured> {
    let clock = clock();
    let mut measured = Vec::new();
    for &size in sizes {
        let input = inputs::any_order(&inputs::input::<W>(size, false, None));
        let bench = Bench::new(&input, Call::Check, [plain_check(&input)], clock);
        measured.extend(run(vec![bench], fewer(rounds, size)));
    }
    measured
}

/// The pass with every atom marked, held to the pass on the same graphs.
pub fn unfounded(graphs: Option<usize>, rounds: usize) -> Vec<Measured> {
    let (inputs, clock) = (inputs::all::<u16>(graphs), clock());
    let benches = inputs
        .iter()
        .map(|input| Bench::new(input, Call::Unfounded, [ours(input, Call::Pass)], clock));
    run(benches.collect(), rounds)
}

/// How the links of two equal graphs are numbered.
pub const NUMBERINGS: [&str; 3] = [
    "the same words",
    "the second in any order",
    "both in any order",
];

/// The comparison of two graphs of equal content, held to one check of the first,
/// by how their links are numbered.
pub fn pairs(sizes: &[usize], rounds: usize) -> [Vec<Measured>; 3] {
    let clock = clock();
    let inputs: Vec<[Input<u16>; 3]> = sizes
        .iter()
        .map(|&size| {
            let upward = inputs::input(size, false, None);
            let [one, two] = [1, 2].map(|seed| inputs::numbered(&upward, seed));
            [upward, one, two]
        })
        .collect();
    let copies: Vec<Input<u16>> = sizes
        .iter()
        .map(|&size| inputs::input(size, false, None))
        .collect();
    let bench = |x, y| {
        Bench::of(
            x,
            Call::Check,
            compared(x, y),
            [ours(x, Call::Check)],
            clock,
        )
    };
    let all = inputs.iter().zip(&copies);
    let benches = all.flat_map(|([upward, one, two], copy)| {
        [bench(upward, copy), bench(upward, one), bench(one, two)]
    });
    let mut each = [(); 3].map(|()| Vec::new());
    for (i, measured) in run(benches.collect(), rounds).into_iter().enumerate() {
        each[i % 3].push(measured);
    }
    each
}

/// Where the comparison is held to one check.
pub const CHECK: usize = 0;

/// All calls of edition 2 on its own sizes, held to the Rust: one input after
/// the other, since the largest take much memory, and fewer rounds of larger ones.
pub fn scale(rounds: usize) -> Vec<Measured> {
    let mut measured = Vec::new();
    for size in WIDE_SIZES {
        for loops in [false, true] {
            let input = inputs::input::<u32>(size, loops, None);
            measured.extend(all(&[input], fewer(rounds, size)));
        }
    }
    measured
}
