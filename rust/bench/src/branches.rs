//! Search branches of 64 pairs of masks, against lone calls and against the original
//! on one scratch from pair to pair.

use std::hint::black_box;
use std::time::Instant;

use compare::rng::Rng;
use founded::{BRANCH_WORK_WORDS, MOST_PAIRS, WORK_WORDS, raw};
use oracle::Oracle;

use crate::inputs::{self, Input, SIZES};
use crate::measure::{Side, Turns, clock};

/// Of 100 nodes, and of 100 atoms, so many are cut.
pub const CUTS: [usize; 3] = [0, 5, 30];

/// The pairs of masks for one graph, end to end.
pub struct Masks {
    /// Words of a node mask and of an atom mask; there are as many nodes as atoms.
    words: usize,
    pub never: Vec<u64>,
    pub atom_never: Vec<u64>,
}

impl Masks {
    /// 64 random pairs for a graph of this size.
    fn random(rng: &mut Rng, size: usize, cuts: usize) -> Self {
        let words = size.div_ceil(64);
        let mut masks = || {
            let mut masks = vec![0; MOST_PAIRS * words];
            for (pair, number) in (0..MOST_PAIRS).flat_map(|pair| (0..size).map(move |n| (pair, n)))
            {
                let cut = u64::from(rng.chance(cuts, 100));
                masks[pair * words + number / 64] |= cut << (number % 64);
            }
            masks
        };
        Self {
            words,
            never: masks(),
            atom_never: masks(),
        }
    }

    /// The node mask and the atom mask of a pair.
    pub fn pair(&self, pair: usize) -> [&[u64]; 2] {
        [&self.never, &self.atom_never].map(|masks| &masks[pair * self.words..][..self.words])
    }
}

/// The masks for each graph of an input.
pub fn masks(input: &Input<u16>, cuts: usize) -> Vec<Masks> {
    let graphs = 0..input.graphs.len() as u64;
    graphs
        .map(|number| Masks::random(&mut Rng::new(!number), input.size, cuts))
        .collect()
}

/// The proved calls, with their memory used again and again.
pub struct Ours {
    pub lists: Vec<u64>,
    work: Vec<u16>,
}

impl Ours {
    /// For graphs of one size.
    pub fn new(size: usize) -> Self {
        Self {
            lists: vec![0; MOST_PAIRS * size.div_ceil(64)],
            work: vec![0; BRANCH_WORK_WORDS],
        }
    }

    /// The first pairs in one call.
    pub fn branch(&mut self, graph: &[u16], masks: &Masks, pairs: usize) -> u32 {
        let words = pairs * masks.words;
        // Safety: every pointer and length is that of a slice, or of its first part,
        // and no two that are written overlap.
        unsafe {
            raw::founded_branch(
                graph.as_ptr(),
                graph.len(),
                pairs,
                masks.never.as_ptr(),
                words,
                masks.atom_never.as_ptr(),
                words,
                self.lists.as_mut_ptr(),
                words,
                self.work.as_mut_ptr(),
                self.work.len(),
            )
        }
    }

    /// Each pair in a call of its own. The sum of the answers, all 0.
    pub fn lone(&mut self, graph: &[u16], masks: &Masks) -> u32 {
        let words = masks.words;
        (0..MOST_PAIRS)
            .map(|pair| {
                let [never, atom_never] = masks.pair(pair);
                let list = &mut self.lists[pair * words..][..words];
                // Safety: as in `branch`.
                unsafe {
                    raw::founded_complete(
                        graph.as_ptr(),
                        graph.len(),
                        never.as_ptr(),
                        words,
                        atom_never.as_ptr(),
                        words,
                        list.as_mut_ptr(),
                        words,
                        self.work.as_mut_ptr(),
                        WORK_WORDS,
                    )
                }
            })
            .sum()
    }
}

/// The original on one scratch: all passes, `timed` being given those after so many.
pub fn theirs<T>(
    oracle: &Oracle,
    masks: &Masks,
    lists: &mut [u64],
    before: usize,
    timed: impl FnOnce(&mut dyn FnMut()) -> T,
) -> T {
    let mut scratch = oracle.branch();
    let mut pass = |pair: usize| {
        let [never, atom_never] = masks.pair(pair);
        let list = &mut lists[pair * masks.words..][..masks.words];
        scratch
            .missing_in(never, atom_never, list)
            .expect("an answer");
    };
    (0..before).for_each(&mut pass);
    timed(&mut || (before..MOST_PAIRS).for_each(&mut pass))
}

/// The pairs after which a later pair pays for nothing but itself: the second one
/// narrows the rows.
pub const BEFORE: usize = 2;

/// Branches on one input.
pub struct Searched {
    pub size: usize,
    pub loops: bool,
    pub cuts: usize,
    /// The best round, in nanoseconds: a lone pass, one of 64 pairs, and a pair after
    /// the second.
    pub lone: f64,
    pub pair: f64,
    pub later: f64,
    /// The original's pass after its second on one scratch.
    pub theirs: f64,
    /// The median of the rounds, with the quartiles: calls of one pair and of two by
    /// a lone pass,
    pub one: [f64; 3],
    pub two: [f64; 3],
    /// a later pair by a lone pass and by the original's,
    pub by_lone: [f64; 3],
    pub by_theirs: [f64; 3],
    /// and 64 pairs by 64 lone calls.
    pub all: [f64; 3],
}

/// The sides of a round.
const ALL: usize = 0;
const TWO: usize = 1;
const ONE: usize = 2;
const LONE: usize = 3;
const THEIRS: usize = 4;

fn sides<'a>(input: &'a Input<u16>, masks: &'a [Masks]) -> Vec<Side<'a>> {
    let branch = |pairs: usize| -> Side<'a> {
        let mut ours = Ours::new(input.size);
        Box::new(move |number| {
            let (graph, masks) = black_box((&input.graphs[number], &masks[number]));
            let start = Instant::now();
            black_box(ours.branch(graph, masks, pairs));
            start.elapsed()
        })
    };
    let mut ours = Ours::new(input.size);
    let lone = move |number: usize| {
        let (graph, masks) = black_box((&input.graphs[number], &masks[number]));
        let start = Instant::now();
        black_box(ours.lone(graph, masks));
        start.elapsed()
    };
    let graphs = input.graphs.iter();
    let oracles: Vec<Oracle> = graphs
        .map(|graph| Oracle::new(graph).expect("rows"))
        .collect();
    let mut lists = Ours::new(input.size).lists;
    let original = move |number: usize| {
        let (oracle, masks) = black_box((&oracles[number], &masks[number]));
        let time = theirs(oracle, masks, &mut lists, BEFORE, |passes| {
            let start = Instant::now();
            passes();
            start.elapsed()
        });
        black_box(&lists);
        time
    };
    vec![
        branch(MOST_PAIRS),
        branch(BEFORE),
        branch(1),
        Box::new(lone),
        Box::new(original),
    ]
}

fn searched(input: &Input<u16>, cuts: usize, turns: &Turns<'_>) -> Searched {
    let pairs = MOST_PAIRS as f64;
    let others = (MOST_PAIRS - BEFORE) as f64;
    let later = |times: &[f64]| (times[ALL] - times[TWO]) / others;
    let lone = |times: &[f64]| times[LONE] / pairs;
    let theirs = |times: &[f64]| times[THEIRS] / others;
    Searched {
        size: input.size,
        loops: input.loops,
        cuts,
        lone: turns.best(lone),
        pair: turns.best(|times| times[ALL] / pairs),
        later: (turns.best(|times| times[ALL]) - turns.best(|times| times[TWO])) / others,
        theirs: turns.best(theirs),
        one: turns.quartiles(|times| times[ONE] / lone(times)),
        two: turns.quartiles(|times| times[TWO] / lone(times)),
        by_lone: turns.quartiles(|times| later(times) / lone(times)),
        by_theirs: turns.quartiles(|times| later(times) / theirs(times)),
        all: turns.quartiles(|times| times[ALL] / times[LONE]),
    }
}

/// All sizes, without loops and with, with all cuts.
pub fn all(graphs: Option<usize>, rounds: usize) -> Vec<Searched> {
    let clock = clock();
    let inputs = inputs::all::<u16>(graphs);
    let mut measured = Vec::new();
    for (input, cuts) in inputs
        .iter()
        .flat_map(|input| CUTS.map(|cuts| (input, cuts)))
    {
        let masks = masks(input, cuts);
        let mut turns = Turns::new(sides(input, &masks), input.graphs.len(), clock);
        (0..rounds).for_each(|round| turns.round(round));
        measured.push(searched(input, cuts, &turns));
    }
    assert_eq!(measured.len(), 2 * SIZES.len() * CUTS.len());
    measured
}
