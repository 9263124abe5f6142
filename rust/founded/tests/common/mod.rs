//! The two widths side by side, and random theories from a seed.

#![allow(dead_code, reason = "each test takes what it needs")]

pub mod command;

use founded::{AtomId, Error, Node, NodeId, Refusal, Theory, Word};

/// A width: its edition's numbers as the documents have them, and the calls over plain slices by the names that the crate has for them.
pub trait Width: Word {
    const NUMBER: u32;
    /// Of atoms, nodes and producers.
    const LIMIT: usize;
    /// Of links, leaf entries and head entries.
    const ENTRIES: usize;

    /// The length of the work area, for so many atoms, nodes and producers together and so many entries together.
    fn formula(size: usize, entries: usize) -> usize;

    /// As much of a number as a word holds.
    fn low(number: u64) -> Self;

    /// The length of the work area as the crate has it for a graph's words; None if the graph is refused.
    fn work_words(graph: &[Self]) -> Option<usize>;

    fn check(graph: &[Self]) -> Result<(), Refusal>;
    fn needed(graph: &[Self], work: &mut [Self]) -> Result<bool, Refusal>;
    fn prepare(graph: &[Self], output: &mut [u64], work: &mut [Self]) -> Result<(), Refusal>;
    fn complete(
        graph: &[Self],
        never: &[u64],
        atom_never: &[u64],
        output: &mut [u64],
        work: &mut [Self],
    ) -> Result<(), Refusal>;
    /// None in edition 2.
    fn branch() -> Option<Branch<Self>>;
}

/// A search branch over plain slices.
pub type Branch<W> = fn(&[W], usize, &[u64], &[u64], &mut [u64], &mut [W]) -> Result<(), Refusal>;

macro_rules! width {
    ($word:ty, $($calls:ident)::+, $number:literal, $limit:literal, $entries:literal, $area:expr, $work_words:expr, $branch:expr) => {
        impl Width for $word {
            const NUMBER: u32 = $number;
            const LIMIT: usize = $limit;
            const ENTRIES: usize = $entries;

            fn formula(size: usize, entries: usize) -> usize {
                $area(size, entries)
            }

            fn low(number: u64) -> Self {
                number as Self
            }

            fn work_words(graph: &[Self]) -> Option<usize> {
                $work_words(graph)
            }

            fn check(graph: &[Self]) -> Result<(), Refusal> {
                $($calls)::+::check(graph)
            }

            fn needed(graph: &[Self], work: &mut [Self]) -> Result<bool, Refusal> {
                $($calls)::+::needed(graph, work)
            }

            fn prepare(
                graph: &[Self],
                output: &mut [u64],
                work: &mut [Self],
            ) -> Result<(), Refusal> {
                $($calls)::+::prepare(graph, output, work)
            }

            fn complete(
                graph: &[Self],
                never: &[u64],
                atom_never: &[u64],
                output: &mut [u64],
                work: &mut [Self],
            ) -> Result<(), Refusal> {
                $($calls)::+::complete(graph, never, atom_never, output, work)
            }

            fn branch() -> Option<Branch<Self>> {
                $branch
            }
        }
    };
}

width!(
    u16,
    founded,
    1,
    1_024,
    4_096,
    |_, _| 32_768,
    |graph| founded::check(graph).ok().map(|()| founded::WORK_WORDS),
    Some(founded::branch)
);
width!(
    u32,
    founded::wide,
    2,
    262_144,
    1_048_576,
    |size, entries| 16 * (size + 1) + 4 * entries,
    founded::wide::work_words,
    None
);

/// The words of a graph: the edition, and then these.
pub fn graph<W: Width>(words: &[usize]) -> Vec<W> {
    let all = [W::NUMBER as usize]
        .into_iter()
        .chain(words.iter().copied());
    all.map(|word| W::low(word as u64)).collect()
}

/// The length of the work area for a graph that is accepted, counted here.
pub fn work_words<W: Width>(graph: &[W]) -> usize {
    let word = |at: usize| -> usize {
        let word: u32 = graph[at].into();
        word as usize
    };
    let [atoms, nodes, producers] = [1, 2, 3].map(word);
    let links = 5 + 3 * nodes + 2 * producers;
    let length = |first: usize| {
        let next = |&link: &usize| Some(word(links + 2 * link - 1)).filter(|&next| next > 0);
        std::iter::successors(Some(first).filter(|&link| link > 0), next).count()
    };
    let leaves = (0..nodes).map(|n| length(word(5 + 3 * n + 2)));
    let heads = (0..producers).map(|p| length(word(5 + 3 * nodes + 2 * p + 1)));
    W::formula(atoms + nodes + producers, leaves.chain(heads).sum())
}

pub struct Rng(u64);

impl Rng {
    pub fn new(seed: u64) -> Self {
        Self(seed.wrapping_mul(0x9e37_79b9_7f4a_7c15) | 1)
    }

    pub fn next(&mut self) -> u64 {
        self.0 ^= self.0 << 13;
        self.0 ^= self.0 >> 7;
        self.0 ^= self.0 << 17;
        self.0.wrapping_mul(0x2545_f491_4f6c_dd1d)
    }

    /// A number below `end`; 0 if there is none.
    pub fn below(&mut self, end: usize) -> usize {
        (self.next() >> 16) as usize % end.max(1)
    }

    /// Up to `most` numbers below `end`.
    pub fn list(&mut self, most: usize, end: usize) -> Vec<u32> {
        let len = if end == 0 { 0 } else { self.below(most + 1) };
        (0..len).map(|_| self.below(end) as u32).collect()
    }
}

fn node(rng: &mut Rng, atoms: usize, below: usize, absorbed: bool) -> Node {
    let leaves = rng.list(3, below).into_iter().map(NodeId).collect();
    match rng.below(12) {
        0 => Node::False,
        1 => Node::Implies,
        2 => Node::Threshold,
        3 => Node::ExtremumCut,
        4 if absorbed => Node::Absorbed,
        4..6 => Node::Or(leaves),
        6..8 => Node::And(leaves),
        _ if atoms == 0 => Node::And(leaves),
        _ => Node::Atom(AtomId(rng.below(atoms) as u32)),
    }
}

/// A theory of up to `most` atoms, nodes and producers, with every node and every producer that went into it.
pub type Made = (Theory, Vec<Node>, Vec<(Option<NodeId>, Vec<AtomId>)>);

pub fn theory(rng: &mut Rng, most: usize, absorbed: bool) -> Result<Made, Error> {
    let [atoms, nodes, producers] = [0; 3].map(|_| rng.below(most + 1));
    let mut made: Made = (Theory::new(), Vec::new(), Vec::new());
    for _ in 0..atoms {
        made.0.add_atom()?;
    }
    for below in 0..nodes {
        let node = node(rng, atoms, below, absorbed);
        assert_eq!(made.0.add_node(node.clone())?, NodeId(below as u32));
        made.1.push(node);
    }
    for _ in 0..producers {
        let heads: Vec<AtomId> = rng.list(3, atoms).into_iter().map(AtomId).collect();
        let body = (nodes > 0 && rng.below(5) > 0).then(|| NodeId(rng.below(nodes) as u32));
        match body {
            Some(node) => made.0.add_producer(node, &heads)?,
            None => made.0.add_fact(&heads)?,
        };
        made.2.push((body, heads));
    }
    Ok(made)
}
