//! Graphs with as many nodes and producers as atoms and 4 entries a record, in
//! either edition.
//!
//! The lower half of the nodes are Atoms, the upper half And or Or with 8
//! leaves. The heads of a producer are the last 4 links of some leaf chain:
//! with 8 entries a node and 4 a producer in links of their own, the largest
//! graph would have too many. So a head is below half the atoms. The largest
//! graph of an edition has as many atoms, nodes, producers, links, leaf entries
//! and head entries as the edition allows.

use compare::random;
use compare::rng::Rng;

use crate::word::Word;

/// A = N = P, in either edition.
pub const SIZES: [usize; 4] = [16, 64, 256, 1_024];

/// A = N = P in edition 2 alone, from the largest of edition 1 to its own.
pub const WIDE_SIZES: [usize; 5] = [1_024, 4_096, 16_384, 65_536, 262_144];

/// 32-bit words for each atom in the graph and in the work area.
pub const WIDE_WORDS: usize = (3 + 2 + 2 * 4) + (16 * 3 + 4 * (4 + 4));

/// Graphs of one size, with or without loops.
pub struct Input<W> {
    pub size: usize,
    pub loops: bool,
    pub graphs: Vec<Vec<W>>,
    /// Vertices and edges of the loop test, over all graphs.
    pub parts: usize,
}

/// The atoms of all graphs of one size. Together the graphs of each size are
/// equally large: a few small ones take less time a vertex when they are run
/// again and again, and as many large ones do not.
const ATOMS: usize = 8 * 1_024;

/// Every size, without loops and with.
pub fn all<W: Word>(graphs: Option<usize>) -> Vec<Input<W>> {
    let each = |size: usize| [false, true].map(|loops| input(size, loops, graphs));
    SIZES.into_iter().flat_map(each).collect()
}

/// So many graphs of a size, or as many as have [`ATOMS`]. Both editions have
/// the same content.
pub fn input<W: Word>(size: usize, loops: bool, graphs: Option<usize>) -> Input<W> {
    let graphs = graphs.unwrap_or((ATOMS / size).max(1)) as u64;
    let graphs: Vec<Vec<W>> = (0..graphs)
        .map(|number| graph(&mut Rng::new(number), size, loops))
        .collect();
    let parts = graphs.iter().map(|words| parts(words)).sum();
    Input {
        size,
        loops,
        graphs,
        parts,
    }
}

/// The same content with the links of each graph in any order.
pub fn any_order<W: Word + compare::calls::Word>(input: &Input<W>) -> Input<W> {
    numbered(input, input.size as u64)
}

/// The same, by a seed of one's own.
pub fn numbered<W: Word + compare::calls::Word>(input: &Input<W>, seed: u64) -> Input<W> {
    let mut rng = Rng::new(seed);
    let graphs = input.graphs.iter();
    Input {
        graphs: graphs
            .map(|words| random::renumbered(&mut rng, words))
            .collect(),
        ..*input
    }
}

/// Kinds by document 01's numbers.
const ATOM: usize = 1;
const AND: usize = 2;
const OR: usize = 3;

/// One in so many producers is a fact.
const FACTS: usize = 16;

fn graph<W: Word>(rng: &mut Rng, size: usize, loops: bool) -> Vec<W> {
    let half = size / 2;
    let mut words = vec![W::EDITION, size, size, size, 8 * half];
    for node in 0..half {
        // Heads are below half. Without loops no Atom names one of those; with
        // loops every other Atom does.
        let named = if loops && node % 2 == 0 {
            node
        } else {
            half + node
        };
        words.extend([ATOM, named, 0]);
    }
    let mut links = Vec::new();
    for node in half..size {
        let first = links.len() + 1;
        for entry in 0..8 {
            let leaf = rng.below(if entry < 4 { node } else { half });
            let next = if entry < 7 { first + entry + 1 } else { 0 };
            links.push([leaf, next]);
        }
        let kind = if rng.chance(1, 2) { AND } else { OR };
        words.extend([kind, 0, first]);
    }
    for producer in 0..size {
        let body = if producer % FACTS == 0 {
            0
        } else {
            1 + rng.below(size)
        };
        let heads = 8 * rng.below(half) + 5;
        words.extend([body, heads]);
    }
    words.extend(links.iter().flatten());
    words.into_iter().map(W::of).collect()
}

/// Atoms and nodes; an edge for each Atom, each leaf and each head under a body.
fn parts<W: Word>(words: &[W]) -> usize {
    let (size, half) = (words[1].number(), words[1].number() / 2);
    let producers = words[5 + 3 * size..].chunks(2).take(size);
    let bodies = producers.filter(|record| record[0].number() != 0).count();
    2 * size + half + 8 * half + 4 * bodies
}
