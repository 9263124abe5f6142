//! From the words of an accepted graph to what the stand-ins hold.
//!
//! Words 0 to 4 are edition, atoms, nodes, producers, links; then 3 words a
//! node, 2 a producer, 2 a link; of 16 bits in edition 1 and 32 in edition 2. The
//! words must have passed the graph check.

use crate::theory::Node;

pub(crate) struct Decoded {
    pub(crate) atoms: usize,
    pub(crate) nodes: Vec<Node>,
    /// Body, or none for a fact, and heads.
    pub(crate) producers: Vec<(Option<usize>, Vec<usize>)>,
}

pub(crate) fn decode<W: Copy + Into<u32>>(words: &[W]) -> Decoded {
    let at = |position: usize| words[position].into() as usize;
    let (atoms, nodes, producers) = (at(1), at(2), at(3));
    let producers_from = 5 + 3 * nodes;
    let links_from = producers_from + 2 * producers;
    let list = |first: usize| {
        let mut values = Vec::new();
        let mut link = first;
        while link != 0 {
            let record = links_from + 2 * (link - 1);
            values.push(at(record));
            link = at(record + 1);
        }
        values
    };
    let node = |position: usize| match at(position) {
        0 => Node::False,
        1 => Node::Atom(at(position + 1)),
        2 => Node::And(list(at(position + 2))),
        3 => Node::Or(list(at(position + 2))),
        4 => Node::Implies,
        5 => Node::Threshold,
        6 => Node::ExtremumCut,
        7 => Node::Absorbed,
        kind => unreachable!("kind {kind} passed the graph check"),
    };
    Decoded {
        atoms,
        nodes: (0..nodes).map(|n| node(5 + 3 * n)).collect(),
        producers: (0..producers)
            .map(|p| producers_from + 2 * p)
            .map(|record| (at(record).checked_sub(1), list(at(record + 1))))
            .collect(),
    }
}
