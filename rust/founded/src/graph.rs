use std::cmp::Ordering;

use crate::{AtomId, Node, NodeId, Producer, ProducerId, Refusal, Word, calls, chains};

/// The words of a graph that the proved check has accepted: [`Graph`] or [`WideGraph`].
///
/// Graphs of edition 1 are compared by content, as [`compare`](crate::compare) says. No call compares two of edition 2, and so they have neither `==` nor an order:
///
/// ```compile_fail
/// fn same(graph: &founded::WideGraph, other: &founded::WideGraph) -> bool {
///     graph == other
/// }
/// ```
#[derive(Clone, Debug)]
pub struct GraphOf<W> {
    words: Vec<W>,
    work_words: usize,
}

/// A graph of edition 1, in 16-bit words: up to 1,024 atoms, nodes and producers, up to 4,096 links, leaf entries and head entries.
pub type Graph = GraphOf<u16>;

/// A graph of edition 2, in 32-bit words: up to 262,144 atoms, nodes and producers, up to 1,048,576 links, leaf entries and head entries.
pub type WideGraph = GraphOf<u32>;

impl<W: Word> GraphOf<W> {
    /// Words as docs/FORMAT.md lays them out.
    ///
    /// The time goes by the length of the words, whatever they hold. The proved check alone does not promise that: it walks each chain by itself, and where many share a long
    /// tail it may walk up to 2·(N + P)·K links before it refuses the graph, in edition 2 for hours. So the entries are counted first, in memory of this crate's own.
    /// A graph that has no more of them than refusal 9 lets pass goes to the proved check, and the answer is the proved one; so every graph that is accepted has passed it.
    /// **Where the chains that end have more entries than that, the refusal is this crate's own and not a proved one**: the same rows in plain Rust, which tests hold to the
    /// proved check. [`check`](crate::check) and [`wide::check`](crate::wide::check) give the proved answer on any words.
    ///
    /// # Errors
    /// The first of refusals 1 to 9 and 14 that applies.
    pub fn from_words(words: Vec<W>) -> Result<Self, Refusal> {
        let entries = chains::entries(&words)?;
        calls::check(&words)?;
        let mut graph = Self {
            words,
            work_words: 0,
        };
        let size = graph.atoms() + graph.nodes() + graph.producers();
        graph.work_words = W::area(size, entries);
        Ok(graph)
    }

    #[must_use]
    pub fn words(&self) -> &[W] {
        &self.words
    }

    #[must_use]
    pub fn into_words(self) -> Vec<W> {
        self.words
    }

    /// The length of the work area that a call on this graph is lent, in words: 32,768 in edition 1, and in edition 2 what [`wide::work_words`](crate::wide::work_words)
    /// gives. It is worked out here, by the same formula, when the graph is made: no call walks the chains for it again.
    #[must_use]
    pub fn work_words(&self) -> usize {
        self.work_words
    }

    /// Whether both have the same words, the links' numbering included.
    #[must_use]
    pub fn same_words(&self, other: &Self) -> bool {
        self.words == other.words
    }

    fn word(&self, at: usize) -> u32 {
        self.words[at].into()
    }

    /// A: how many atoms there are. They are numbered from 0.
    #[must_use]
    pub fn atoms(&self) -> usize {
        self.word(1) as usize
    }

    /// N: how many nodes there are. They are numbered from 0.
    #[must_use]
    pub fn nodes(&self) -> usize {
        self.word(2) as usize
    }

    /// P: how many producers there are. They are numbered from 0.
    #[must_use]
    pub fn producers(&self) -> usize {
        self.word(3) as usize
    }

    /// The values along the chain that begins at a link.
    fn chain(&self, first: u32) -> impl Iterator<Item = u32> {
        let links = 5 + 3 * self.nodes() + 2 * self.producers();
        let mut link = first as usize;
        std::iter::from_fn(move || {
            let at = links + 2 * link.checked_sub(1)?;
            link = self.word(at + 1) as usize;
            Some(self.word(at))
        })
    }

    /// What a node is; None if there is no such node.
    #[must_use]
    pub fn node(&self, node: NodeId) -> Option<Node> {
        let n = node.0 as usize;
        if n >= self.nodes() {
            return None;
        }
        let at = 5 + 3 * n;
        let leaves = || self.chain(self.word(at + 2)).map(NodeId).collect();
        Some(match self.word(at) {
            0 => Node::False,
            1 => Node::Atom(AtomId(self.word(at + 1))),
            2 => Node::And(leaves()),
            3 => Node::Or(leaves()),
            4 => Node::Implies,
            5 => Node::Threshold,
            6 => Node::ExtremumCut,
            _ => Node::Absorbed,
        })
    }

    /// A producer's body and heads; None if there is no such producer.
    #[must_use]
    pub fn producer(&self, producer: ProducerId) -> Option<Producer> {
        let p = producer.0 as usize;
        if p >= self.producers() {
            return None;
        }
        let at = 5 + 3 * self.nodes() + 2 * p;
        Some(Producer {
            body: self.word(at).checked_sub(1).map(NodeId),
            heads: self.chain(self.word(at + 1)).map(AtomId).collect(),
        })
    }
}

impl Graph {
    /// The same graph in edition 2: each word is copied, but for the edition. Answers are the same under the same masks.
    #[must_use]
    pub fn widen(&self) -> WideGraph {
        let mut words: Vec<u32> = self.words.iter().copied().map(u32::from).collect();
        words[0] = u32::EDITION;
        WideGraph::from_words(words).expect("edition 2 accepts what edition 1 accepts")
    }
}

impl From<&Graph> for WideGraph {
    fn from(graph: &Graph) -> Self {
        graph.widen()
    }
}

/// By content, as [`compare`](crate::compare) says.
impl Ord for Graph {
    fn cmp(&self, other: &Self) -> Ordering {
        calls::compare(&self.words, &other.words).expect("both graphs have passed the check")
    }
}

impl PartialOrd for Graph {
    fn partial_cmp(&self, other: &Self) -> Option<Ordering> {
        Some(self.cmp(other))
    }
}

/// The same content, whatever the links' numbering.
impl PartialEq for Graph {
    fn eq(&self, other: &Self) -> bool {
        self.cmp(other).is_eq()
    }
}

impl Eq for Graph {}
