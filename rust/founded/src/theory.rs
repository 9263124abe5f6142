use std::collections::HashMap;

use crate::{Error, Graph, GraphOf, WideGraph, Word};

/// An atom's number (document 01: a state).
#[derive(Clone, Copy, Debug, PartialEq, Eq, Hash, PartialOrd, Ord)]
pub struct AtomId(pub u32);

/// A node's number (document 01: a condition).
#[derive(Clone, Copy, Debug, PartialEq, Eq, Hash, PartialOrd, Ord)]
pub struct NodeId(pub u32);

/// A producer's number (document 01: a rule).
#[derive(Clone, Copy, Debug, PartialEq, Eq, Hash, PartialOrd, Ord)]
pub struct ProducerId(pub u32);

/// A node by its kind.
#[derive(Clone, Debug, PartialEq, Eq)]
pub enum Node {
    /// Never true.
    False,
    /// True if the atom is.
    Atom(AtomId),
    /// True if every leaf is: without leaves, true.
    And(Vec<NodeId>),
    /// True if some leaf is: without leaves, false.
    Or(Vec<NodeId>),
    /// Opaque: true unless it is cut.
    Implies,
    /// Opaque: true unless it is cut.
    Threshold,
    /// Opaque: true unless it is cut.
    ExtremumCut,
    /// An And or Or that another has absorbed: refusal 12 where a producer with heads reaches it.
    Absorbed,
}

/// If its body is true, each of its heads holds; without a body it is a fact.
#[derive(Clone, Debug, PartialEq, Eq)]
pub struct Producer {
    pub body: Option<NodeId>,
    pub heads: Vec<AtomId>,
}

/// A theory under construction: atoms, nodes and producers, each numbered from 0 in the order in which they are added. [`Theory::build`] lays it down as
/// a graph of edition 1, [`Theory::build_wide`] as one of edition 2. What is added is held to the limits of edition 2.
#[derive(Clone, Debug, Default)]
pub struct Theory {
    atoms: u32,
    nodes: Vec<Node>,
    producers: Vec<Producer>,
    leaf_entries: usize,
    head_entries: usize,
}

/// So many, if there may be.
fn within(what: &'static str, count: usize, most: usize) -> Result<usize, Error> {
    if count <= most {
        Ok(count)
    } else {
        Err(Error::TooMany { what, most })
    }
}

/// The next number, if one more may be had.
fn next(what: &'static str, count: usize) -> Result<u32, Error> {
    within(what, count + 1, u32::MOST)?;
    Ok(count as u32)
}

/// The entries of a list counted in, if there may be so many.
fn entries(what: &'static str, so_far: usize, more: usize) -> Result<usize, Error> {
    within(what, so_far.saturating_add(more), u32::MOST_ENTRIES)
}

impl Theory {
    #[must_use]
    pub fn new() -> Self {
        Self::default()
    }

    /// # Errors
    /// More than 262,144 atoms.
    pub fn add_atom(&mut self) -> Result<AtomId, Error> {
        let atom = next("atoms", self.atoms as usize)?;
        self.atoms += 1;
        Ok(AtomId(atom))
    }

    fn known(&self, atom: AtomId) -> Result<(), Error> {
        if atom.0 < self.atoms {
            Ok(())
        } else {
            Err(Error::NoAtom(atom))
        }
    }

    /// # Errors
    /// More than 262,144 nodes or 1,048,576 leaf entries, no such atom, or a leaf that is not there yet.
    pub fn add_node(&mut self, node: Node) -> Result<NodeId, Error> {
        let own = NodeId(next("nodes", self.nodes.len())?);
        if let Node::Atom(atom) = node {
            self.known(atom)?;
        }
        if let Some(&leaf) = node.leaves().iter().find(|&&leaf| leaf >= own) {
            return Err(Error::LeafNotBelow { leaf, node: own });
        }
        self.leaf_entries = entries("leaf entries", self.leaf_entries, node.leaves().len())?;
        self.nodes.push(node);
        Ok(own)
    }

    fn add(&mut self, body: Option<NodeId>, heads: &[AtomId]) -> Result<ProducerId, Error> {
        let own = ProducerId(next("producers", self.producers.len())?);
        for &head in heads {
            self.known(head)?;
        }
        self.head_entries = entries("head entries", self.head_entries, heads.len())?;
        self.producers.push(Producer {
            body,
            heads: heads.to_vec(),
        });
        Ok(own)
    }

    /// The heads hold if the body is true.
    ///
    /// # Errors
    /// More than 262,144 producers or 1,048,576 head entries, no such node, or no such atom.
    pub fn add_producer(&mut self, body: NodeId, heads: &[AtomId]) -> Result<ProducerId, Error> {
        if body.0 as usize >= self.nodes.len() {
            return Err(Error::NoNode(body));
        }
        self.add(Some(body), heads)
    }

    /// The heads hold.
    ///
    /// # Errors
    /// More than 262,144 producers or 1,048,576 head entries, or no such atom.
    pub fn add_fact(&mut self, heads: &[AtomId]) -> Result<ProducerId, Error> {
        self.add(None, heads)
    }

    /// The theory as a graph of edition 1. Lists that end alike share their links.
    ///
    /// # Errors
    /// [`Error::TooMany`]: more than 1,024 atoms, nodes or producers, or more than 4,096 leaf entries, head entries or links. Edition 2 has room for more:
    /// [`Theory::build_wide`].
    pub fn build(&self) -> Result<Graph, Error> {
        self.lay()
    }

    /// The theory as a graph of edition 2. Lists that end alike share their links.
    ///
    /// # Errors
    /// [`Error::TooMany`]: more than 1,048,576 links. The other limits are held as the theory grows.
    pub fn build_wide(&self) -> Result<WideGraph, Error> {
        self.lay()
    }

    fn lay<W: Word>(&self) -> Result<GraphOf<W>, Error> {
        within("atoms", self.atoms as usize, W::MOST)?;
        within("nodes", self.nodes.len(), W::MOST)?;
        within("producers", self.producers.len(), W::MOST)?;
        within("leaf entries", self.leaf_entries, W::MOST_ENTRIES)?;
        within("head entries", self.head_entries, W::MOST_ENTRIES)?;
        let mut chains = Chains::default();
        let leaves = self.nodes.iter().map(Node::leaves);
        let leaves: Vec<u32> = leaves
            .map(|list| chains.lay(list.iter().map(|leaf| leaf.0)))
            .collect();
        let heads = self.producers.iter().map(|producer| &producer.heads);
        let heads: Vec<u32> = heads
            .map(|list| chains.lay(list.iter().map(|head| head.0)))
            .collect();
        within("links", chains.links.len(), W::MOST_ENTRIES)?;

        let counts = [self.nodes.len(), self.producers.len(), chains.links.len()];
        let [nodes, producers, links] = counts.map(|count| count as u32);
        let mut words = vec![W::EDITION.into(), self.atoms, nodes, producers, links];
        for (node, first) in self.nodes.iter().zip(leaves) {
            let (kind, operand) = node.kind();
            words.extend([kind, operand, chains.number(first)]);
        }
        for (producer, first) in self.producers.iter().zip(heads) {
            let body = producer.body.map_or(0, |node| node.0 + 1);
            words.extend([body, chains.number(first)]);
        }
        for &(value, next) in chains.links.iter().rev() {
            words.extend([value, chains.number(next)]);
        }
        let words = words.into_iter().map(|word| W::try_from(word).ok());
        let words = words.collect::<Option<_>>();
        Ok(GraphOf::from_words(
            words.expect("the edition's limits are those of its words"),
        )?)
    }
}

impl Node {
    /// The words for kind and operand.
    fn kind(&self) -> (u32, u32) {
        match self {
            Self::False => (0, 0),
            Self::Atom(AtomId(atom)) => (1, *atom),
            Self::And(_) => (2, 0),
            Self::Or(_) => (3, 0),
            Self::Implies => (4, 0),
            Self::Threshold => (5, 0),
            Self::ExtremumCut => (6, 0),
            Self::Absorbed => (7, 0),
        }
    }

    fn leaves(&self) -> &[NodeId] {
        match self {
            Self::And(leaves) | Self::Or(leaves) => leaves,
            _ => &[],
        }
    }
}

/// Links as they are made, each after the one that it leads to. A graph numbers them the other way, so that a link leads to greater numbers: such graphs are checked fastest.
#[derive(Default)]
struct Chains {
    links: Vec<(u32, u32)>,
    made: HashMap<(u32, u32), u32>,
}

impl Chains {
    /// Which link, counted from 1, begins a chain of these values; 0 for none.
    fn lay(&mut self, values: impl DoubleEndedIterator<Item = u32>) -> u32 {
        values.rev().fold(0, |next, value| {
            *self.made.entry((value, next)).or_insert_with(|| {
                self.links.push((value, next));
                self.links.len() as u32
            })
        })
    }

    /// The number of a link in the graph.
    fn number(&self, made: u32) -> u32 {
        match made {
            0 => 0,
            _ => self.links.len() as u32 + 1 - made,
        }
    }
}
