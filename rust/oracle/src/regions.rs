//! Stand-in for the original's `regions.rs`: the parts that the founded-support
//! check reads, filled from a decoded graph, and the oracle's face.

use std::num::NonZeroUsize;
use std::sync::OnceLock;

use crate::algebra::Endless;
use crate::decode::{Decoded, decode};
use crate::theory::{Node, NodeView, Theory};
use crate::words::Words;
use crate::{Failure, Meter, Stop};

// Unchanged originals; what only the left-out parts call is unused here.
#[allow(dead_code)]
#[rustfmt::skip]
mod adjacency;
#[allow(dead_code)]
#[rustfmt::skip]
mod counters;
#[allow(dead_code)]
#[rustfmt::skip]
mod founded;

use adjacency::Adjacency;

/// A producer: its body, or none for a fact, and its heads.
struct Producer {
    body: Option<usize>,
    heads: Vec<usize>,
}

/// The producers with their rows by head and by body.
struct Producers {
    rules: Vec<Producer>,
    by_head: Adjacency,
    by_body: Adjacency,
    founded_cycles: OnceLock<bool>,
}

/// The leaves of one And or Or.
struct Chain {
    disjunction: bool,
    leaves: Vec<usize>,
}

impl Chain {
    fn leaves<'a>(&'a self, _: &'a Extrema) -> &'a [usize] {
        &self.leaves
    }
}

/// Numeric conditions are opaque: nothing is kept of them.
struct Extrema;

/// Rows over the nodes, and the chain of each And and Or.
struct Narrower {
    parents: Adjacency,
    atom_nodes: Adjacency,
    chains: Vec<Chain>,
    /// One-based, as in the original.
    chain_of: Vec<Option<NonZeroUsize>>,
    absorbed: Vec<bool>,
    extrema: Extrema,
}

fn chain_position(link: NonZeroUsize) -> usize {
    link.get() - 1
}

const fn flag_words(count: usize) -> usize {
    count.div_ceil(64)
}

fn bit(mask: &[u64], index: usize) -> bool {
    Words::<u64, _>::new(mask).contains(index)
}

/// One chain for each And and Or, and the chain of each node.
fn chains(nodes: &[Node]) -> (Vec<Chain>, Vec<Option<NonZeroUsize>>) {
    let mut chains = Vec::new();
    let mut chain_of = Vec::new();
    for node in nodes {
        let (disjunction, leaves) = match node {
            Node::And(leaves) => (false, leaves.clone()),
            Node::Or(leaves) => (true, leaves.clone()),
            _ => {
                chain_of.push(None);
                continue;
            }
        };
        chains.push(Chain {
            disjunction,
            leaves,
        });
        chain_of.push(NonZeroUsize::new(chains.len()));
    }
    (chains, chain_of)
}

/// `parents` and `atom_nodes`.
fn node_rows(
    theory: &Theory,
    chains: &[Chain],
    chain_of: &[Option<NonZeroUsize>],
) -> Result<(Adjacency, Adjacency), Stop> {
    let nodes = theory.nodes();
    let leaves_of =
        |node: usize| chain_of[node].map_or(&[][..], |link| &chains[chain_position(link)].leaves);
    let parents =
        (0..nodes.len()).flat_map(|node| leaves_of(node).iter().map(move |&leaf| (leaf, node)));
    let atom_nodes = nodes
        .iter()
        .enumerate()
        .filter_map(|(node, read)| match read {
            Node::Atom(atom) => Some((*atom, node)),
            _ => None,
        });
    Ok((
        Adjacency::build(nodes.len(), parents)?,
        Adjacency::build(theory.atom_count(), atom_nodes)?,
    ))
}

/// `by_head` and `by_body`.
fn producer_rows(theory: &Theory, rules: &[Producer]) -> Result<(Adjacency, Adjacency), Stop> {
    let numbered = || rules.iter().enumerate();
    let by_head =
        numbered().flat_map(|(row, rule)| rule.heads.iter().map(move |&head| (head, row)));
    let by_body = numbered().filter_map(|(row, rule)| rule.body.map(|body| (body, row)));
    Ok((
        Adjacency::build(theory.atom_count(), by_head)?,
        Adjacency::build(theory.nodes().len(), by_body)?,
    ))
}

fn index(theory: &Theory) -> Result<Narrower, Stop> {
    let nodes = theory.nodes();
    let (chains, chain_of) = chains(nodes);
    let (parents, atom_nodes) = node_rows(theory, &chains, &chain_of)?;
    Ok(Narrower {
        parents,
        atom_nodes,
        absorbed: nodes
            .iter()
            .map(|node| matches!(node, Node::Absorbed))
            .collect(),
        chains,
        chain_of,
        extrema: Extrema,
    })
}

fn producers(theory: &Theory, list: Vec<(Option<usize>, Vec<usize>)>) -> Result<Producers, Stop> {
    let rules: Vec<Producer> = list
        .into_iter()
        .map(|(body, heads)| Producer { body, heads })
        .collect();
    let (by_head, by_body) = producer_rows(theory, &rules)?;
    Ok(Producers {
        by_head,
        by_body,
        founded_cycles: OnceLock::new(),
        rules,
    })
}

/// How a call of the original can end without an answer.
#[derive(Clone, Copy, Debug, PartialEq, Eq)]
pub enum Ended {
    /// `Stop::InvalidProgram`.
    InvalidProgram,
    /// `Stop::Allocation`; never seen on an accepted graph.
    Allocation,
}

impl<E> From<Failure<E>> for Ended {
    fn from(failure: Failure<E>) -> Self {
        match failure {
            Failure::Stopped(stop) => stop.into(),
            Failure::Refused(_) => unreachable!("the quota refuses nothing"),
        }
    }
}

impl From<Stop> for Ended {
    fn from(stop: Stop) -> Self {
        match stop {
            Stop::InvalidProgram => Self::InvalidProgram,
            Stop::Allocation => Self::Allocation,
        }
    }
}

/// The four row tables, each row in order and with its repeats.
#[derive(Clone, Debug, PartialEq, Eq)]
pub struct Rows {
    pub atom_nodes: Vec<Vec<usize>>,
    pub parents: Vec<Vec<usize>>,
    pub by_head: Vec<Vec<usize>>,
    pub by_body: Vec<Vec<usize>>,
}

/// A table's rows.
fn all_rows(table: &Adjacency) -> Vec<Vec<usize>> {
    table.iter().map(<[usize]>::to_vec).collect()
}

/// A `Projection`: its two tables, each row in order and with its repeats, and
/// the nodes selected with their roles, from `seed_start` on the seeds.
#[derive(Clone, Debug, PartialEq, Eq)]
pub struct Projected {
    pub parents: Vec<Vec<usize>>,
    pub heads: Vec<Vec<usize>>,
    pub body_nodes: Vec<usize>,
    pub initial: Vec<Role>,
    pub seed_start: usize,
}

/// An `Initial`.
#[derive(Clone, Copy, Debug, PartialEq, Eq)]
pub enum Role {
    Inactive,
    Awaiting(usize),
    True,
    Boundary(usize),
}

/// A decoded graph: the theory and the list of its producers, no rows yet.
#[derive(Clone)]
pub struct Lists {
    theory: Theory,
    producers: Vec<(Option<usize>, Vec<usize>)>,
}

impl Lists {
    /// # Panics
    /// On words that the graph check refuses.
    pub fn new<W: Copy + Into<u32>>(words: &[W]) -> Self {
        let Decoded {
            atoms,
            nodes,
            producers,
        } = decode(words);
        Self {
            theory: Theory::new(atoms, nodes),
            producers,
        }
    }
}

/// The original's answers on one accepted graph.
pub struct Oracle {
    theory: Theory,
    index: Narrower,
    producers: Producers,
}

impl Oracle {
    /// # Errors
    /// As the row builder ends.
    ///
    /// # Panics
    /// On words that the graph check refuses.
    pub fn new<W: Copy + Into<u32>>(words: &[W]) -> Result<Self, Ended> {
        Self::build(Lists::new(words))
    }

    /// `index` and `producers` on a decoded graph.
    ///
    /// # Errors
    /// As the row builder ends.
    pub fn build(lists: Lists) -> Result<Self, Ended> {
        let Lists {
            theory,
            producers: list,
        } = lists;
        let index = index(&theory)?;
        let producers = producers(&theory, list)?;
        Ok(Self {
            theory,
            index,
            producers,
        })
    }

    /// Build the four row tables anew and forget the loop test's answer: with
    /// this and a fresh scratch nothing but the lists is left of earlier calls.
    ///
    /// # Errors
    /// As the row builder ends.
    pub fn rebuild_rows(&mut self) -> Result<(), Ended> {
        let (index, producers) = (&mut self.index, &mut self.producers);
        (index.parents, index.atom_nodes) =
            node_rows(&self.theory, &index.chains, &index.chain_of)?;
        (producers.by_head, producers.by_body) = producer_rows(&self.theory, &producers.rules)?;
        producers.founded_cycles = OnceLock::new();
        Ok(())
    }

    pub fn rows(&self) -> Rows {
        Rows {
            atom_nodes: all_rows(&self.index.atom_nodes),
            parents: all_rows(&self.index.parents),
            by_head: all_rows(&self.producers.by_head),
            by_body: all_rows(&self.producers.by_body),
        }
    }

    /// The loop test, `Scratch::needed` on a fresh scratch.
    ///
    /// # Errors
    /// As the original ends.
    pub fn needed(&self) -> Result<bool, Ended> {
        Ok(founded::Scratch::default().needed(
            &self.theory,
            &self.index,
            &self.producers,
            &mut Meter::endless(),
        )?)
    }

    /// The cyclic atoms that `prepare_components` leaves on a fresh scratch.
    ///
    /// # Errors
    /// As the original ends.
    pub fn cyclic_atoms(&self) -> Result<Vec<u64>, Ended> {
        Ok(founded::explanations::cyclic_atoms(
            &self.theory,
            &self.index,
            &self.producers,
            &mut Meter::<Endless>::endless(),
        )?)
    }

    /// `Scratch::complete` on a fresh scratch, then `missing_in_word` for each
    /// word. The masks must have their exact lengths.
    ///
    /// # Errors
    /// As the original ends.
    pub fn missing(&self, never: &[u64], atom_never: &[u64]) -> Result<Vec<u64>, Ended> {
        self.branch().missing(never, atom_never)
    }

    /// A fresh scratch, for one pass after the other.
    pub fn branch(&self) -> Branch<'_> {
        Branch {
            oracle: self,
            scratch: founded::Scratch::default(),
        }
    }
}

/// The original on one scratch: its first pass goes by the original rows, later
/// ones by the narrowed rows, which the second makes.
pub struct Branch<'a> {
    oracle: &'a Oracle,
    scratch: founded::Scratch,
}

impl Branch<'_> {
    /// `Scratch::complete`, then `missing_in_word` for each word of the output.
    /// The masks and the output must have their exact lengths.
    ///
    /// # Errors
    /// As the original ends.
    pub fn missing_in(
        &mut self,
        never: &[u64],
        atom_never: &[u64],
        output: &mut [u64],
    ) -> Result<(), Ended> {
        let oracle = self.oracle;
        self.scratch.complete(
            &oracle.theory,
            &oracle.index,
            &oracle.producers,
            never,
            atom_never,
            &mut Meter::endless(),
        )?;
        for (word, list) in output.iter_mut().enumerate() {
            *list = self.scratch.missing_in_word(word, atom_never[word]);
        }
        Ok(())
    }

    /// The same, the output's words made anew.
    ///
    /// # Errors
    /// As the original ends.
    pub fn missing(&mut self, never: &[u64], atom_never: &[u64]) -> Result<Vec<u64>, Ended> {
        let mut output = vec![0; atom_never.len()];
        self.missing_in(never, atom_never, &mut output)?;
        Ok(output)
    }

    /// What passes from the second on go by; none before that.
    pub fn projected(&self) -> Option<Projected> {
        founded::explanations::projected(&self.scratch)
    }
}
