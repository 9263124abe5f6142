//! The proved answers, in whichever edition has room.

use crate::{AtomId, AtomMask, Error, Graph, GraphOf, NodeMask, Solver, Theory, WideGraph, Word};

/// A graph of edition 1, or where that has no room, of edition 2.
#[derive(Clone, Debug)]
pub enum Either {
    Narrow(Graph),
    Wide(WideGraph),
}

/// What the proved calls say of a graph under two masks.
#[derive(Clone, Debug)]
pub struct Answer {
    /// The loop test's answer.
    pub loops: bool,
    /// The atoms on some loop.
    pub cyclic: Vec<AtomId>,
    /// The missing atoms.
    pub missing: Vec<AtomId>,
}

impl Either {
    /// # Errors
    /// No edition has room.
    pub fn of(theory: &Theory) -> Result<Self, Error> {
        match theory.build() {
            Ok(graph) => Ok(Self::Narrow(graph)),
            Err(Error::TooMany { .. }) => theory.build_wide().map(Self::Wide),
            Err(error) => Err(error),
        }
    }

    /// How many words the graph has.
    pub fn words(&self) -> usize {
        match self {
            Self::Narrow(graph) => graph.words().len(),
            Self::Wide(graph) => graph.words().len(),
        }
    }
}

/// The loop test, the cyclic atoms and the missing ones.
pub fn answer<W: Word>(
    graph: &GraphOf<W>,
    (never, atom_never): &(NodeMask, AtomMask),
) -> Result<Answer, Error> {
    let mut solver = Solver::new();
    Ok(Answer {
        loops: solver.needed(graph),
        cyclic: solver.prepare(graph)?.iter().collect(),
        missing: missing(&mut solver, graph, never, atom_never)?,
    })
}

fn missing<W: Word>(
    solver: &mut Solver<W>,
    graph: &GraphOf<W>,
    never: &NodeMask,
    atom_never: &AtomMask,
) -> Result<Vec<AtomId>, Error> {
    Ok(solver.complete(graph, never, atom_never)?.iter().collect())
}
