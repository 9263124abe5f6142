//! Theories from graphs, and graphs from theories. Names stay with the caller: the numbers are the same on both sides.

use std::fmt;

use crate::{Error, Graph, GraphOf, NodeId, ProducerId, Solver, Theory, WideGraph, Word};

/// The records of a graph: a theory that lays down a graph of the same content, its lists in links of other numbers perhaps.
impl<W: Word> From<&GraphOf<W>> for Theory {
    fn from(graph: &GraphOf<W>) -> Self {
        read(graph).expect("a theory has room for what an accepted graph holds")
    }
}

fn read<W: Word>(graph: &GraphOf<W>) -> Result<Theory, Error> {
    let mut theory = Theory::new();
    for _ in 0..graph.atoms() {
        theory.add_atom()?;
    }
    for node in (0..graph.nodes() as u32).filter_map(|n| graph.node(NodeId(n))) {
        theory.add_node(node)?;
    }
    let producers = (0..graph.producers() as u32).map(ProducerId);
    for producer in producers.filter_map(|p| graph.producer(p)) {
        match producer.body {
            Some(body) => theory.add_producer(body, &producer.heads)?,
            None => theory.add_fact(&producer.heads)?,
        };
    }
    Ok(theory)
}

/// As [`Theory::build`].
impl TryFrom<&Theory> for Graph {
    type Error = Error;

    fn try_from(theory: &Theory) -> Result<Self, Error> {
        theory.build()
    }
}

/// As [`Theory::build_wide`].
impl TryFrom<&Theory> for WideGraph {
    type Error = Error;

    fn try_from(theory: &Theory) -> Result<Self, Error> {
        theory.build_wide()
    }
}

impl<W> fmt::Debug for Solver<W> {
    fn fmt(&self, f: &mut fmt::Formatter<'_>) -> fmt::Result {
        f.debug_struct("Solver").finish_non_exhaustive()
    }
}
