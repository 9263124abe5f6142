//! What makes a set of atoms unfounded, in the words of docs/FORMAT.md ("Unfounded set"): plain code that knows nothing of how the missing list is made.

use std::collections::HashSet;

use crate::{AtomId, AtomMask, GraphOf, Node, NodeId, NodeMask, Producer, ProducerId, Word};

/// A graph's records, and what is cut and what is cyclic in it.
pub struct Rules<'a> {
    nodes: Vec<Node>,
    /// The producers that have each atom as a head.
    by_head: Vec<Vec<Producer>>,
    cyclic: HashSet<AtomId>,
    never: &'a NodeMask,
    atom_never: &'a AtomMask,
}

impl<'a> Rules<'a> {
    pub fn of<W: Word>(
        graph: &GraphOf<W>,
        cyclic: &[AtomId],
        (never, atom_never): &'a (NodeMask, AtomMask),
    ) -> Self {
        let mut by_head = vec![Vec::new(); graph.atoms()];
        let producers = (0..graph.producers() as u32).map(ProducerId);
        for producer in producers.filter_map(|producer| graph.producer(producer)) {
            for head in &producer.heads {
                by_head[head.0 as usize].push(producer.clone());
            }
        }
        let nodes = (0..graph.nodes() as u32).map(NodeId);
        Self {
            nodes: nodes.filter_map(|node| graph.node(node)).collect(),
            by_head,
            cyclic: cyclic.iter().copied().collect(),
            never,
            atom_never,
        }
    }

    /// A node's truth with the atoms of a set taken as false.
    fn holds(&self, node: NodeId, set: &impl Fn(AtomId) -> bool) -> bool {
        if self.never.contains(node) {
            return false;
        }
        match &self.nodes[node.0 as usize] {
            Node::False => false,
            Node::Atom(atom) => !set(*atom) && !self.atom_never.contains(*atom),
            Node::And(leaves) => leaves.iter().all(|&leaf| self.holds(leaf, set)),
            Node::Or(leaves) => leaves.iter().any(|&leaf| self.holds(leaf, set)),
            Node::Implies | Node::Threshold | Node::ExtremumCut | Node::Absorbed => true,
        }
    }

    /// Whether an atom may be a member of an unfounded set that has at least these atoms: it is uncut, cyclic, no head of a fact, and a head of no producer whose
    /// body holds. A body that is false with some atoms taken as false is so with more of them.
    pub fn may_be_in(&self, atom: AtomId, set: &impl Fn(AtomId) -> bool) -> bool {
        let holds = |producer: &Producer| match producer.body {
            Some(body) => self.holds(body, set),
            None => true,
        };
        !self.atom_never.contains(atom)
            && self.cyclic.contains(&atom)
            && !self.by_head[atom.0 as usize].iter().any(holds)
    }
}
