//! Stand-in for the original's `theory.rs`: atoms and nodes of a decoded graph.

use std::sync::Arc;

/// One node, its kind by document 01's table.
#[derive(Debug)]
pub(crate) enum Node {
    False,
    Atom(usize),
    And(Vec<usize>),
    Or(Vec<usize>),
    Implies,
    Threshold,
    ExtremumCut,
    /// Kind 7: entered as an And that is marked absorbed, without leaves.
    Absorbed,
}

/// The shape of a node as the originals read it. The parts of an opaque node
/// are never looked at.
#[derive(Clone, Copy, Debug)]
pub(crate) enum NodeView<'a> {
    Atom(usize),
    False,
    Implies((), ()),
    #[allow(dead_code)] // The originals read leaves from the chain instead.
    And(&'a [usize]),
    #[allow(dead_code)]
    Or(&'a [usize]),
    Threshold(()),
    ExtremumCut(()),
}

#[derive(Debug)]
struct Parts {
    atoms: usize,
    nodes: Vec<Node>,
}

/// A shared handle; two handles are the same instance if they share the parts.
#[derive(Clone, Debug)]
pub(crate) struct Theory(Arc<Parts>);

impl Theory {
    pub(crate) fn new(atoms: usize, nodes: Vec<Node>) -> Self {
        Self(Arc::new(Parts { atoms, nodes }))
    }

    pub(crate) fn atom_count(&self) -> usize {
        self.0.atoms
    }

    pub(crate) fn nodes(&self) -> &[Node] {
        &self.0.nodes
    }

    pub(crate) fn view(&self) -> FormulaView<'_> {
        FormulaView(&self.0.nodes)
    }

    pub(crate) fn same_instance(&self, other: &Self) -> bool {
        Arc::ptr_eq(&self.0, &other.0)
    }
}

#[derive(Clone, Copy)]
pub(crate) struct FormulaView<'a>(&'a [Node]);

/// No such node.
#[derive(Debug)]
pub(crate) struct AdmissionError;

impl<'a> FormulaView<'a> {
    pub(crate) fn len(self) -> usize {
        self.0.len()
    }

    pub(crate) fn node(self, index: usize) -> Result<NodeView<'a>, AdmissionError> {
        Ok(match self.0.get(index).ok_or(AdmissionError)? {
            Node::False => NodeView::False,
            Node::Atom(atom) => NodeView::Atom(*atom),
            Node::And(leaves) => NodeView::And(leaves),
            Node::Or(leaves) => NodeView::Or(leaves),
            Node::Implies => NodeView::Implies((), ()),
            Node::Threshold => NodeView::Threshold(()),
            Node::ExtremumCut => NodeView::ExtremumCut(()),
            Node::Absorbed => NodeView::And(&[]),
        })
    }
}
