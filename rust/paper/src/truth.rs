//! "Truth of a condition", for the conditions of the first cone.

use crate::graph::{Graph, Kind};
use crate::is_cut;

impl Graph {
    /// Truth of each condition in `cone`, with the Atom line given by `atom`.
    /// Leaves are below their condition, so one ascending walk decides all.
    /// A condition outside the cone stays false and is read by none inside.
    pub(crate) fn truth(
        &self,
        cone: &[bool],
        never: &[u64],
        atom: impl Fn(usize) -> bool,
    ) -> Vec<bool> {
        let mut truth = vec![false; self.nodes.len()];
        for (c, node) in self.nodes.iter().enumerate().filter(|(c, _)| cone[*c]) {
            let mut leaves = node.leaves.iter().map(|&leaf| truth[leaf]);
            truth[c] = !is_cut(never, c)
                && match node.kind {
                    Kind::False => false,
                    Kind::Opaque => true,
                    Kind::Atom(a) => atom(a),
                    Kind::And => leaves.all(|leaf| leaf),
                    Kind::Or => leaves.any(|leaf| leaf),
                    Kind::Absorbed => unreachable!("12 was given"),
                };
        }
        truth
    }
}
