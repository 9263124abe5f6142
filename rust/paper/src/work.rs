//! "A work allowance" (document 02, request 8): the count for a lone pass.

use crate::graph::Kind;
use crate::is_cut;
use crate::meaning::Prepared;

impl Prepared<'_> {
    /// The bodies of rules with a marked head, and the leaves of every And and Or
    /// reached.
    fn work_cone(&self) -> Vec<bool> {
        let mut cone = vec![false; self.graph.nodes.len()];
        for rule in &self.graph.rules {
            if let Some(body) = rule.body.filter(|_| self.has_marked(&rule.heads)) {
                cone[body] = true;
            }
        }
        for c in (0..cone.len()).rev() {
            if cone[c] {
                for &leaf in &self.graph.nodes[c].leaves {
                    cone[leaf] = true;
                }
            }
        }
        cone
    }

    fn has_marked(&self, heads: &[usize]) -> bool {
        heads.iter().any(|&head| self.marked[head])
    }

    /// The count, clause by clause.
    pub fn work(&self, never: &[u64], atom_never: &[u64]) -> u64 {
        let (nodes, rules) = (&self.graph.nodes, &self.graph.rules);
        let supported = self.supported(never, atom_never);
        let cone = self.work_cone();
        let truth = self.graph.truth(&cone, never, |a| match self.marked[a] {
            true => supported[a],
            false => !is_cut(atom_never, a),
        });
        // One for each head entry of the facts that have a marked head.
        let facts = rules
            .iter()
            .filter(|rule| rule.body.is_none() && self.has_marked(&rule.heads));
        let mut count: usize = facts.map(|rule| rule.heads.len()).sum();
        // One for each supported state; for it, one for each condition naming it.
        for a in (0..self.graph.atoms).filter(|&a| supported[a]) {
            let naming = nodes.iter().filter(|node| node.kind == Kind::Atom(a));
            count += 1 + naming.count();
        }
        // One for each true condition of the second cone; for it, one for each parent
        // entry and one for each head entry of the rules it is the body of.
        for c in (0..nodes.len()).filter(|&c| cone[c] && truth[c]) {
            let leaves = nodes.iter().flat_map(|node| &node.leaves);
            let bodies = rules.iter().filter(|rule| rule.body == Some(c));
            count += 1 + leaves.filter(|&&leaf| leaf == c).count();
            count += bodies.map(|rule| rule.heads.len()).sum::<usize>();
        }
        count as u64
    }
}
