//! The same answers for large graphs, in time that grows with the entries: the
//! closure takes the cube of the vertices, and naive iteration the square where
//! support comes one atom at a time. On small graphs a test holds both to those.

use crate::graph::{Graph, Kind};
use crate::is_cut;
use crate::meaning::Prepared;

/// Which vertices are on a closed chain among all states and the conditions of
/// `within`: those in a component with others. No edge leads from a vertex to
/// itself.
pub fn closed(graph: &Graph, within: &[bool]) -> Vec<bool> {
    let sizes = component_sizes(graph, within);
    sizes.into_iter().map(|size| size > 1).collect()
}

/// How many vertices each one's component has; Tarjan's search (1972), its
/// stack in memory of its own.
pub fn component_sizes(graph: &Graph, within: &[bool]) -> Vec<usize> {
    let vertices = graph.vertices();
    let mut next = vec![vec![]; vertices];
    for (from, to) in graph.edges(within) {
        next[from].push(to);
    }
    // When a vertex was met, from 1; then the earliest one it leads back to.
    let (mut met, mut low) = (vec![0; vertices], vec![0; vertices]);
    let mut sizes = vec![0; vertices];
    let (mut open, mut walk) = (vec![], vec![]);
    let mut count = 0;
    for root in 0..vertices {
        if met[root] == 0 {
            walk.push((root, 0));
        }
        while let Some((vertex, tried)) = walk.pop() {
            if tried == 0 {
                count += 1;
                (met[vertex], low[vertex]) = (count, count);
                open.push(vertex);
            } else {
                // Back from the one tried last, or past it.
                low[vertex] = low[vertex].min(low[next[vertex][tried - 1]]);
            }
            if let Some(&to) = next[vertex].get(tried) {
                walk.push((vertex, tried + 1));
                if met[to] == 0 {
                    walk.push((to, 0));
                }
                continue;
            }
            if low[vertex] == met[vertex] {
                let first = open.iter().rposition(|&v| v == vertex).expect("still open");
                let size = open.len() - first;
                for closed in open.drain(first..) {
                    sizes[closed] = size;
                    // No longer of account for those still open.
                    low[closed] = usize::MAX;
                }
            }
        }
    }
    sizes
}

/// The least set closed under the two rules. Truth and support only grow, so
/// after each addition only what reads it is looked at again, and an And goes on
/// at the leaf that was last found false.
pub fn supported(prepared: &Prepared<'_>, never: &[u64], atom_never: &[u64]) -> Vec<bool> {
    let graph = prepared.graph;
    let rows = graph.rows();
    let mut state = State {
        prepared,
        atom_never,
        supported: vec![false; graph.atoms],
        truth: vec![false; graph.nodes.len()],
        true_leaves: vec![0; graph.nodes.len()],
        fresh: vec![],
    };
    for rule in graph.rules.iter().filter(|rule| rule.body.is_none()) {
        state.conclude(&rule.heads);
    }
    // Ascending once, as leaves are below their condition; then what is read anew.
    let mut due: Vec<usize> = (0..graph.nodes.len()).rev().collect();
    let mut again = false;
    loop {
        while let Some(c) = due.pop() {
            if state.truth[c] || !prepared.cone[c] || is_cut(never, c) || !state.holds(c) {
                continue;
            }
            state.truth[c] = true;
            if again {
                due.extend(&rows.parents_per_condition[c]);
            }
            for &rule in &rows.rules_per_body[c] {
                state.conclude(&graph.rules[rule].heads);
            }
        }
        again = true;
        for atom in state.fresh.drain(..) {
            due.extend(&rows.conditions_per_state[atom]);
        }
        if due.is_empty() {
            return state.supported;
        }
    }
}

struct State<'a> {
    prepared: &'a Prepared<'a>,
    atom_never: &'a [u64],
    supported: Vec<bool>,
    truth: Vec<bool>,
    /// Leaves from the first on that are known to be true.
    true_leaves: Vec<usize>,
    /// Supported, but not yet told to the conditions that name them.
    fresh: Vec<usize>,
}

impl State<'_> {
    fn conclude(&mut self, heads: &[usize]) {
        for &head in heads {
            let earned = self.prepared.marked[head] && !is_cut(self.atom_never, head);
            if earned && !self.supported[head] {
                self.supported[head] = true;
                self.fresh.push(head);
            }
        }
    }

    /// Truth of an uncut condition in the first cone.
    fn holds(&mut self, c: usize) -> bool {
        let node = &self.prepared.graph.nodes[c];
        match node.kind {
            Kind::False => false,
            Kind::Opaque => true,
            Kind::Atom(a) if self.prepared.marked[a] => self.supported[a],
            Kind::Atom(a) => !is_cut(self.atom_never, a),
            Kind::And => {
                let known = &mut self.true_leaves[c];
                while *known < node.leaves.len() && self.truth[node.leaves[*known]] {
                    *known += 1;
                }
                *known == node.leaves.len()
            }
            Kind::Or => node.leaves.iter().any(|&leaf| self.truth[leaf]),
            Kind::Absorbed => unreachable!("12 was given"),
        }
    }
}
