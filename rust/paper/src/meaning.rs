//! "Preparation", "Loop test", "Pass" and "Rows".

use crate::closure::Reach;
use crate::graph::{Graph, Kind, Rule};
use crate::{Refusal, is_cut, large};

/// States and conditions up to which closed chains and support are found in the
/// slow, plain ways; no graph of edition 1 has more.
const MOST_VERTICES: usize = 2_048;

/// The four row tables: entries in input order, repeats kept.
#[derive(Clone, Debug, PartialEq, Eq)]
pub struct Rows {
    pub conditions_per_state: Vec<Vec<usize>>,
    pub parents_per_condition: Vec<Vec<usize>>,
    pub rules_per_head: Vec<Vec<usize>>,
    pub rules_per_body: Vec<Vec<usize>>,
}

/// What preparation finds in a graph that it does not refuse.
#[derive(Clone, Debug)]
pub struct Prepared<'a> {
    pub graph: &'a Graph,
    /// The first cone.
    pub cone: Vec<bool>,
    /// Marked: on a closed chain.
    pub marked: Vec<bool>,
}

impl Graph {
    pub fn rows(&self) -> Rows {
        let mut rows = Rows {
            conditions_per_state: vec![vec![]; self.atoms],
            parents_per_condition: vec![vec![]; self.nodes.len()],
            rules_per_head: vec![vec![]; self.atoms],
            rules_per_body: vec![vec![]; self.nodes.len()],
        };
        for (c, node) in self.nodes.iter().enumerate() {
            if let Kind::Atom(atom) = node.kind {
                rows.conditions_per_state[atom].push(c);
            }
            for &leaf in &node.leaves {
                rows.parents_per_condition[leaf].push(c);
            }
        }
        for (r, rule) in self.rules.iter().enumerate() {
            for &head in &rule.heads {
                rows.rules_per_head[head].push(r);
            }
            if let Some(body) = rule.body {
                rows.rules_per_body[body].push(r);
            }
        }
        rows
    }

    /// The loop test: all states and all conditions, some closed chain.
    pub fn loops(&self) -> bool {
        let all = vec![true; self.nodes.len()];
        self.closed(&all).contains(&true)
    }

    /// The bodies of rules with at least one head, and the leaves of every And
    /// and Or reached.
    pub fn first_cone(&self) -> Vec<bool> {
        self.cone(|rule| !rule.heads.is_empty())
    }

    /// The bodies of the rules wanted, and the leaves of every And and Or reached.
    fn cone(&self, wanted: impl Fn(&Rule) -> bool) -> Vec<bool> {
        let mut cone = vec![false; self.nodes.len()];
        for rule in self.rules.iter().filter(|rule| wanted(rule)) {
            if let Some(body) = rule.body {
                cone[body] = true;
            }
        }
        // A leaf is below its condition, so one descending walk reaches all.
        for c in (0..self.nodes.len()).rev() {
            if cone[c] {
                for &leaf in &self.nodes[c].leaves {
                    cone[leaf] = true;
                }
            }
        }
        cone
    }

    /// Preparation, cuts ignored.
    ///
    /// # Errors
    /// 12, at the lowest-numbered condition of kind 7 in the first cone (request 3).
    pub fn prepared(&self) -> Result<Prepared<'_>, Refusal> {
        let cone = self.first_cone();
        let absorbed = |c: &usize| cone[*c] && self.nodes[*c].kind == Kind::Absorbed;
        if let Some(c) = (0..self.nodes.len()).find(absorbed) {
            return Err(Refusal::at(12, c));
        }
        let mut marked = self.closed(&cone);
        marked.truncate(self.atoms);
        Ok(Prepared {
            graph: self,
            cone,
            marked,
        })
    }

    /// All states and all conditions; condition c is vertex atoms + c.
    pub(crate) fn vertices(&self) -> usize {
        self.atoms + self.nodes.len()
    }

    /// Which vertices are on a closed chain among all states and the conditions
    /// of `within`.
    fn closed(&self, within: &[bool]) -> Vec<bool> {
        if self.vertices() > MOST_VERTICES {
            return large::closed(self, within);
        }
        let reach = self.reach(within);
        (0..self.vertices())
            .map(|vertex| reach.closed(vertex))
            .collect()
    }

    /// Walks among all states and the conditions of `within`.
    fn reach(&self, within: &[bool]) -> Reach {
        Reach::new(self.vertices(), &self.edges(within))
    }

    /// State to each Atom condition naming it; leaf to its And or Or; body to
    /// each head.
    pub(crate) fn edges(&self, within: &[bool]) -> Vec<(usize, usize)> {
        let vertex = |c: usize| self.atoms + c;
        let mut edges = Vec::new();
        for (c, node) in self.nodes.iter().enumerate().filter(|(c, _)| within[*c]) {
            if let Kind::Atom(atom) = node.kind {
                edges.push((atom, vertex(c)));
            }
            edges.extend(
                node.leaves
                    .iter()
                    .filter(|leaf| within[**leaf])
                    .map(|&leaf| (vertex(leaf), vertex(c))),
            );
        }
        for rule in &self.rules {
            if let Some(body) = rule.body.filter(|body| within[*body]) {
                edges.extend(rule.heads.iter().map(|&head| (vertex(body), head)));
            }
        }
        edges
    }
}

/// Marked by the other wording: the state's strongly connected component has
/// more than one vertex.
pub fn marked_by_components(prepared: &Prepared<'_>) -> Vec<bool> {
    let graph = prepared.graph;
    if graph.vertices() > MOST_VERTICES {
        let sizes = large::component_sizes(graph, &prepared.cone);
        return sizes[..graph.atoms].iter().map(|&size| size > 1).collect();
    }
    let reach = graph.reach(&prepared.cone);
    let both_ways = |a: usize, v: usize| reach.leads(a, v) && reach.leads(v, a);
    (0..graph.atoms)
        .map(|a| (0..graph.vertices()).any(|v| v != a && both_ways(a, v)))
        .collect()
}

impl Prepared<'_> {
    /// The second cone starts from rules with a marked head.
    pub fn second_cone(&self) -> Vec<bool> {
        self.graph
            .cone(|rule| rule.heads.iter().any(|&head| self.marked[head]))
    }

    /// The least set closed under the two rules, by naive iteration.
    pub fn supported(&self, never: &[u64], atom_never: &[u64]) -> Vec<bool> {
        if self.graph.vertices() > MOST_VERTICES {
            return large::supported(self, never, atom_never);
        }
        let mut supported = vec![false; self.graph.atoms];
        loop {
            let before = supported.clone();
            let truth = self.graph.truth(&self.cone, never, |a| {
                if self.marked[a] {
                    before[a]
                } else {
                    !is_cut(atom_never, a)
                }
            });
            for rule in &self.graph.rules {
                if rule.body.is_none_or(|body| truth[body]) {
                    for &head in &rule.heads {
                        supported[head] |= self.marked[head] && !is_cut(atom_never, head);
                    }
                }
            }
            if supported == before {
                return supported;
            }
        }
    }

    /// The missing list: marked, not cut, not supported.
    pub fn missing(&self, never: &[u64], atom_never: &[u64]) -> Vec<bool> {
        let supported = self.supported(never, atom_never);
        let missing = |a: usize| self.marked[a] && !is_cut(atom_never, a) && !supported[a];
        (0..self.graph.atoms).map(missing).collect()
    }

    /// Request 6: every uncut state left unsupported, where Atom(a) is true only if
    /// a is supported and a head needs no mark. By naive iteration.
    pub fn unsupported(&self, never: &[u64], atom_never: &[u64]) -> Vec<bool> {
        let cut = |a: usize| is_cut(atom_never, a);
        let mut supported = vec![false; self.graph.atoms];
        loop {
            let before = supported.clone();
            let truth = self.graph.truth(&self.cone, never, |a| before[a]);
            for rule in &self.graph.rules {
                if rule.body.is_none_or(|body| truth[body]) {
                    for &head in &rule.heads {
                        supported[head] |= !cut(head);
                    }
                }
            }
            if supported == before {
                break;
            }
        }
        (0..self.graph.atoms)
            .map(|a| !cut(a) && !supported[a])
            .collect()
    }
}
