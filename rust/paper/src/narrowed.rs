//! "Later pairs use narrowed rows and start states with the seeds last, as
//! `Projection` and `partition` have them" (document 02, request 1): those tables
//! by their meaning. No answer depends on them.

use crate::graph::Kind;
use crate::meaning::Prepared;

/// What a condition of the second cone starts with, before any mask.
#[derive(Clone, Copy, Debug, PartialEq, Eq)]
pub enum Start {
    /// It waits for so many.
    Waits(usize),
    /// It is never true.
    Never,
    /// It is true: opaque.
    True,
    /// An Atom of a state off every loop: true unless the state is cut.
    Unless(usize),
}

impl Start {
    /// Nothing that it waits for can come: it is true from the start or, if it
    /// or its state is cut, never.
    pub fn is_seed(self) -> bool {
        matches!(self, Self::Waits(0) | Self::True | Self::Unless(_))
    }
}

/// The narrowed rows, entries in the order of the rows they are taken from,
/// repeats kept; and the start states.
#[derive(Clone, Debug, PartialEq, Eq)]
pub struct Narrowed {
    /// The row of each condition, of its parents those in the second cone.
    pub parents_per_condition: Vec<Vec<usize>>,
    /// The heads of each condition's rules, the marked ones; and one row more,
    /// for the facts.
    pub heads_per_body: Vec<Vec<usize>>,
    /// Of each condition; none outside the second cone.
    pub starts: Vec<Option<Start>>,
    /// The conditions of the second cone that are no seeds, ascending.
    pub counters: Vec<usize>,
    /// Those that are, ascending.
    pub seeds: Vec<usize>,
}

impl Prepared<'_> {
    pub fn narrowed(&self) -> Narrowed {
        let cone = self.second_cone();
        let rules = &self.graph.rules;
        let rows = self.graph.rows();
        let kept = |list: &[usize], set: &[bool]| -> Vec<usize> {
            list.iter().copied().filter(|&entry| set[entry]).collect()
        };
        let marked_heads = |rule: usize| kept(&rules[rule].heads, &self.marked);
        // A condition outside the second cone has no entries.
        let inside = |c: usize, row: Vec<usize>| if cone[c] { row } else { vec![] };
        let parents =
            (0..cone.len()).map(|c| inside(c, kept(&rows.parents_per_condition[c], &cone)));
        let heads = (0..cone.len()).map(|c| {
            let of = rows.rules_per_body[c].iter();
            inside(c, of.flat_map(|&rule| marked_heads(rule)).collect())
        });
        let facts = (0..rules.len()).filter(|&rule| rules[rule].body.is_none());
        let fact_row = facts.flat_map(marked_heads).collect();
        let starts: Vec<Option<Start>> = (0..cone.len())
            .map(|c| cone[c].then(|| self.start(c)))
            .collect();
        let those = |seeds: bool| {
            (0..cone.len())
                .filter(|&c| starts[c].is_some_and(|start| start.is_seed() == seeds))
                .collect()
        };
        Narrowed {
            parents_per_condition: parents.collect(),
            heads_per_body: heads.chain([fact_row]).collect(),
            counters: those(false),
            seeds: those(true),
            starts,
        }
    }

    fn start(&self, c: usize) -> Start {
        let node = &self.graph.nodes[c];
        match node.kind {
            Kind::False => Start::Never,
            Kind::Opaque => Start::True,
            Kind::Atom(a) if self.marked[a] => Start::Waits(1),
            Kind::Atom(a) => Start::Unless(a),
            Kind::And => Start::Waits(node.leaves.len()),
            Kind::Or => Start::Waits(1),
            Kind::Absorbed => unreachable!("12 was given"),
        }
    }
}
