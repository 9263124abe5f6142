//! "The graph as lent words", decoded.

use crate::table::Parts;
use crate::{Refusal, Word, check};

#[derive(Clone, Copy, Debug, PartialEq, Eq)]
pub enum Kind {
    False,
    /// Names an atom.
    Atom(usize),
    And,
    Or,
    /// Implies, Threshold and `ExtremumCut`.
    Opaque,
    /// Kind 7.
    Absorbed,
}

/// A condition; its leaves are below its own number.
#[derive(Clone, Debug, PartialEq, Eq)]
pub struct Node {
    pub kind: Kind,
    pub leaves: Vec<usize>,
}

/// A rule; one without a body is a fact.
#[derive(Clone, Debug, PartialEq, Eq)]
pub struct Rule {
    pub body: Option<usize>,
    pub heads: Vec<usize>,
}

/// An accepted graph's content: its states, conditions and rules. Nothing of it
/// tells the edition or how the links are numbered.
#[derive(Clone, Debug, Default, PartialEq, Eq)]
pub struct Graph {
    pub atoms: usize,
    pub nodes: Vec<Node>,
    pub rules: Vec<Rule>,
}

impl Graph {
    /// # Errors
    /// As [`check`] turns the words away.
    pub fn decode<W: Word>(words: &[W]) -> Result<Self, Refusal> {
        check(words)?;
        let parts = Parts::of(words);
        let node = |c: usize| Node {
            kind: kind(parts.condition(c)),
            leaves: parts.leaves(c).collect(),
        };
        let rule = |r: usize| Rule {
            body: parts.rule(r)[0].checked_sub(1),
            heads: parts.heads(r).collect(),
        };
        Ok(Self {
            atoms: parts.a,
            nodes: (0..parts.n).map(node).collect(),
            rules: (0..parts.p).map(rule).collect(),
        })
    }

    pub fn leaf_entries(&self) -> usize {
        self.nodes.iter().map(|node| node.leaves.len()).sum()
    }

    pub fn head_entries(&self) -> usize {
        self.rules.iter().map(|rule| rule.heads.len()).sum()
    }
}

fn kind([kind, operand, _]: [usize; 3]) -> Kind {
    match kind {
        0 => Kind::False,
        1 => Kind::Atom(operand),
        2 => Kind::And,
        3 => Kind::Or,
        4..=6 => Kind::Opaque,
        _ => Kind::Absorbed,
    }
}
