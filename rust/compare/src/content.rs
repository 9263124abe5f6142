//! A graph's content, and the words it is laid down in.

use paper::Kind;

use crate::calls::{Word, word};

/// Kinds by document 01's numbers.
pub const FALSE: u16 = 0;
pub const ATOM: u16 = 1;
pub const AND: u16 = 2;
pub const OR: u16 = 3;
pub const IMPLIES: u16 = 4;
pub const ABSORBED: u16 = 7;

#[derive(Clone, Debug, PartialEq, Eq)]
pub struct Node {
    pub kind: u16,
    pub operand: u16,
    pub leaves: Vec<u16>,
}

#[derive(Clone, Debug, PartialEq, Eq)]
pub struct Rule {
    /// Body + 1; 0 marks a fact.
    pub body: u16,
    pub heads: Vec<u16>,
}

#[derive(Clone, Debug, Default, PartialEq, Eq)]
pub struct Content {
    pub atoms: u16,
    pub nodes: Vec<Node>,
    pub rules: Vec<Rule>,
}

pub fn node(kind: u16, operand: u16, leaves: &[u16]) -> Node {
    Node {
        kind,
        operand,
        leaves: leaves.to_vec(),
    }
}

pub fn rule(body: u16, heads: &[u16]) -> Rule {
    Rule {
        body,
        heads: heads.to_vec(),
    }
}

impl Content {
    /// Each chain in links of its own, one after the other.
    pub fn words(&self) -> Vec<u16> {
        let mut draft = Draft::new(self.atoms);
        for node in &self.nodes {
            let first = draft.chain(&node.leaves);
            draft.nodes.push([node.kind, node.operand, first]);
        }
        for rule in &self.rules {
            let first = draft.chain(&rule.heads);
            draft.rules.push([rule.body, first]);
        }
        draft.words()
    }
}

/// An accepted graph's content in words anew: heads before leaves, each list in
/// links of its own, and each opaque node an Implies.
pub fn laid_out<W: Word>(graph: &paper::Graph) -> Vec<W> {
    let mut draft = Draft::new(word(graph.atoms));
    let values = |list: &[usize]| list.iter().map(|&value| word(value)).collect::<Vec<W>>();
    for rule in &graph.rules {
        let first = draft.chain(&values(&rule.heads));
        let body = rule.body.map_or(0, |body| body + 1);
        draft.rules.push([word(body), first]);
    }
    for node in &graph.nodes {
        let (kind, operand) = match node.kind {
            Kind::False => (FALSE, 0),
            Kind::Atom(atom) => (ATOM, atom),
            Kind::And => (AND, 0),
            Kind::Or => (OR, 0),
            Kind::Opaque => (IMPLIES, 0),
            Kind::Absorbed => (ABSORBED, 0),
        };
        let first = draft.chain(&values(&node.leaves));
        draft.nodes.push([W::from(kind), word(operand), first]);
    }
    draft.words()
}

/// A graph's records, written freely: nothing is checked here.
#[derive(Clone, Debug, PartialEq, Eq)]
pub struct Draft<W> {
    pub atoms: W,
    pub nodes: Vec<[W; 3]>,
    pub rules: Vec<[W; 2]>,
    /// Value and next; the first is link 1.
    pub links: Vec<[W; 2]>,
}

impl<W: Word> Draft<W> {
    pub fn new(atoms: W) -> Self {
        Self {
            atoms,
            nodes: vec![],
            rules: vec![],
            links: vec![],
        }
    }

    /// Append a chain of the values; its first link, 0 for none.
    pub fn chain(&mut self, values: &[W]) -> W {
        if values.is_empty() {
            return word(0);
        }
        let first = self.links.len() + 1;
        let last = self.links.len() + values.len();
        for (own, &value) in (first..).zip(values) {
            let next = if own < last { own + 1 } else { 0 };
            self.links.push([value, word(next)]);
        }
        word(first)
    }

    pub fn words(&self) -> Vec<W> {
        let counts = [self.nodes.len(), self.rules.len(), self.links.len()];
        let mut words = vec![word(W::EDITION.number as usize), self.atoms];
        words.extend(counts.map(word::<W>));
        words.extend(self.nodes.iter().flatten());
        words.extend(self.rules.iter().flatten());
        words.extend(self.links.iter().flatten());
        words
    }
}
