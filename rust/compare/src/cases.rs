//! Document 01's cases C1 to C12, fifteen rows.

use crate::content::{ABSORBED, AND, ATOM, Content, IMPLIES, OR, node, rule};

/// What document 01 says of a case.
pub enum Expected {
    /// The loop test's answer and the missing atoms.
    Answers(bool, Vec<usize>),
    /// 12, with this node.
    Absorbed(u32),
}

pub struct Case {
    pub name: &'static str,
    pub content: Content,
    pub cut_nodes: Vec<usize>,
    pub cut_atoms: Vec<usize>,
    pub expected: Expected,
}

impl Case {
    /// The node mask, then the atom mask.
    pub fn masks(&self) -> (Vec<u64>, Vec<u64>) {
        let mask = |count: usize, cut: &[usize]| {
            let mut set = vec![false; count];
            cut.iter().for_each(|&number| set[number] = true);
            paper::pack(&set)
        };
        let atoms = usize::from(self.content.atoms);
        (
            mask(self.content.nodes.len(), &self.cut_nodes),
            mask(atoms, &self.cut_atoms),
        )
    }
}

/// Two atoms that hold each other up.
fn c2() -> Content {
    Content {
        atoms: 2,
        nodes: vec![node(ATOM, 0, &[]), node(ATOM, 1, &[])],
        rules: vec![rule(2, &[0]), rule(1, &[1])],
    }
}

fn c3() -> Content {
    let mut content = c2();
    content.rules.push(rule(0, &[0]));
    content
}

/// One atom and one node of this kind, operand 0 and no leaves, with one rule from it.
fn single(kind: u16, heads: &[u16]) -> Content {
    Content {
        atoms: 1,
        nodes: vec![node(kind, 0, &[])],
        rules: vec![rule(1, heads)],
    }
}

/// One atom from Atom of itself.
fn c6() -> Content {
    single(ATOM, &[0])
}

/// C6 and a rule for the same atom from a node of this kind.
fn c6_and(kind: u16) -> Content {
    let mut content = c6();
    content.nodes.push(node(kind, 0, &[]));
    content.rules.push(rule(2, &[0]));
    content
}

/// Atom 0 from Or(Atom 0, Atom 1), atom 1 produced by nothing.
fn c11() -> Content {
    Content {
        atoms: 2,
        nodes: vec![node(ATOM, 0, &[]), node(ATOM, 1, &[]), node(OR, 0, &[0, 1])],
        rules: vec![rule(3, &[0])],
    }
}

pub fn all() -> Vec<Case> {
    use Expected::{Absorbed, Answers};
    let row = |name, content, cut_nodes: &[usize], cut_atoms: &[usize], expected| Case {
        name,
        content,
        cut_nodes: cut_nodes.to_vec(),
        cut_atoms: cut_atoms.to_vec(),
        expected,
    };
    vec![
        row("C1", Content::default(), &[], &[], Answers(false, vec![])),
        row("C2", c2(), &[], &[], Answers(true, vec![0, 1])),
        row("C3", c3(), &[], &[], Answers(true, vec![])),
        row("C4", c3(), &[], &[0], Answers(true, vec![1])),
        row("C5", c3(), &[0], &[], Answers(true, vec![1])),
        row("C6", c6(), &[], &[], Answers(true, vec![0])),
        row("C7", single(AND, &[0]), &[], &[], Answers(false, vec![])),
        row("C8", c6_and(AND), &[], &[], Answers(true, vec![])),
        row("C9", c6_and(OR), &[], &[], Answers(true, vec![0])),
        row("C10", c6_and(IMPLIES), &[], &[], Answers(true, vec![])),
        row(
            "C10 cut",
            c6_and(IMPLIES),
            &[1],
            &[],
            Answers(true, vec![0]),
        ),
        row("C11", c11(), &[], &[], Answers(true, vec![])),
        row("C11 cut", c11(), &[], &[1], Answers(true, vec![0])),
        row("C12", single(ABSORBED, &[0]), &[], &[], Absorbed(0)),
        row(
            "C12 no heads",
            single(ABSORBED, &[]),
            &[],
            &[],
            Answers(false, vec![]),
        ),
    ]
}
