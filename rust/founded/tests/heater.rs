//! The heater and the latch, in document 01's words for C2 to C5, in both editions.

mod common;

use common::{Width, graph};
use founded::{AtomId, AtomMask, GraphOf, NodeId, NodeMask, Solver};

const C2: [usize; 18] = [2, 2, 2, 2, 1, 0, 0, 1, 1, 0, 2, 1, 1, 2, 0, 0, 1, 0];

/// C2 and a fact for atom 0.
const C3: [usize; 20] = [2, 2, 3, 2, 1, 0, 0, 1, 1, 0, 2, 1, 1, 2, 0, 1, 0, 0, 1, 0];

fn missing<W: Width>(words: &[usize], nodes: &[u32], atoms: &[u32]) -> Vec<u32> {
    let graph = GraphOf::<W>::from_words(graph(words)).unwrap();
    let mut solver = Solver::new();
    assert!(solver.needed(&graph));
    assert!(
        solver
            .prepare(&graph)
            .unwrap()
            .iter()
            .eq([0, 1].map(AtomId))
    );
    let never = NodeMask::of(&graph, nodes.iter().copied().map(NodeId)).unwrap();
    let atom_never = AtomMask::of(&graph, atoms.iter().copied().map(AtomId)).unwrap();
    let missing = solver.complete(&graph, &never, &atom_never).unwrap();
    missing.iter().map(|atom| atom.0).collect()
}

fn cases<W: Width>() {
    assert_eq!(missing::<W>(&C2, &[], &[]), [0, 1]);
    assert_eq!(missing::<W>(&C3, &[], &[]), []);
    assert_eq!(missing::<W>(&C3, &[], &[0]), [1]);
    assert_eq!(missing::<W>(&C3, &[0], &[]), [1]);
}

#[test]
fn c2_to_c5() {
    cases::<u16>();
    cases::<u32>();
}
