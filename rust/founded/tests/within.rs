//! The pass within an allowance, through the binding.

mod common;

use common::{Rng, theory};
use founded::{
    AtomId, AtomMask, Graph, Meter, NodeId, NodeMask, Refusal, Solver, WORK_WORDS, complete_within,
    mask_words,
};

/// Graphs with some nodes and atoms cut.
fn cases() -> impl Iterator<Item = (Graph, NodeMask, AtomMask)> {
    (0..300).map(|seed| {
        let mut rng = Rng::new(seed);
        let (made, _, _) = theory(&mut rng, 9, false).expect("small");
        let graph = made.build().expect("small");
        let nodes = rng.list(3, graph.nodes()).into_iter().map(NodeId);
        let atoms = rng.list(3, graph.atoms()).into_iter().map(AtomId);
        let never = NodeMask::of(&graph, nodes).unwrap();
        let atom_never = AtomMask::of(&graph, atoms).unwrap();
        (graph, never, atom_never)
    })
}

/// With enough, the list is the pass's; the count is the same each time, and is charged
/// again and again until it is too much.
#[test]
fn a_meter_runs_out() {
    let mut solver = Solver::new();
    let mut charged = 0;
    for (graph, never, atom_never) in cases() {
        let list = solver
            .complete(&graph, &never, &atom_never)
            .map(|list| list.words().to_vec());
        let mut meter = Meter::new(u64::MAX);
        let within = solver
            .complete_within(&graph, &never, &atom_never, &mut meter)
            .map(|list| list.words().to_vec());
        assert_eq!(within, list);
        let count = u64::MAX - meter.remainder();
        if list.is_err() || count == 0 {
            assert_eq!(count, 0);
            continue;
        }
        charged += 1;
        let mut meter = Meter::new(3 * count - 1);
        for left in [2 * count - 1, count - 1] {
            let within = solver.complete_within(&graph, &never, &atom_never, &mut meter);
            assert_eq!(within.map(|list| list.words().to_vec()), list);
            assert_eq!(meter.remainder(), left);
        }
        let within = solver.complete_within(&graph, &never, &atom_never, &mut meter);
        assert_eq!(within.err(), Some(Refusal::Allowance));
        assert_eq!(meter, Meter::new(0));
    }
    assert!(charged > 30, "{charged}");
}

/// Refusals before 15 leave the meter, also where it has nothing.
#[test]
fn a_refusal_charges_nothing() {
    let graph = [1, 1, 2, 1, 1, 0, 0, 0, 7, 0, 0, 2, 1, 0, 0];
    for allowance in [0, 8] {
        let mut meter = Meter::new(allowance);
        let mut call = |graph: &[u16], words: usize, work: usize| {
            let mut output = vec![9; words];
            let mut work = vec![1; work];
            let answer = complete_within(graph, &[0], &[0], &mut output, &mut work, &mut meter);
            assert_eq!(output, vec![9; words]);
            answer
        };
        let words = mask_words(1);
        let absorbed = Err(Refusal::Absorbed(NodeId(1)));
        assert_eq!(call(&graph, words, WORK_WORDS), absorbed);
        assert_eq!(call(&graph, words, 7), Err(Refusal::Work));
        assert_eq!(call(&graph, words + 1, WORK_WORDS), Err(Refusal::Lengths));
        assert_eq!(call(&graph[1..], words, WORK_WORDS), Err(Refusal::Size));
        assert_eq!(meter.remainder(), allowance);
    }
}
