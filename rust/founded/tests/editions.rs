//! A graph of edition 1 and the same graph in edition 2: equal answers under equal masks.

mod common;

use common::{Rng, theory};
use founded::{AtomId, AtomMask, Graph, NodeId, NodeMask, Solver, WideGraph};

/// The graph and its wide twin say the same, with one pair of masks for both.
fn same(rng: &mut Rng, graph: &Graph, wide: &WideGraph) {
    let (mut solver, mut wide_solver) = (Solver::new(), Solver::new());
    let nodes = rng.list(9, graph.nodes()).into_iter().map(NodeId);
    let atoms = rng.list(9, graph.atoms()).into_iter().map(AtomId);
    let never = NodeMask::of(graph, nodes).unwrap();
    let atom_never = AtomMask::of(wide, atoms).unwrap();
    assert_eq!(solver.needed(graph), wide_solver.needed(wide));
    assert_eq!(solver.prepare(graph), wide_solver.prepare(wide));
    assert_eq!(
        solver.complete(graph, &never, &atom_never),
        wide_solver.complete(wide, &never, &atom_never)
    );
}

#[test]
fn a_theory_built_in_both() {
    for seed in 0..400 {
        let mut rng = Rng::new(seed);
        let (theory, ..) = theory(&mut rng, 200, seed % 8 == 0).unwrap();
        let graph = theory.build().unwrap();
        let wide = WideGraph::from(&graph);
        assert!(theory.build_wide().unwrap().same_words(&wide));
        same(&mut rng, &graph, &wide);
    }
}

#[test]
fn words_are_copied() {
    let mut accepted = 0;
    for seed in 0..2_000 {
        let mut rng = Rng::new(seed);
        let (theory, ..) = theory(&mut rng, 12, true).unwrap();
        let mut words = theory.build().unwrap().into_words();
        // links in no chain may have any value
        let more = 1 + rng.below(3);
        words[4] += more as u16;
        words.extend((0..more).flat_map(|_| [rng.next() as u16, 0]));
        if seed % 2 == 0 {
            let at = rng.below(words.len());
            words[at] = rng.next() as u16;
        }
        let Ok(graph) = Graph::from_words(words.clone()) else {
            continue;
        };
        let wide = graph.widen();
        assert_eq!(wide.words()[0], 2);
        let copied = words[1..].iter().copied().map(u32::from);
        assert!(wide.words()[1..].iter().copied().eq(copied));
        same(&mut rng, &graph, &wide);
        accepted += 1;
    }
    assert!(accepted > 1_000, "{accepted}");
}

#[test]
fn the_largest_of_edition_1() {
    let mut words = vec![1, 1_024, 1_024, 1_024, 4_096];
    words.extend((0..1_024).flat_map(|atom| [1, atom, 0]));
    words.extend((1..=1_024).flat_map(|node| [node, 4 * node - 3]));
    let next = |link: u16| if link.is_multiple_of(4) { 0 } else { link + 1 };
    words.extend((1..=4_096).flat_map(|link| [(7 * link) % 1_024, next(link)]));
    let graph = Graph::from_words(words).unwrap();
    assert_eq!(graph.work_words(), 32_768);
    assert_eq!(graph.widen().work_words(), 16 * 3_073 + 4 * 4_096);
    same(&mut Rng::new(1), &graph, &graph.widen());
}
