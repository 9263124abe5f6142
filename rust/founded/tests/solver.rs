//! One solver over many graphs, large and small, answers as the calls do in fresh memory.

mod common;

use common::{Rng, Width, theory, work_words};
use founded::{
    AtomId, AtomMask, Atoms, GraphOf, NodeId, NodeMask, Refusal, Solver, WideGraph, mask_words,
};

/// What a call in fresh memory writes.
fn fresh<W: Width>(
    graph: &GraphOf<W>,
    call: impl FnOnce(&mut [u64], &mut [W]) -> Result<(), Refusal>,
) -> Result<Vec<u64>, Refusal> {
    let mut output = vec![0; mask_words(graph.atoms())];
    let mut work = vec![W::low(0); work_words(graph.words())];
    call(&mut output, &mut work)?;
    Ok(output)
}

/// The list as words, if its faces agree on it.
fn words(list: Atoms<'_>) -> Vec<u64> {
    let members: Vec<AtomId> = list.iter().collect();
    assert_eq!(members.len(), list.len());
    assert_eq!(members.is_empty(), list.is_empty());
    let end = 64 * list.words().len() as u32 + 99;
    let all = (0..end).chain([u32::MAX]).map(AtomId);
    assert!(all.filter(|&atom| list.contains(atom)).eq(members));
    list.words().to_vec()
}

/// One solver over graphs that `made` gives by their seed.
fn as_the_calls<W: Width>(made: impl Fn(u64) -> GraphOf<W>) {
    let mut solver = Solver::new();
    let mut seen = [0; 3];
    for seed in 0..400 {
        let graph = made(seed);
        let mut rng = Rng::new(seed);
        let nodes = rng.list(9, graph.nodes()).into_iter().map(NodeId);
        let atoms = rng.list(9, graph.atoms()).into_iter().map(AtomId);
        let never = NodeMask::of(&graph, nodes).unwrap();
        let atom_never = AtomMask::of(&graph, atoms).unwrap();

        let mut yes = false;
        fresh(&graph, |_, work| {
            yes = W::needed(graph.words(), work)?;
            Ok(())
        })
        .unwrap();
        assert_eq!(solver.needed(&graph), yes);
        let cyclic = fresh(&graph, |output, work| {
            W::prepare(graph.words(), output, work)
        });
        assert_eq!(solver.prepare(&graph).map(words), cyclic);
        let missing = fresh(&graph, |output, work| {
            W::complete(
                graph.words(),
                never.words(),
                atom_never.words(),
                output,
                work,
            )
        });
        assert_eq!(
            solver.complete(&graph, &never, &atom_never).map(words),
            missing
        );
        seen[match missing {
            Err(_) => 0,
            Ok(list) if list.iter().all(|&word| word == 0) => 1,
            Ok(_) => 2,
        }] += 1;
    }
    assert!(seen.iter().all(|&count| count > 10), "{seen:?}");
}

#[test]
fn in_edition_1() {
    as_the_calls(|seed| {
        let (theory, ..) = theory(&mut Rng::new(seed), 200, seed % 8 == 0).unwrap();
        theory.build().unwrap()
    });
}

#[test]
fn in_edition_2() {
    as_the_calls(|seed| {
        let most = if seed % 50 == 25 { 5_000 } else { 200 };
        let (theory, ..) = theory(&mut Rng::new(seed), most, seed % 8 == 0).unwrap();
        theory.build_wide().unwrap()
    });
}

/// All of edition 2's limits at once, in a ring. Half the nodes name an atom each, every other one is an And of 8 leaves, for one atom and the next; it is the body of
/// two producers with the next as 4 heads.
fn largest() -> WideGraph {
    let (most, half) = (262_144, 131_072);
    let mut words = vec![2, most, most, most, 1_048_576];
    words.extend((0..half).flat_map(|n| [1, n, 0]));
    words.extend((0..half).flat_map(|n| [2, 0, 8 * n + 1]));
    words.extend((0..most).flat_map(|p| [half + p % half + 1, 8 * (p % half) + 5]));
    words.extend((0..half).flat_map(|n| {
        (1..=8).flat_map(move |link| [(n + link / 5) % half, (8 * n + link + 1) * (1 - link / 8)])
    }));
    WideGraph::from_words(words).unwrap()
}

#[test]
fn large_small_and_large_again() {
    let largest = largest();
    let small = WideGraph::from_words(vec![2, 1, 0, 0, 0]).unwrap();
    assert_eq!(largest.work_words(), 16 * (3 * 262_144 + 1) + 8 * 1_048_576);
    // nothing but the ring holds up what is in it; the other half of the atoms is in no loop
    let mut ring = vec![u64::MAX; 2_048];
    ring.resize(4_096, 0);
    let mut solver = Solver::new();
    for (graph, list) in [(&largest, &ring), (&small, &vec![0]), (&largest, &ring)] {
        let (never, atom_never) = (NodeMask::none(graph), AtomMask::none(graph));
        assert_eq!(solver.needed(graph), list.len() > 1);
        assert!(solver.prepare(graph).unwrap().words() == list);
        let missing = solver.complete(graph, &never, &atom_never).unwrap();
        assert!(missing.words() == list);
    }
}

/// The call of request 6, beside the pass: on graphs of docs/FORMAT.md, and one solver
/// over many as the calls in fresh memory.
#[test]
fn unfounded_beside_the_pass() {
    let mut solver = Solver::new();
    let mut both = |words: &[u16], never: u64, atom_never: u64| {
        let mut output = [0];
        let mut work = vec![0; founded::WORK_WORDS];
        founded::unfounded(
            words,
            &[never][..mask_words(words[2].into())],
            &[atom_never],
            &mut output,
            &mut work,
        )
        .unwrap();
        let graph = GraphOf::from_words(words.to_vec()).unwrap();
        let cuts = |mask: u64| (0..64).filter(move |n| mask >> n & 1 == 1);
        let never = NodeMask::of(&graph, cuts(never).map(NodeId)).unwrap();
        let atom_never = AtomMask::of(&graph, cuts(atom_never).map(AtomId)).unwrap();
        let list = solver.unfounded(&graph, &never, &atom_never);
        assert_eq!(list.map(|list| list.words().to_vec()), Ok(output.to_vec()));
        let missing = solver.complete(&graph, &never, &atom_never);
        (output[0], missing.unwrap().words()[0])
    };
    // One atom that nothing produces.
    assert_eq!(both(&[1, 1, 0, 0, 0], 0, 0), (1, 0));
    assert_eq!(both(&[1, 1, 0, 0, 0], 0, 1), (0, 0));
    // The heater and the latch, and the same with a fact.
    let heater = [1, 2, 2, 2, 2, 1, 0, 0, 1, 1, 0, 2, 1, 1, 2, 0, 0, 1, 0];
    assert_eq!(both(&heater, 0, 0), (3, 3));
    let fact = [
        1, 2, 2, 3, 2, 1, 0, 0, 1, 1, 0, 2, 1, 1, 2, 0, 1, 0, 0, 1, 0,
    ];
    assert_eq!(both(&fact, 0, 0), (0, 0));
    // And, Or and a shared tail: nothing produces atom 2.
    let shared = [
        1, 3, 5, 2, 5, 1, 0, 0, 1, 1, 0, 1, 2, 0, 3, 0, 1, 2, 0, 2, 4, 4, 5, 5, 1, 3, 0, 3, 2, 0,
        0, 0, 1, 0,
    ];
    assert_eq!(both(&shared, 0, 0), (7, 0));
    assert_eq!(both(&shared, 0, 4), (3, 3));
    // Masks of another graph, which the call would take for short ones.
    let [small, large] = [[1, 129, 0, 0, 0], [1, 130, 0, 0, 0]]
        .map(|words| GraphOf::from_words(words.to_vec()).unwrap());
    let (never, atom_never) = (NodeMask::none(&small), AtomMask::none(&small));
    let list = solver.unfounded(&small, &never, &atom_never);
    assert_eq!(list.map(Atoms::len), Ok(129));
    let list = solver.unfounded(&large, &never, &atom_never);
    assert_eq!(list.err(), Some(Refusal::Lengths));
}
