//! A search branch: each list is a lone pass's, each refusal is told by its number, and a branch is changed in place.

mod common;

use common::{Rng, graph, theory};
use founded::{
    AtomId, AtomMask, BRANCH_WORK_WORDS, Branch, Error, Graph, MOST_PAIRS, NodeId, NodeMask,
    Refusal, Solver, WORK_WORDS, branch, mask_words,
};

fn random_graph(rng: &mut Rng, absorbed: bool) -> Graph {
    let (theory, ..) = theory(rng, 200, absorbed).unwrap();
    theory.build().unwrap()
}

/// Masks of up to so many nodes and atoms.
fn masks(rng: &mut Rng, graph: &Graph, most: usize) -> (NodeMask, AtomMask) {
    let nodes = rng.list(most, graph.nodes()).into_iter().map(NodeId);
    let atoms = rng.list(most, graph.atoms()).into_iter().map(AtomId);
    let (never, atom_never) = (NodeMask::of(graph, nodes), AtomMask::of(graph, atoms));
    (never.unwrap(), atom_never.unwrap())
}

/// One solver for branches and lone passes over many graphs: every list of a branch is what a lone pass gives for its pair.
#[test]
fn lists_are_those_of_lone_passes() {
    let (mut solver, mut lone) = (Solver::new(), Solver::new());
    let mut seen = [0; 3];
    for seed in 0..600 {
        let mut rng = Rng::new(seed);
        let graph = random_graph(&mut rng, seed % 8 == 0);
        let pairs = [1, 2, MOST_PAIRS - 1, MOST_PAIRS, 1 + rng.below(9)][seed as usize % 5];
        let mut all = Branch::new(&graph, pairs).unwrap();
        let each: Vec<_> = (0..pairs)
            .map(|pair| masks(&mut rng, &graph, [0, 9, 60][pair % 3]))
            .collect();
        for (pair, (never, atom_never)) in each.iter().enumerate() {
            all.set(pair, never, atom_never).unwrap();
        }
        let lists = solver.branch(&graph, &all);
        let Ok(lists) = lists else {
            let refusal = lone.complete(&graph, &each[0].0, &each[0].1).err();
            assert_eq!(lists.err(), refusal);
            seen[0] += 1;
            continue;
        };
        assert_eq!((lists.len(), lists.iter().count()), (pairs, pairs));
        assert_eq!(lists.get(pairs), None);
        assert_eq!(lists.words().len(), pairs * mask_words(graph.atoms()));
        for ((pair, list), (never, atom_never)) in lists.iter().enumerate().zip(&each) {
            let expected = lone.complete(&graph, never, atom_never).unwrap();
            assert_eq!(list, expected);
            assert_eq!(lists.get(pair), Some(expected));
            seen[1 + usize::from(!list.is_empty())] += 1;
        }
    }
    assert!(seen.iter().all(|&count| count > 20), "{seen:?}");
}

/// The heater (0) and the latch (1) hold each other up; a fact switches the heater on.
fn heater() -> Graph {
    let words = [2, 2, 3, 2, 1, 0, 0, 1, 1, 0, 2, 1, 1, 2, 0, 1, 0, 0, 1, 0];
    Graph::from_words(graph(&words)).unwrap()
}

fn missing(solver: &mut Solver, graph: &Graph, branch: &Branch) -> Vec<Vec<u32>> {
    let lists = solver.branch(graph, branch).unwrap();
    let list = |list: founded::Atoms<'_>| list.iter().map(|atom| atom.0).collect();
    lists.iter().map(list).collect()
}

#[test]
fn changed_in_place() {
    let graph = heater();
    let mut solver = Solver::new();
    let mut all = Branch::new(&graph, 3).unwrap();
    assert_eq!(all.pairs(), 3);
    let none: [Vec<u32>; 3] = Default::default();
    assert_eq!(missing(&mut solver, &graph, &all), none);

    // document 01's C4 and C5 in the later pairs
    all.cut(1, AtomId(0)).unwrap();
    all.cut(2, NodeId(0)).unwrap();
    assert!(all.contains(1, AtomId(0)) && !all.contains(1, NodeId(0)));
    assert!(all.contains(2, NodeId(0)) && !all.contains(0, NodeId(0)));
    assert_eq!(
        (all.never(), all.atom_never()),
        (&[0, 0, 1][..], &[0, 1, 0][..])
    );
    let (never, atom_never) = (all.never().as_ptr(), all.atom_never().as_ptr());
    assert_eq!(
        missing(&mut solver, &graph, &all),
        [vec![], vec![1], vec![1]]
    );

    // C5 comes first, C3 last
    all.copy(2, 0).unwrap();
    all.clear(2).unwrap();
    all.uncut(1, AtomId(0)).unwrap();
    all.set(
        1,
        &NodeMask::none(&graph),
        &AtomMask::of(&graph, [AtomId(1)]).unwrap(),
    )
    .unwrap();
    assert_eq!(
        missing(&mut solver, &graph, &all),
        [vec![1], vec![], vec![]]
    );
    // where the masks stand they stay
    assert_eq!(all.never().as_ptr(), never);
    assert_eq!(all.atom_never().as_ptr(), atom_never);

    // a list is read where the call left it
    let lists = solver.branch(&graph, &all).unwrap();
    let start = lists.words().as_ptr();
    assert_eq!(
        lists.get(2).unwrap().words().as_ptr(),
        start.wrapping_add(2)
    );
}

#[test]
fn pairs_and_masks_that_are_not_there() {
    let graph = heater();
    for pairs in [0, MOST_PAIRS + 1, usize::MAX] {
        assert_eq!(Branch::new(&graph, pairs), Err(Refusal::Pairs));
    }
    let mut all = Branch::new(&graph, 2).unwrap();
    let none = (NodeMask::none(&graph), AtomMask::none(&graph));
    assert_eq!(all.cut(2, AtomId(0)), Err(Error::NoPair(2)));
    assert_eq!(all.uncut(2, NodeId(0)), Err(Error::NoPair(2)));
    assert_eq!(all.set(2, &none.0, &none.1), Err(Error::NoPair(2)));
    assert_eq!(all.clear(2), Err(Error::NoPair(2)));
    assert_eq!(all.copy(0, 2), Err(Error::NoPair(2)));
    assert_eq!(all.copy(2, 0), Err(Error::NoPair(2)));
    assert_eq!(all.cut(0, AtomId(2)), Err(Error::NoAtom(AtomId(2))));
    assert_eq!(all.uncut(0, NodeId(9)), Err(Error::NoNode(NodeId(9))));
    assert!(!all.contains(2, AtomId(0)) && !all.contains(0, AtomId(2)));
    assert_eq!(all, Branch::new(&graph, 2).unwrap());
    assert_eq!(Error::NoPair(2).to_string(), "there is no pair 2");

    // masks of a larger graph
    let mut words = vec![65, 65, 0, 0];
    words.extend([0; 3 * 65]);
    let larger = Graph::from_words(common::graph(&words)).unwrap();
    let other = (
        NodeMask::of(&larger, [NodeId(0)]).unwrap(),
        AtomMask::of(&larger, [AtomId(0)]).unwrap(),
    );
    let lengths = Err(Error::Refused(Refusal::Lengths));
    assert_eq!(all.set(0, &other.0, &none.1), lengths);
    assert_eq!(all.set(0, &none.0, &other.1), lengths);
    assert_eq!(all, Branch::new(&graph, 2).unwrap());
    let answer = Solver::new().branch(&larger, &all).map(|lists| lists.len());
    assert_eq!(answer, Err(Refusal::Lengths));

    // of a graph whose masks have as many words
    let smaller = Graph::from_words(common::graph(&[1, 1, 0, 0, 1, 0, 0])).unwrap();
    let other = (NodeMask::none(&smaller), AtomMask::none(&smaller));
    assert_eq!(all.set(0, &other.0, &none.1), lengths);
    assert_eq!(all.set(0, &none.0, &other.1), lengths);
    let answer = Solver::new()
        .branch(&smaller, &all)
        .map(|lists| lists.len());
    assert_eq!(answer, Err(Refusal::Lengths));
}

/// The call with memory of these lengths, and what it leaves.
fn lent(
    words: &[u16],
    pairs: usize,
    [never, atom_never, output, work]: [usize; 4],
) -> Result<Vec<u64>, Refusal> {
    let (cut, atom_cut) = (vec![0; never], vec![0; atom_never]);
    let (mut out, mut area) = (vec![5; output], vec![6; work]);
    let answer = branch(words, pairs, &cut, &atom_cut, &mut out, &mut area);
    let untouched = answer.is_err_and(|refusal| refusal.number() != 12);
    let left = if untouched { 6 } else { 0 };
    assert!(area.iter().all(|&word| word == left));
    assert!(answer.is_ok() || out.iter().all(|&word| word == 5));
    answer.map(|()| out)
}

#[test]
fn refusals_in_their_order() {
    let graph = heater();
    let words = graph.words();
    let work = BRANCH_WORK_WORDS;
    for pairs in [1, 2, MOST_PAIRS] {
        let right = [pairs, pairs, pairs, work];
        assert_eq!(lent(words, pairs, right), Ok(vec![0; pairs]));
        for at in 0..3 {
            for other in [0, pairs - 1, pairs + 1, 2 * pairs] {
                let mut lengths = right;
                lengths[at] = other;
                // 10 comes before 11
                for work in [work, 0] {
                    lengths[3] = work;
                    assert_eq!(lent(words, pairs, lengths), Err(Refusal::Lengths));
                }
            }
        }
        for work in [0, work - 1, work + 1, WORK_WORDS] {
            let answer = lent(words, pairs, [pairs, pairs, pairs, work]);
            assert_eq!(answer, Err(Refusal::Work));
        }
    }
    // 13 before 10 and 11, whatever the lengths
    for pairs in [0, MOST_PAIRS + 1, 1 << 16, (1 << 16) + 1, usize::MAX] {
        for lengths in [[1, 1, 1, work], [0, 0, 0, work], [65, 65, 65, work], [0; 4]] {
            assert_eq!(lent(words, pairs, lengths), Err(Refusal::Pairs), "{pairs}");
        }
    }
    // and after 9: one producer has the whole chain, a second its last link
    let most = 4_096;
    let mut many = vec![1, 0, 2, most, 0, 1, 0, most];
    many.extend((1..=most).flat_map(|link| [0, (link + 1) % (most + 1)]));
    for pairs in [0, 1, 65] {
        let answer = lent(&common::graph::<u16>(&many), pairs, [0; 4]);
        assert_eq!(answer, Err(Refusal::Entries));
    }
    assert_eq!(lent(&words[1..], 0, [0; 4]), Err(Refusal::Edition));

    // the body of a producer with a head is absorbed: 12 comes last
    let words = common::graph::<u16>(&[1, 2, 1, 1, 0, 0, 0, 7, 0, 0, 2, 1, 0, 0]);
    let absorbed = Err(Refusal::Absorbed(NodeId(1)));
    assert_eq!(lent(&words, 2, [2, 2, 2, work]), absorbed);
    assert_eq!(lent(&words, 2, [2, 2, 2, 0]), Err(Refusal::Work));
    assert_eq!(lent(&words, 2, [1, 2, 2, work]), Err(Refusal::Lengths));
    assert_eq!(lent(&words, 65, [1, 2, 2, work]), Err(Refusal::Pairs));
}

/// Without nodes and atoms no length tells the number of pairs: document 01's C1.
#[test]
fn the_number_of_pairs_is_an_argument() {
    let words = [1, 0, 0, 0, 0];
    let lengths = [0, 0, 0, BRANCH_WORK_WORDS];
    assert_eq!(lent(&words, 1, lengths), Ok(vec![]));
    assert_eq!(lent(&words, MOST_PAIRS, lengths), Ok(vec![]));
    assert_eq!(lent(&words, MOST_PAIRS + 1, lengths), Err(Refusal::Pairs));
    assert_eq!(lent(&words, 0, lengths), Err(Refusal::Pairs));

    let graph = Graph::from_words(words.to_vec()).unwrap();
    let mut solver = Solver::new();
    let all = Branch::new(&graph, MOST_PAIRS).unwrap();
    let lists = solver.branch(&graph, &all).unwrap();
    assert_eq!((lists.len(), lists.words().len()), (MOST_PAIRS, 0));
    assert!(lists.iter().all(|list| list.is_empty()));
}
