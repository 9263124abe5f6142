//! The inputs are what their module says, and both sides answer alike on them.

use bench::branches;
use bench::inputs::{self, Input, SIZES, WIDE_SIZES, WIDE_WORDS};
use bench::plain;
use bench::sides::{Answer, Before, Call, Ours, Theirs};
use bench::word::Word;
use compare::rng::Rng;
use compare::{damage, edges, random};
use paper::{Graph, Kind};

#[test]
fn shape_of_the_inputs() {
    let all = inputs::all::<u16>(None);
    assert_eq!(all.len(), 2 * SIZES.len());
    for input in all {
        assert_eq!(input.graphs.len() * input.size, 8 * 1_024);
        let mut parts = 0;
        for words in &input.graphs {
            let graph = Graph::decode(words).expect("accepted");
            let half = input.size / 2;
            let atoms = |node: &&paper::Node| matches!(node.kind, Kind::Atom(_));
            let counts = (graph.atoms, graph.nodes.len(), graph.rules.len());
            assert_eq!(counts, (input.size, input.size, input.size));
            assert_eq!(graph.nodes.iter().filter(atoms).count(), half);
            assert!(
                graph.nodes[half..]
                    .iter()
                    .all(|node| node.leaves.len() == 8)
            );
            assert!(graph.rules.iter().all(|rule| rule.heads.len() == 4));
            assert_eq!(graph.loops(), input.loops);
            let bodies = graph.rules.iter().filter(|rule| rule.body.is_some());
            parts += 2 * input.size + half + 8 * half + 4 * bodies.count();
        }
        assert_eq!(parts, input.parts);
    }
}

/// The words of edition 2 for the content of a graph of edition 1.
fn widened(words: &[u16]) -> Vec<u32> {
    let mut wide: Vec<u32> = words.iter().copied().map(u32::from).collect();
    if let Some(edition) = wide.first_mut() {
        *edition += 1;
    }
    wide
}

#[test]
fn both_editions_have_the_same_content() {
    let (wide, narrow) = (inputs::all::<u32>(None), inputs::all::<u16>(None));
    for (wide, narrow) in wide.iter().zip(&narrow) {
        let words = narrow.graphs.iter().map(|words| widened(words));
        assert!(words.eq(wide.graphs.iter().cloned()));
        assert_eq!(wide.parts, narrow.parts);
    }
}

/// Another order has the same content, and some next is below its own link.
fn turned<W: Word + compare::calls::Word>() {
    for input in inputs::all::<W>(Some(2)) {
        let any = inputs::any_order(&input);
        assert_eq!(
            (any.size, any.loops, any.parts),
            (input.size, input.loops, input.parts)
        );
        for (words, other) in input.graphs.iter().zip(&any.graphs) {
            assert_eq!(Graph::decode(words), Graph::decode(other));
            let links = other.len() - 8 * input.size;
            let nexts = (1..).zip(other[links..].as_chunks::<2>().0.iter().map(|link| link[1]));
            let next = |word: W| -> u32 { word.into() };
            assert!(
                nexts
                    .into_iter()
                    .any(|(own, word)| (1..own).contains(&next(word)))
            );
            assert_eq!(plain::check(other), Ok(()));
        }
    }
}

#[test]
fn links_in_any_order() {
    turned::<u16>();
    turned::<u32>();
}

#[test]
fn memory_of_a_wide_call() {
    for size in WIDE_SIZES {
        let input = inputs::input::<u32>(size, false, Some(1));
        let graph = &input.graphs[0];
        let words = graph.len() + u32::work_words(graph);
        assert_eq!(words, WIDE_WORDS * size + 5 + 16);
    }
    assert_eq!(WIDE_SIZES[4], u32::MOST);
}

fn alike<W: Word>(inputs: &[Input<W>], befores: &[Before]) {
    for input in inputs {
        let mut ours = Ours::new(&input.graphs[0]);
        for words in &input.graphs {
            let mut theirs = Theirs::new(words);
            for call in Call::ALL {
                let answer = ours.answer(call, words);
                for &before in befores {
                    let expected = theirs.run(call, words, before, |run| run());
                    assert_eq!(answer, expected, "{call:?} at {}", input.size);
                }
                if call == Call::Preparation {
                    let cyclic = |word: &u64| *word != 0;
                    let Answer::Atoms(atoms) = answer else {
                        unreachable!("preparation lists atoms")
                    };
                    assert_eq!(atoms.iter().any(cyclic), input.loops);
                }
            }
        }
    }
}

#[test]
fn both_sides_answer_alike() {
    alike(&inputs::all::<u16>(None), &Before::ALL);
    alike(&inputs::all::<u32>(None), &Before::ALL);
}

#[test]
fn both_sides_answer_alike_on_large_graphs() {
    for (size, loops) in [(WIDE_SIZES[1], false), (u32::MOST, true)] {
        alike(
            &[inputs::input::<u32>(size, loops, None)],
            &[Before::Theory],
        );
    }
}

/// The plain check against document 01's reading of the table; that of edition 2
/// against the proved one.
fn same_refusal(words: &[u16]) {
    let expected = paper::check(words).map_err(|refusal| (refusal.number, refusal.place));
    assert_eq!(plain::check(words), expected, "{words:?}");
    let wide = widened(words);
    // Safety: pointer and length are those of a slice.
    let code = unsafe { u32::CHECK(wide.as_ptr(), wide.len()) };
    let refusal = ((code >> 32) as u16, code as u32);
    assert_eq!(
        plain::check(&wide).err().unwrap_or_default(),
        refusal,
        "{wide:?}"
    );
}

#[test]
fn the_plain_check_is_the_table() {
    for edge in edges::all() {
        same_refusal(&edge.words);
    }
    let mut rng = Rng::new(7);
    for _ in 0..20_000 {
        let words = random::graph(&mut rng, random::SCALES[2]);
        same_refusal(&words);
        same_refusal(&damage::copy(&mut rng, &words));
    }
}

/// Branches, lone calls and the original on one scratch have the same lists. Of the
/// cuts there are as many as their share says, and lists differ where there are loops.
#[test]
fn branches_are_alike() {
    for input in inputs::all::<u16>(Some(3)) {
        for cuts in branches::CUTS {
            let masks = branches::masks(&input, cuts);
            let bits = |words: &[u64]| words.iter().map(|word| word.count_ones()).sum::<u32>();
            let mut cut = 0;
            let mut differ = false;
            for (words, masks) in input.graphs.iter().zip(&masks) {
                cut += bits(&masks.never) + bits(&masks.atom_never);
                let [mut branch, mut two, mut lone] =
                    [(); 3].map(|()| branches::Ours::new(input.size));
                assert_eq!(branch.branch(words, masks, 64), 0);
                assert_eq!(two.branch(words, masks, 2), 0);
                assert_eq!(lone.lone(words, masks), 0);
                assert_eq!(branch.lists, lone.lists);
                let each = branch.lists.len() / 64;
                assert_eq!(two.lists[..2 * each], lone.lists[..2 * each]);
                let oracle = oracle::Oracle::new(words).expect("rows");
                for before in [0, branches::BEFORE] {
                    let mut theirs = vec![!0; lone.lists.len()];
                    branches::theirs(&oracle, masks, &mut theirs, before, |passes| passes());
                    assert_eq!(theirs, lone.lists);
                }
                differ |= lone
                    .lists
                    .chunks(each)
                    .any(|list| list != &lone.lists[..each]);
            }
            let all = 3 * 2 * 64 * input.size as u32;
            let share = f64::from(100 * cut) / f64::from(all);
            assert!((share - cuts as f64).abs() < 1.0, "{share} for {cuts}");
            // Small graphs have few cuts.
            let few = (input.size, cuts) == (16, 5);
            assert!(differ == (input.loops && cuts > 0) || few);
        }
    }
}
