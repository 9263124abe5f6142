//! `paper`: edition 2's work area by hand, and the ways of large graphs held to
//! the slow ones.

use compare::calls::widened;
use compare::cases;
use compare::random::{self, SCALES};
use compare::rng::Rng;
use paper::{Graph, large};

/// 16·(A + N + P + 1) + 4·(leaf entries + head entries).
#[test]
fn work_areas_by_hand() {
    let work_of = |name: &str| {
        let case = cases::all().into_iter().find(|case| case.name == name);
        paper::work_words(&widened(&case.expect(name).content.words()))
    };
    assert_eq!(work_of("C1"), 16);
    assert_eq!(work_of("C2"), 16 * 7 + 4 * 2);
    assert_eq!(work_of("C11"), 16 * 7 + 4 * 3);
    // A tail that an And, an Or and a rule share is counted by each.
    let shared: [u32; 20] = [
        2, 1, 3, 1, 2, 0, 0, 0, 2, 0, 2, 3, 0, 1, 1, 1, /* links */ 0, 2, 0, 0,
    ];
    assert_eq!(paper::work_words(&shared), 16 * 6 + 4 * (3 + 2));
    assert_eq!(paper::work_words(&shared[..19]), 0);
    assert_eq!(paper::work_words(&[1, 0, 0, 0, 0u32]), 0);
    assert_eq!(paper::work_words(&[1, 0, 0, 0, 0u16]), 32_768);
}

/// Closed chains by components, and support by what is fresh.
#[test]
fn ways_of_large_graphs() {
    let mut rng = Rng::new(9);
    let mut marked = 0;
    for i in 0..6_000 {
        let scale = if i % 100 == 0 { 3 } else { i % 3 };
        let words: Vec<u16> = random::graph(&mut rng, SCALES[scale]);
        let graph = Graph::decode(&words).expect("accepted");
        let all = vec![true; graph.nodes.len()];
        assert_eq!(large::closed(&graph, &all).contains(&true), graph.loops());
        let Ok(prepared) = graph.prepared() else {
            continue;
        };
        let closed = large::closed(&graph, &prepared.cone);
        assert_eq!(closed[..graph.atoms], prepared.marked, "{words:?}");
        marked += usize::from(prepared.marked.contains(&true));
        for (never, atom_never) in random::masks(&mut rng, &words, 4) {
            let supported = large::supported(&prepared, &never, &atom_never);
            let slowly = prepared.supported(&never, &atom_never);
            assert_eq!(supported, slowly, "{words:?} {never:x?} {atom_never:x?}");
        }
    }
    assert!(marked > 1_000, "{marked}");
}
