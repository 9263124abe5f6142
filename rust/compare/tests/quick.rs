//! The quick part of the comparison.

use compare::calls::Word;
use compare::cases::{self, Expected};
use compare::random::WIDE_SCALES;
use compare::{edges, pairs, runs};
use oracle::{Ended, Oracle};

#[test]
fn cases_c1_to_c12() {
    let all = cases::all();
    assert_eq!(all.len(), 15);
    for case in all {
        let words = case.content.words();
        let graph = paper::Graph::decode(&words).expect(case.name);
        let original = Oracle::new(&words).expect(case.name);
        let masks = case.masks();
        match case.expected {
            Expected::Answers(loops, missing) => {
                let mut set = vec![false; graph.atoms];
                missing.iter().for_each(|&atom| set[atom] = true);
                let found = graph
                    .prepared()
                    .expect(case.name)
                    .missing(&masks.0, &masks.1);
                assert_eq!(
                    (graph.loops(), found),
                    (loops, set.clone()),
                    "{}",
                    case.name
                );
                let found = (original.needed(), original.missing(&masks.0, &masks.1));
                assert_eq!(found, (Ok(loops), Ok(paper::pack(&set))), "{}", case.name);
            }
            Expected::Absorbed(place) => {
                let refusal = graph.prepared().expect_err(case.name);
                assert_eq!((refusal.number, refusal.place), (12, place));
                let found = original.missing(&masks.0, &masks.1);
                assert_eq!(found, Err(Ended::InvalidProgram));
            }
        }
    }
}

fn edges_of<W: Word>() {
    for edge in edges::all::<W>() {
        let found = paper::check(&edge.words)
            .err()
            .map(|refusal| (refusal.number, refusal.place));
        assert_eq!(found, edge.refusal, "{}", edge.name);
    }
}

#[test]
fn edges_of_the_table() {
    edges_of::<u16>();
    edges_of::<u32>();
}

#[test]
fn largest_graphs_are_accepted() {
    for words in edges::largest::<u16>() {
        assert_eq!(paper::check(&words), Ok(()));
    }
    for words in edges::largest::<u32>() {
        assert_eq!(paper::check(&words), Ok(()));
    }
}

#[test]
fn limits() {
    runs::limits(1).expect("no difference");
}

#[test]
fn every_tiny_content() {
    for sizes in runs::tiny_sizes(&runs::QUICK_CONTENTS) {
        runs::contents(sizes).expect("no difference");
    }
}

#[test]
fn every_tiny_pattern() {
    for counts in runs::tiny_counts(&runs::QUICK_PATTERNS) {
        runs::patterns(counts).expect("no difference");
    }
}

#[test]
fn random_graphs() {
    runs::graphs(1, 0, 20_000).expect("no difference");
}

#[test]
fn short_masks() {
    runs::short(1, 0, 1_000).expect("no difference");
}

#[test]
fn renumbered_links() {
    runs::renumbered(1, 0, 4_000).expect("no difference");
}

#[test]
fn damaged_copies() {
    runs::damaged(1, 0, 20_000).expect("no difference");
}

#[test]
fn search_branches() {
    let [tally, _] = runs::searched(1, 0, 1_500).expect("no difference");
    // All kinds of them: 12, something missing, rows that are narrowed.
    assert!(tally.refused[12] > 20 && tally.later > 40_000, "{tally:?}");
    assert!(tally.narrowed > 300 && tally.narrowed < 1_400, "{tally:?}");
    assert!(tally.missing > 5_000, "{tally:?}");
}

#[test]
fn limits_of_edition_2() {
    runs::wide_limits(1, 2).expect("no difference");
}

#[test]
fn wide_random_graphs() {
    for (scale, graphs) in WIDE_SCALES.into_iter().zip([30, 6, 1, 1]) {
        runs::wide_graphs(1, scale, 0, graphs).expect("no difference");
    }
}

#[test]
fn wide_damaged_copies() {
    runs::wide_damaged(1, 0, 10_000).expect("no difference");
}

#[test]
fn pairs_of_tiny_contents() {
    let tally = pairs::contents(&pairs::CONTENTS, pairs::ARCHIVE).expect("no difference");
    assert!(
        tally.less > 0 && tally.equal > 0 && tally.greater > 0,
        "{tally:?}"
    );
}

#[test]
fn pairs_with_tiny_patterns() {
    let tally = pairs::patterns([1, 1, 1, 2], pairs::ARCHIVE).expect("no difference");
    assert!(
        tally.first_refused > 0 && tally.second_refused > 0,
        "{tally:?}"
    );
}

#[test]
fn pairs_of_random_graphs() {
    let tally = pairs::graphs(1, 0, 2_000, pairs::ARCHIVE).expect("no difference");
    assert!(
        tally.renumbered > 0 && tally.second_refused > 0,
        "{tally:?}"
    );
}
