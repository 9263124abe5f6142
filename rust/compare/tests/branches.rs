//! Search branches: calls with one fault each, and wrong readings of the narrowed
//! rows; the comparison must see each. And the papers' branch by hand.

use std::ops::Range;
use std::slice::{from_raw_parts, from_raw_parts_mut};

use compare::agree::{Masks, Side, compare_both};
use compare::calls::{Branch, Calls, Word};
use compare::content::{AND, ATOM, Content, IMPLIES, node, rule};
use compare::random::{self, SCALES};
use compare::rng::Rng;
use compare::{branches, cases, tiny};
use founded::raw;
use oracle::Oracle;
use paper::narrowed::{Narrowed, Start};
use paper::{BRANCH_WORK_WORDS, Graph, Prepared, WORK_WORDS};

/// What a call is lent.
#[derive(Clone, Copy)]
struct Lent {
    graph: (*const u16, usize),
    pairs: usize,
    never: (*const u64, usize),
    atom_never: (*const u64, usize),
    output: (*mut u64, usize),
    work: (*mut u16, usize),
}

impl Lent {
    fn archive(self) -> u32 {
        let (graph, never, atom_never) = (self.graph, self.never, self.atom_never);
        let (output, work) = (self.output, self.work);
        // SAFETY: what is lent to the fault is lent on.
        unsafe {
            raw::founded_branch(
                graph.0,
                graph.1,
                self.pairs,
                never.0,
                never.1,
                atom_never.0,
                atom_never.1,
                output.0,
                output.1,
                work.0,
                work.1,
            )
        }
    }

    fn graph(&self) -> Graph {
        // SAFETY: it is lent for the call.
        Graph::decode(unsafe { from_raw_parts(self.graph.0, self.graph.1) }).expect("accepted")
    }

    /// The masks of a pair, of a graph that is accepted.
    fn pair(&self, pair: usize) -> Masks {
        let graph = self.graph();
        let [n, a] = [graph.nodes.len(), graph.atoms].map(paper::mask_len);
        // SAFETY: as in `graph`.
        let (never, atom_never) = unsafe {
            (
                from_raw_parts(self.never.0, self.never.1),
                from_raw_parts(self.atom_never.0, self.atom_never.1),
            )
        };
        (
            never[pair * n..][..n].to_vec(),
            atom_never[pair * a..][..a].to_vec(),
        )
    }

    fn output(&mut self) -> &mut [u64] {
        // SAFETY: as in `graph`; nothing else has it meanwhile.
        unsafe { from_raw_parts_mut(self.output.0, self.output.1) }
    }

    fn work(&mut self) -> &mut [u16] {
        // SAFETY: as in `output`.
        unsafe { from_raw_parts_mut(self.work.0, self.work.1) }
    }

    /// The pairs after the first, if this is a success.
    fn later_pairs(&self, answer: u32) -> Range<usize> {
        if answer == 0 { 1..self.pairs } else { 0..0 }
    }

    /// The list of a pair.
    fn list(&mut self, pair: usize) -> &mut [u64] {
        let words = self.output.1 / self.pairs;
        &mut self.output()[pair * words..][..words]
    }

    /// Success with each later list worked out anew, from the graph and the pair's
    /// masks as `change` makes them.
    fn later(mut self, change: impl Fn(&mut Graph, &mut Masks)) -> u32 {
        let answer = self.archive();
        for pair in self.later_pairs(answer) {
            let (mut graph, mut masks) = (self.graph(), self.pair(pair));
            let marked = graph.prepared().expect("not refused").marked;
            change(&mut graph, &mut masks);
            let cone = graph.first_cone();
            let prepared = Prepared {
                graph: &graph,
                cone,
                marked,
            };
            let list = paper::pack(&prepared.missing(&masks.0, &masks.1));
            self.list(pair).copy_from_slice(&list);
        }
        answer
    }

    /// Success, the work area cleared, whatever the archive says.
    fn succeeds(mut self) -> u32 {
        self.output().fill(0);
        self.work().fill(0);
        0
    }

    /// The lengths of node masks, atom masks and output for so many pairs.
    fn fits(&self, pairs: usize) -> bool {
        let graph = self.graph();
        let [n, a] = [graph.nodes.len(), graph.atoms].map(paper::mask_len);
        (self.never.1, self.atom_never.1, self.output.1) == (pairs * n, pairs * a, pairs * a)
    }
}

type Fault = fn(Lent) -> u32;

const FAULTS: usize = 29;

/// What each fault does, what is said of it, and the fault.
const ALL: [(&str, &str, Fault); FAULTS] = [
    (
        "the list of the pair before",
        "our branch's output",
        |mut lent| {
            let answer = lent.archive();
            for pair in lent.later_pairs(answer).rev() {
                let before = lent.list(pair - 1).to_vec();
                lent.list(pair).copy_from_slice(&before);
            }
            answer
        },
    ),
    (
        "the last list is missing",
        "our branch's output",
        |mut lent| {
            let before = lent.output().to_vec();
            let answer = lent.archive();
            if answer == 0 {
                let last = lent.list(lent.pairs - 1);
                let from = before.len() - last.len();
                last.copy_from_slice(&before[from..]);
            }
            answer
        },
    ),
    (
        "the first list stands last too",
        "our branch's output",
        |mut lent| {
            let answer = lent.archive();
            if answer == 0 {
                let first = lent.list(0).to_vec();
                lent.list(lent.pairs - 1).copy_from_slice(&first);
            }
            answer
        },
    ),
    (
        "the node mask of the pair before",
        "our branch's output",
        |mut lent| {
            let answer = lent.archive();
            for pair in lent.later_pairs(answer) {
                let graph = lent.graph();
                let (never, atom_never) = (lent.pair(pair - 1).0, lent.pair(pair).1);
                let missing = graph
                    .prepared()
                    .expect("not refused")
                    .missing(&never, &atom_never);
                lent.list(pair).copy_from_slice(&paper::pack(&missing));
            }
            answer
        },
    ),
    (
        "the atom mask of the first pair",
        "our branch's output",
        |mut lent| {
            let answer = lent.archive();
            for pair in lent.later_pairs(answer) {
                let graph = lent.graph();
                let (never, atom_never) = (lent.pair(pair).0, lent.pair(0).1);
                let missing = graph
                    .prepared()
                    .expect("not refused")
                    .missing(&never, &atom_never);
                lent.list(pair).copy_from_slice(&paper::pack(&missing));
            }
            answer
        },
    ),
    (
        "a cut opaque node is a true seed",
        "our branch's output",
        |lent| {
            lent.later(|graph, (never, _)| {
                for (c, node) in graph.nodes.iter().enumerate() {
                    if node.kind == paper::Kind::Opaque {
                        never[c / 64] &= !(1 << (c % 64));
                    }
                }
            })
        },
    ),
    (
        "a cut Atom off every loop is a true seed",
        "our branch's output",
        |lent| {
            lent.later(|graph, (never, _)| {
                let marked = graph.prepared().expect("not refused").marked;
                for (c, node) in graph.nodes.iter().enumerate() {
                    if matches!(node.kind, paper::Kind::Atom(atom) if !marked[atom]) {
                        never[c / 64] &= !(1 << (c % 64));
                    }
                }
            })
        },
    ),
    ("seeds do nothing", "our branch's output", |lent| {
        lent.later(|graph, (never, _)| {
            for (c, node) in graph.nodes.iter().enumerate() {
                if node.kind == paper::Kind::Opaque {
                    never[c / 64] |= 1 << (c % 64);
                }
            }
        })
    }),
    (
        "a repeated parent is left out",
        "our branch's output",
        |lent| {
            // So that the And waits for a leaf once more than it comes.
            lent.later(|graph, (never, _)| {
                for (c, node) in graph.nodes.iter().enumerate() {
                    let mut distinct = node.leaves.clone();
                    distinct.sort_unstable();
                    distinct.dedup();
                    if node.kind == paper::Kind::And && distinct.len() < node.leaves.len() {
                        never[c / 64] |= 1 << (c % 64);
                    }
                }
            })
        },
    ),
    ("facts are left out", "our branch's output", |lent| {
        lent.later(|graph, _| {
            for rule in graph.rules.iter_mut().filter(|rule| rule.body.is_none()) {
                rule.heads.clear();
            }
        })
    }),
    (
        "an empty And never comes true",
        "our branch's output",
        |lent| {
            lent.later(|graph, (never, _)| {
                for (c, node) in graph.nodes.iter().enumerate() {
                    if node.kind == paper::Kind::And && node.leaves.is_empty() {
                        never[c / 64] |= 1 << (c % 64);
                    }
                }
            })
        },
    ),
    ("counts are not reset", "our branch's output", |mut lent| {
        // What was founded for an earlier pair stays founded.
        let answer = lent.archive();
        for pair in lent.later_pairs(answer) {
            let before = lent.list(pair - 1).to_vec();
            for (word, before) in lent.list(pair).iter_mut().zip(before) {
                *word &= before;
            }
        }
        answer
    }),
    ("cut atoms are listed", "our branch's output", |mut lent| {
        let answer = lent.archive();
        for pair in lent.later_pairs(answer) {
            let graph = lent.graph();
            let marked = paper::pack(&graph.prepared().expect("not refused").marked);
            let (_, atom_never) = lent.pair(pair);
            for (at, word) in lent.list(pair).iter_mut().enumerate() {
                *word |= marked[at] & atom_never[at];
            }
        }
        answer
    }),
    ("13 after 10", "our branch: (10, 0)", |lent| {
        let answer = lent.archive();
        if answer == 13 << 16 && !lent.fits(lent.pairs % 67) {
            return 10 << 16;
        }
        answer
    }),
    ("13 before 9", "our branch: (13, 0), document Err", |lent| {
        if lent.pairs == 0 || lent.pairs > 64 {
            return 13 << 16;
        }
        lent.archive()
    }),
    ("13 has a place", "our branch: (13, 1)", |lent| {
        let answer = lent.archive();
        if answer == 13 << 16 {
            answer + 1
        } else {
            answer
        }
    }),
    ("65 pairs pass", "our branch: (0, 0)", |lent| {
        let answer = lent.archive();
        if answer == 13 << 16 && lent.pairs == 65 && lent.fits(65) {
            return lent.succeeds();
        }
        answer
    }),
    ("64 pairs are too many", "our branch: (13, 0)", |lent| {
        let answer = lent.archive();
        if answer == 0 && lent.pairs == 64 {
            return 13 << 16;
        }
        answer
    }),
    ("no pair passes", "our branch: (0, 0)", |lent| {
        let answer = lent.archive();
        if answer == 13 << 16 && lent.pairs == 0 && lent.fits(0) {
            return lent.succeeds();
        }
        answer
    }),
    (
        "the number of pairs is cut to 16 bits",
        "our branch: (0, 0)",
        |mut lent| {
            lent.pairs %= 1 << 16;
            lent.archive()
        },
    ),
    (
        "the number of pairs is cut to 32 bits",
        "our branch: (0, 0)",
        |mut lent| {
            lent.pairs %= 1 << 32;
            lent.archive()
        },
    ),
    (
        "the work area of a lone pass passes",
        "our branch: (0, 0)",
        |mut lent| {
            let mut area = vec![0; BRANCH_WORK_WORDS];
            let work = lent.work;
            if work.1 == WORK_WORDS {
                lent.work = (area.as_mut_ptr(), area.len());
            }
            let answer = lent.archive();
            if work.1 == WORK_WORDS && answer == 0 {
                lent.work = work;
                lent.work().fill(0);
            }
            answer
        },
    ),
    (
        "10 takes a lone pass's lengths",
        "our branch: (0, 0)",
        |lent| {
            let answer = lent.archive();
            if answer == 10 << 16 && lent.fits(1) {
                return lent.succeeds();
            }
            answer
        },
    ),
    ("11 before 10", "our branch: (11, 0)", |lent| {
        let answer = lent.archive();
        if answer == 10 << 16 && lent.work.1 != BRANCH_WORK_WORDS {
            return 11 << 16;
        }
        answer
    }),
    (
        "the end of the work area is left",
        "our branch's work area is not all zero",
        |mut lent| {
            let answer = lent.archive();
            if answer == 0 {
                lent.work()[WORK_WORDS + 4] = 7;
            }
            answer
        },
    ),
    (
        "13 clears the work area",
        "our branch's work area is not unchanged",
        |mut lent| {
            let answer = lent.archive();
            if answer == 13 << 16 {
                lent.work().fill(0);
            }
            answer
        },
    ),
    ("12 leaves a list", "our branch's output", |mut lent| {
        let answer = lent.archive();
        if answer >> 16 == 12 {
            lent.output().fill(0);
        }
        answer
    }),
    (
        "a node mask is written",
        "our branch wrote to the node mask",
        |lent| {
            let answer = lent.archive();
            if answer == 0 && lent.never.1 > 1 {
                // SAFETY: the buffer is the comparison's own.
                unsafe { *lent.never.0.cast_mut().add(1) ^= 1 << 40 };
            }
            answer
        },
    ),
    (
        "a word behind the lists is written",
        "our branch's output",
        |lent| {
            let answer = lent.archive();
            if answer == 0 {
                // SAFETY: the buffer goes on behind what is lent.
                unsafe { *lent.output.0.add(lent.output.1) = 0 };
            }
            answer
        },
    ),
];

/// A search branch with the fault of that number.
#[allow(clippy::too_many_arguments)]
unsafe extern "C" fn faulty<const FAULT: usize>(
    graph: *const u16,
    graph_len: usize,
    pairs: usize,
    never: *const u64,
    never_len: usize,
    atom_never: *const u64,
    atom_never_len: usize,
    output: *mut u64,
    output_len: usize,
    work: *mut u16,
    work_len: usize,
) -> u32 {
    let (_, _, fault) = ALL[FAULT];
    fault(Lent {
        graph: (graph, graph_len),
        pairs,
        never: (never, never_len),
        atom_never: (atom_never, atom_never_len),
        output: (output, output_len),
        work: (work, work_len),
    })
}

macro_rules! faulty {
    ($($number:literal)*) => {
        [$(faulty::<$number>),*]
    };
}

const CALLS: [Branch<u16>; FAULTS] = faulty!(
    0 1 2 3 4 5 6 7 8 9 10 11 12 13 14 15 16 17 18 19 20 21 22 23 24 25 26 27 28
);

/// C1 to C12 and what they lack, with all pairs of masks; and two that are refused.
fn graphs() -> Vec<(Vec<u16>, Vec<Masks>)> {
    let mut contents: Vec<Content> = cases::all().into_iter().map(|case| case.content).collect();
    // Atom 0 from itself, or from an And that lists an opaque node twice.
    contents.push(Content {
        atoms: 1,
        nodes: vec![
            node(ATOM, 0, &[]),
            node(IMPLIES, 0, &[]),
            node(AND, 0, &[1, 1]),
        ],
        rules: vec![rule(1, &[0]), rule(3, &[0])],
    });
    let mut graphs: Vec<_> = contents
        .iter()
        .map(|content| {
            let masks = tiny::all_masks(content.atoms.into(), content.nodes.len());
            (content.words(), masks)
        })
        .collect();
    graphs.push((vec![1, 1, 2, 0, 0, 1, 0, 0, 8, 0, 0], vec![]));
    graphs.push((vec![1, 1, 0, 0], vec![]));
    graphs
}

/// The first difference over the graphs.
fn found(branch: Branch<u16>) -> Option<String> {
    let calls = Calls {
        branch: Some(branch),
        ..u16::ARCHIVE
    };
    let (mut narrow, mut wide) = (Side::new(calls), Side::new(u32::ARCHIVE));
    let mut differs = |(words, masks): &(Vec<u16>, Vec<Masks>)| {
        compare_both(words, masks, &mut narrow, &mut wide)
            .and_then(|()| branches::wrong_lengths(words, &mut narrow.ours))
            .err()
    };
    let difference = graphs().iter().find_map(&mut differs)?;
    assert_eq!(difference.edition, 1);
    Some(difference.what)
}

#[test]
fn each_fault_is_seen() {
    assert_eq!(found(raw::founded_branch), None);
    for ((name, what, _), call) in ALL.iter().zip(CALLS) {
        let said = found(call).unwrap_or_else(|| panic!("not seen: {name}"));
        assert!(said.contains(what), "{said:?} for {name:?}");
    }
}

/// A wrong reading of the narrowed rows.
type Reading = fn(&Prepared<'_>, &mut Narrowed);

/// What each does, and it.
const READINGS: [(&str, Reading); 12] = [
    ("a repeated parent is left out", |_, rows| {
        rows.parents_per_condition.iter_mut().for_each(Vec::dedup);
    }),
    ("a repeated head is left out", |_, rows| {
        rows.heads_per_body.iter_mut().for_each(Vec::dedup);
    }),
    ("parents from the last", |_, rows| {
        rows.parents_per_condition
            .iter_mut()
            .for_each(|row| row.reverse());
    }),
    ("heads in the order of their numbers", |_, rows| {
        rows.heads_per_body
            .iter_mut()
            .for_each(|row| row.sort_unstable());
    }),
    ("parents outside the cone are kept", |prepared, rows| {
        rows.parents_per_condition = prepared.graph.rows().parents_per_condition;
    }),
    ("heads off every loop are kept", |prepared, rows| {
        let of = prepared.graph.rows().rules_per_body;
        for (row, rules) in rows.heads_per_body.iter_mut().zip(of) {
            let heads = rules.iter().map(|&rule| &prepared.graph.rules[rule].heads);
            *row = heads.flatten().copied().collect();
        }
    }),
    ("no row for the facts", |_, rows| {
        rows.heads_per_body
            .last_mut()
            .expect("one at least")
            .clear();
    }),
    ("the facts' row comes first", |_, rows| {
        rows.heads_per_body.rotate_right(1);
    }),
    ("the seeds come first", |_, rows| {
        std::mem::swap(&mut rows.counters, &mut rows.seeds);
    }),
    ("an empty And is no seed", |_, rows| {
        let empty = |&c: &usize| rows.starts[c] == Some(Start::Waits(0));
        let (counters, seeds) = rows.seeds.iter().copied().partition(empty);
        let _: &Vec<usize> = &counters;
        rows.counters.extend(counters);
        rows.counters.sort_unstable();
        rows.seeds = seeds;
    }),
    ("a False is a seed", |_, rows| {
        let never = |&c: &usize| rows.starts[c] == Some(Start::Never);
        let (seeds, counters) = rows.counters.iter().copied().partition(never);
        let _: &Vec<usize> = &seeds;
        rows.seeds.extend(seeds);
        rows.seeds.sort_unstable();
        rows.counters = counters;
    }),
    ("an And waits for one", |_, rows| {
        for start in rows.starts.iter_mut().flatten() {
            if matches!(start, Start::Waits(2..)) {
                *start = Start::Waits(1);
            }
        }
    }),
];

/// Whether a reading is the original's on this graph; none if it has no such rows.
fn same(words: &[u16], reading: Option<Reading>) -> Option<bool> {
    let graph = Graph::decode(words).expect("accepted");
    let prepared = graph.prepared().ok()?;
    let mut rows = prepared.narrowed();
    if let Some(reading) = reading {
        reading(&prepared, &mut rows);
    }
    let original = Oracle::new(words).expect("rows");
    let mut scratch = original.branch();
    let [never, atom_never] =
        [graph.nodes.len(), graph.atoms].map(|count| vec![0; paper::mask_len(count)]);
    for _ in 0..2 {
        scratch.missing(&never, &atom_never).expect("not refused");
    }
    let theirs = scratch.projected().expect("the second pass made it");
    Some(branches::same_rows(&theirs, &rows).is_ok())
}

#[test]
fn each_wrong_reading_of_the_rows_is_seen() {
    let mut rng = Rng::new(12);
    let graphs: Vec<Vec<u16>> = (0..600)
        .map(|_| random::graph(&mut rng, SCALES[2]))
        .filter(|words| paper::check(words).is_ok())
        .collect();
    assert!(graphs.iter().all(|words| same(words, None) != Some(false)));
    for (name, reading) in READINGS {
        let seen = graphs
            .iter()
            .filter(|words| same(words, Some(reading)) == Some(false));
        let seen = seen.count();
        assert!(seen > 10, "{seen}: {name}");
    }
}

/// The narrowed rows of one graph, worked out by hand.
#[test]
fn narrowed_rows_by_hand() {
    let content = Content {
        atoms: 3,
        // Atom 0, Atom 2, an opaque one and And(0, 0, 1); outside the second cone And(0, 2)
        // and an empty And.
        nodes: vec![
            node(ATOM, 0, &[]),
            node(ATOM, 2, &[]),
            node(IMPLIES, 0, &[]),
            node(AND, 0, &[0, 0, 1]),
            node(AND, 0, &[0, 2]),
            node(AND, 0, &[]),
        ],
        rules: vec![
            rule(4, &[1, 0, 1, 0]),
            rule(5, &[1]),
            rule(0, &[2, 0, 0]),
            rule(6, &[1]),
            rule(0, &[1]),
        ],
    };
    let graph = Graph::decode(&content.words()).expect("accepted");
    let prepared = graph.prepared().expect("no kind 7");
    // No condition names atom 1, and atom 2 is stated alone: neither is on a loop.
    assert_eq!(prepared.marked, [true, false, false]);
    let rows = prepared.narrowed();
    let none = Vec::<usize>::new;
    assert_eq!(
        rows.parents_per_condition,
        [vec![3, 3], vec![3], none(), none(), none(), none()]
    );
    assert_eq!(
        rows.heads_per_body,
        [
            none(),
            none(),
            none(),
            vec![0, 0],
            none(),
            none(),
            vec![0, 0]
        ]
    );
    assert_eq!((rows.counters, rows.seeds), (vec![0, 3], vec![1]));
    let starts = [Start::Waits(1), Start::Unless(2), Start::Waits(3)];
    assert_eq!([0, 1, 3].map(|c| rows.starts[c]), starts.map(Some));
    assert_eq!([2, 4, 5].map(|c| rows.starts[c]), [None; 3]);
}

/// Each boundary of the request: number and place, or the lists.
#[test]
fn the_papers_branch_by_hand() {
    let c3 = [
        1, 2, 2, 3, 2, 1, 0, 0, 1, 1, 0, 2, 1, 1, 2, 0, 1, 0, 0, 1, 0,
    ];
    let branch = |words: &[u16], pairs: usize, lengths: [usize; 4]| {
        let [never, atom_never, output, work] = lengths;
        let (never, atom_never) = (vec![0; never], vec![0; atom_never]);
        paper::branch(words, pairs, &never, &atom_never, output, work)
            .map_err(|refusal| (refusal.number, refusal.place))
    };
    let work = 49_152;
    assert_eq!(branch(&c3, 1, [1, 1, 1, work]), Ok(vec![0]));
    assert_eq!(branch(&c3, 64, [64, 64, 64, work]), Ok(vec![0; 64]));
    assert_eq!(branch(&c3, 65, [65, 65, 65, work]), Err((13, 0)));
    assert_eq!(branch(&c3, 0, [0, 0, 0, work]), Err((13, 0)));
    // 13 before 10 and 11, and after the graph's own
    assert_eq!(branch(&c3, 0, [9, 9, 9, 9]), Err((13, 0)));
    assert_eq!(branch(&c3[..20], 0, [0, 0, 0, work]), Err((3, 0)));
    // 10 before 11
    assert_eq!(branch(&c3, 2, [2, 2, 1, 0]), Err((10, 0)));
    assert_eq!(branch(&c3, 2, [1, 2, 2, work]), Err((10, 0)));
    assert_eq!(branch(&c3, 2, [2, 3, 2, work]), Err((10, 0)));
    for other in [0, 32_768, work - 1, work + 1] {
        assert_eq!(branch(&c3, 2, [2, 2, 2, other]), Err((11, 0)));
    }
    // C1: no length tells the number of pairs
    let c1 = [1, 0, 0, 0, 0];
    assert_eq!(branch(&c1, 1, [0, 0, 0, work]), Ok(vec![]));
    assert_eq!(branch(&c1, 64, [0, 0, 0, work]), Ok(vec![]));
    assert_eq!(branch(&c1, 65, [0, 0, 0, work]), Err((13, 0)));
    // C3, C4 and C5 in one call; then two pairs of masks of two words
    let lists = paper::branch(&c3, 3, &[0, 0, 1], &[0, 1, 0], 3, work);
    assert_eq!(lists, Ok(vec![0, 2, 2]));
    let mut ring: Vec<u16> = vec![1, 66, 66, 66, 66];
    ring.extend((0..66).flat_map(|atom| [1, atom, 0]));
    ring.extend((1..=66).flat_map(|n| [n, n]));
    ring.extend((0..66).flat_map(|atom| [(atom + 1) % 66, 0]));
    let lists = paper::branch(&ring, 2, &[0; 4], &[1, 2, 0, 0], 4, work);
    assert_eq!(lists, Ok(vec![!1, 1, !0, 3]));
}
