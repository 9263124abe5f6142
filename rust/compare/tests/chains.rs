//! Graph checks that read request 5 in a wrong way: the comparison must see each.

use compare::agree::{Side, compare};
use compare::calls::{Calls, Word};
use compare::edges::{self, Edge};

/// The records that the faults look at.
struct Graph<'a, W>(&'a [W]);

impl<W: Word> Graph<'_, W> {
    /// N, P and K.
    fn counts(&self) -> [usize; 3] {
        [2, 3, 4].map(|at| self.0[at].number())
    }

    fn next(&self, link: usize) -> usize {
        let [.., k] = self.counts();
        self.0[self.0.len() - 2 * k + 2 * link - 1].number()
    }

    fn value(&self, link: usize) -> usize {
        let [.., k] = self.counts();
        self.0[self.0.len() - 2 * k + 2 * link - 2].number()
    }

    fn nodes(&self) -> impl Iterator<Item = usize> {
        let [n, ..] = self.counts();
        (0..n).map(|c| self.0[5 + 3 * c + 2].number())
    }

    fn rules(&self) -> impl Iterator<Item = usize> {
        let [n, p, _] = self.counts();
        (0..p).map(move |r| self.0[5 + 3 * n + 2 * r + 1].number())
    }

    /// The first links of all chains, nodes first.
    fn firsts(&self) -> impl Iterator<Item = usize> {
        self.nodes().chain(self.rules())
    }

    /// The links along a chain, up to K and one more; one above K ends it.
    fn links(&self, first: usize) -> Vec<usize> {
        let [.., k] = self.counts();
        let link = |l: usize| (1..=k).contains(&l).then_some(l);
        std::iter::successors(link(first), |&l| link(self.next(l)))
            .take(k + 1)
            .collect()
    }

    fn comes_back(&self, first: usize) -> bool {
        let [.., k] = self.counts();
        self.links(first).len() > k
    }

    /// The first link of the chain that 14 is given for.
    fn refused(&self) -> usize {
        self.firsts()
            .find(|&first| self.comes_back(first))
            .expect("a chain comes back")
    }
}

/// Number and place that the fault gives in place of the archive's, on a graph as
/// long as its header says.
type Fault<W> = fn(&Graph<'_, W>, (u32, u32)) -> (u32, u32);

const FAULTS: usize = 10;

/// What each fault does, and it.
fn faults<W: Word>() -> [(&'static str, Fault<W>); FAULTS] {
    [
        ("a circle entered from outside passes", |graph, answer| {
            let once = |links: &[usize]| !links[1..].contains(&links[0]);
            match answer {
                (14, _) if once(&graph.links(graph.refused())) => (0, 0),
                _ => answer,
            }
        }),
        ("a circle in no chain is refused", |graph, answer| {
            let [.., k] = graph.counts();
            match answer {
                (0, 0) if (1..=k).any(|l| graph.comes_back(l)) => (14, 0),
                _ => answer,
            }
        }),
        ("an own link in a chain passes", |graph, answer| {
            let own = |links: Vec<usize>| links.iter().any(|&l| graph.next(l) == l);
            match answer {
                (14, _) if own(graph.links(graph.refused())) => (0, 0),
                _ => answer,
            }
        }),
        ("an own link in no chain is refused", |graph, answer| {
            let [.., k] = graph.counts();
            match (answer, (1..=k).find(|&l| graph.next(l) == l)) {
                ((0, 0), Some(own)) => (6, own as u32),
                _ => answer,
            }
        }),
        ("14 before 6", |graph, answer| {
            let place = graph.nodes().position(|first| graph.comes_back(first));
            match (answer, place) {
                ((6, _), Some(place)) => (14, place as u32),
                _ => answer,
            }
        }),
        ("14 after 7", |graph, answer| {
            let mut nodes = graph.nodes().enumerate();
            let wrong = |(c, first): (usize, usize)| {
                let links = graph.links(first);
                links.iter().any(|&l| graph.value(l) >= c)
            };
            match (answer, nodes.position(wrong)) {
                ((14, _), Some(place)) => (7, place as u32),
                _ => answer,
            }
        }),
        ("a rule's place before a node's", |graph, answer| {
            let place = graph.rules().position(|first| graph.comes_back(first));
            match (answer, place) {
                ((14, _), Some(place)) => (14, place as u32),
                _ => answer,
            }
        }),
        ("a chain of K links is refused", |graph, answer| {
            let [.., k] = graph.counts();
            let all = |first: usize| k > 1 && graph.links(first).len() == k;
            match answer {
                (0, 0) if graph.firsts().any(all) => (14, 0),
                _ => answer,
            }
        }),
        ("a next below its own link is refused", |graph, answer| {
            let [.., k] = graph.counts();
            let below = |l: &usize| (1..*l).contains(&graph.next(*l));
            match (answer, (1..=k).find(below)) {
                ((0, 0), Some(link)) => (6, link as u32),
                _ => answer,
            }
        }),
        ("a next above K passes", |_, answer| match answer {
            (6, _) => (0, 0),
            _ => answer,
        }),
    ]
}

/// A graph check with the fault of that number.
unsafe extern "C" fn faulty<W: Word, const FAULT: usize>(words: *const W, len: usize) -> W::Code {
    let answer = unsafe { (W::ARCHIVE.check)(words, len) };
    let (number, place) = W::parts(answer);
    if (1..=3).contains(&number) {
        return answer;
    }
    let graph = Graph(unsafe { std::slice::from_raw_parts(words, len) });
    let (_, fault) = faults::<W>()[FAULT];
    let (number, place) = fault(&graph, (number, place));
    W::code(number, place)
}

/// The edges on which a graph check is not the papers', by name.
fn seen<W: Word>(
    check: unsafe extern "C" fn(*const W, usize) -> W::Code,
    edges: &[Edge<W>],
) -> Vec<&str> {
    let mut side = Side::new(Calls {
        check,
        ..W::ARCHIVE
    });
    let mut differs = |edge: &&Edge<W>| compare(&edge.words, &[], &mut side).is_err();
    let seen = edges.iter().filter(|edge| differs(edge));
    seen.map(|edge| &edge.name[..]).collect()
}

fn each_is_seen<W: Word>() {
    let mut edges = edges::all::<W>();
    edges.retain(|edge| edge.words.len() < 100);
    assert_eq!(seen(W::ARCHIVE.check, &edges), [""; 0]);
    let checks: [unsafe extern "C" fn(*const W, usize) -> W::Code; FAULTS] = [
        faulty::<W, 0>,
        faulty::<W, 1>,
        faulty::<W, 2>,
        faulty::<W, 3>,
        faulty::<W, 4>,
        faulty::<W, 5>,
        faulty::<W, 6>,
        faulty::<W, 7>,
        faulty::<W, 8>,
        faulty::<W, 9>,
    ];
    for ((name, _), check) in faults::<W>().iter().zip(checks) {
        assert!(!seen(check, &edges).is_empty(), "{name}");
    }
}

#[test]
fn each_wrong_reading_is_seen() {
    each_is_seen::<u16>();
    each_is_seen::<u32>();
}
