//! The random graphs have what their module promises.

use compare::agree::Masks;
use compare::random::{self, SCALES, WIDE_SCALES};
use compare::rng::Rng;
use paper::{Graph, Kind};

/// Graphs that show each feature.
#[derive(Debug, Default)]
struct Seen {
    shared_tails: usize,
    repeats: usize,
    facts: usize,
    no_heads: usize,
    empty_and: usize,
    empty_or: usize,
    opaque: usize,
    absorbed_inside: usize,
    absorbed_outside: usize,
    wild_links: usize,
    nexts_below: usize,
    own_links: usize,
}

impl Seen {
    fn add(&mut self, words: &[u16]) {
        let graph = Graph::decode(words).expect("random graphs pass the graph check");
        let empty = |kind| {
            graph
                .nodes
                .iter()
                .any(|node| node.kind == kind && node.leaves.is_empty())
        };
        let lists = || {
            graph
                .nodes
                .iter()
                .map(|node| &node.leaves)
                .chain(graph.rules.iter().map(|rule| &rule.heads))
        };
        let repeats = |list: &Vec<usize>| (1..list.len()).any(|i| list[..i].contains(&list[i]));
        let absorbed = graph.nodes.iter().any(|node| node.kind == Kind::Absorbed);
        let entries: usize = lists().map(Vec::len).sum();
        let links = usize::from(words[4]);
        let records = words[words.len() - 2 * links..].as_chunks::<2>().0;
        let mut values = records.iter().map(|&[value, _]| value);
        let mut nexts = (1..).zip(records.iter().map(|&[_, next]| next));
        self.nexts_below += usize::from(nexts.clone().any(|(own, next)| next > 0 && next < own));
        self.own_links += usize::from(nexts.any(|(own, next)| next == own));
        self.shared_tails += usize::from(entries > links);
        self.repeats += usize::from(lists().any(repeats));
        self.facts += usize::from(graph.rules.iter().any(|rule| rule.body.is_none()));
        self.no_heads += usize::from(graph.rules.iter().any(|rule| rule.heads.is_empty()));
        self.empty_and += usize::from(empty(Kind::And));
        self.empty_or += usize::from(empty(Kind::Or));
        self.opaque += usize::from(empty(Kind::Opaque));
        self.absorbed_inside += usize::from(absorbed && graph.prepared().is_err());
        self.absorbed_outside += usize::from(absorbed && graph.prepared().is_ok());
        self.wild_links += usize::from(values.any(|value| value > 1_024));
    }

    fn least(&self) -> usize {
        let counts = [
            self.shared_tails,
            self.repeats,
            self.facts,
            self.no_heads,
            self.empty_and,
            self.empty_or,
            self.opaque,
            self.absorbed_inside,
            self.absorbed_outside,
            self.wild_links,
            self.nexts_below,
            self.own_links,
        ];
        counts.into_iter().min().unwrap_or(0)
    }
}

#[test]
fn features_of_random_graphs() {
    let mut rng = Rng::new(3);
    let mut seen = Seen::default();
    for i in 0..3_000 {
        seen.add(&random::graph::<u16>(&mut rng, SCALES[i % 3]));
    }
    assert!(seen.least() >= 50, "{seen:?}");
}

/// Another numbering of the links leaves the content, and the numbers differ.
#[test]
fn renumbered_graphs() {
    let mut rng = Rng::new(8);
    let mut differ = 0;
    for i in 0..3_000 {
        let words: Vec<u16> = random::graph(&mut rng, SCALES[i % 3]);
        let graph = Graph::decode(&words);
        let turned = random::turned(&words);
        assert_eq!(random::turned(&turned), words);
        let others = [random::renumbered(&mut rng, &words), turned];
        assert!(others.iter().all(|other| Graph::decode(other) == graph));
        differ += usize::from(others.iter().all(|other| *other != words));
    }
    assert!(differ > 2_000, "{differ}");
}

/// Some random graphs fill every count, and some entries come close to 4,096.
#[test]
fn largest_random_graphs() {
    let mut rng = Rng::new(4);
    let graphs: Vec<Vec<u16>> = (0..40)
        .map(|_| random::graph(&mut rng, SCALES[5]))
        .collect();
    assert!(graphs.iter().all(|words| paper::check(words).is_ok()));
    assert!(graphs.iter().any(|words| words[1..4] == [1_024; 3]));
    assert!(graphs.iter().any(|words| words[4] >= 4_095));
}

/// Those of edition 2 are above edition 1's limits, and the largest fill every
/// count; what is missing of them is neither none nor all of the marked.
#[test]
fn wide_random_graphs() {
    let mut rng = Rng::new(6);
    let mut parted = 0;
    for _ in 0..20 {
        let words: Vec<u32> = random::graph(&mut rng, WIDE_SCALES[0]);
        assert!(words[1..4].iter().all(|&count| count > 1_024));
        let graph = Graph::decode(&words).expect("accepted");
        let Ok(prepared) = graph.prepared() else {
            continue;
        };
        let (never, atom_never) = random::masks(&mut rng, &words, 2).swap_remove(1);
        let missing = prepared.missing(&never, &atom_never);
        let left = (0..graph.atoms).any(|a| prepared.marked[a] && !missing[a]);
        parted += usize::from(left && missing.contains(&true));
    }
    assert!(parted >= 5, "{parted}");
    let words: Vec<u32> = (0..)
        .map(|_| random::graph(&mut rng, WIDE_SCALES[3]))
        .find(|words: &Vec<u32>| words[1..4] == [262_144; 3])
        .expect("one in eight");
    assert_eq!(paper::check(&words), Ok(()));
    assert!(words[4] > 1_000_000, "{} links", words[4]);
}

#[test]
fn ignored_mask_bits_are_wild() {
    let mut rng = Rng::new(5);
    let past = |rng: &mut Rng| random::mask(rng, 3)[0] >> 3;
    assert!((0..100).filter(|_| past(&mut rng) != 0).count() > 90);
}

/// Of the pairs of a search most are the one before but for a bit in either mask; some
/// are an earlier one again.
#[test]
fn pairs_of_a_search() {
    let mut rng = Rng::new(10);
    let (mut near, mut again, mut all) = (0, 0, 0);
    for i in 0..300 {
        let words: Vec<u16> = random::graph(&mut rng, SCALES[i % 4]);
        let graph = Graph::decode(&words).expect("accepted");
        let pairs = random::search(&mut rng, &words, 64);
        assert_eq!(pairs.len(), 64);
        let [nodes, atoms] = [graph.nodes.len(), graph.atoms].map(paper::mask_len);
        let lengths = |(never, atom_never): &Masks| (never.len(), atom_never.len());
        assert!(pairs.iter().all(|pair| lengths(pair) == (nodes, atoms)));
        let turned = |one: &[u64], other: &[u64]| {
            let words = one.iter().zip(other);
            words
                .map(|(one, other)| (one ^ other).count_ones())
                .sum::<u32>()
        };
        for (at, pair) in pairs.iter().enumerate().skip(1) {
            let before = &pairs[at - 1];
            let bits = [turned(&pair.0, &before.0), turned(&pair.1, &before.1)];
            near += usize::from(bits.iter().all(|&bits| bits <= 1));
            again += usize::from(pairs[..at].contains(pair));
            all += 1;
        }
    }
    assert!(near > all / 2 && near < all, "{near} of {all}");
    assert!(again > all / 10 && again < all, "{again} of {all}");
}
