//! The builder: what goes in comes out, in both editions, and what cannot be is said.

mod common;

use common::{Made, Rng, Width, theory};
use founded::{AtomId, Error, GraphOf, Node, NodeId, ProducerId, Solver, Theory};

/// Reads a graph back. Gives the loop test's answer.
fn read_back<W: Width>((_, nodes, producers): &Made, graph: &GraphOf<W>) -> bool {
    assert_eq!(graph.nodes(), nodes.len());
    assert_eq!(graph.producers(), producers.len());
    for (n, node) in nodes.iter().enumerate() {
        assert_eq!(graph.node(NodeId(n as u32)).as_ref(), Some(node));
    }
    for (p, (body, heads)) in producers.iter().enumerate() {
        let producer = graph.producer(ProducerId(p as u32)).unwrap();
        assert_eq!((&producer.body, &producer.heads), (body, heads));
    }
    assert_eq!(graph.node(NodeId(nodes.len() as u32)), None);
    assert_eq!(graph.producer(ProducerId(producers.len() as u32)), None);
    assert_eq!(graph.node(NodeId(u32::MAX)), None);
    assert_eq!(graph.producer(ProducerId(u32::MAX)), None);
    let again = GraphOf::from_words(graph.words().to_vec());
    assert!(again.unwrap().same_words(graph));
    Solver::new().needed(graph)
}

#[test]
fn graphs_read_back() {
    let mut seen = [0; 2];
    for seed in 0..2_000 {
        let mut rng = Rng::new(seed);
        let made = theory(&mut rng, 40, true).unwrap();
        let loops = read_back(&made, &made.0.build().unwrap());
        assert_eq!(read_back(&made, &made.0.build_wide().unwrap()), loops);
        seen[usize::from(loops)] += 1;
    }
    assert!(seen.iter().all(|&count| count > 100), "{seen:?}");
}

#[test]
fn ids_of_another_theory_are_turned_away() {
    let mut theory = Theory::new();
    let atom = theory.add_atom().unwrap();
    let node = theory.add_node(Node::Atom(atom)).unwrap();
    assert_eq!(
        theory.add_node(Node::Atom(AtomId(1))),
        Err(Error::NoAtom(AtomId(1)))
    );
    for leaf in [1, 7].map(NodeId) {
        let refused = Err(Error::LeafNotBelow {
            leaf,
            node: NodeId(1),
        });
        assert_eq!(theory.add_node(Node::And(vec![node, leaf])), refused);
        assert_eq!(theory.add_node(Node::Or(vec![leaf])), refused);
    }
    assert_eq!(
        theory.add_producer(NodeId(1), &[atom]),
        Err(Error::NoNode(NodeId(1)))
    );
    assert_eq!(
        theory.add_fact(&[atom, AtomId(1)]),
        Err(Error::NoAtom(AtomId(1)))
    );
    // none of these is left behind
    let (graph, wide) = (theory.build().unwrap(), theory.build_wide().unwrap());
    assert_eq!(graph.words(), [1, 1, 1, 0, 0, 1, 0, 0]);
    assert_eq!(wide.words(), [2, 1, 1, 0, 0, 1, 0, 0]);
}

fn many<T>(what: &'static str, most: usize) -> Result<T, Error> {
    Err(Error::TooMany { what, most })
}

/// A theory of so many atoms, nodes and producers.
fn plain(atoms: usize, nodes: usize, producers: usize) -> Theory {
    let mut theory = Theory::new();
    for _ in 0..atoms {
        theory.add_atom().unwrap();
    }
    for _ in 0..nodes {
        theory.add_node(Node::False).unwrap();
    }
    for _ in 0..producers {
        theory.add_fact(&[]).unwrap();
    }
    theory
}

/// The edition is built at its limits: so many atoms, nodes and producers.
fn counts<W: Width>(build: impl Fn(&Theory) -> Result<GraphOf<W>, Error>) {
    assert_eq!((W::MOST, W::MOST_ENTRIES), (W::LIMIT, W::ENTRIES));
    let graph = build(&plain(W::LIMIT, W::LIMIT, W::LIMIT)).unwrap();
    let counts = [graph.atoms(), graph.nodes(), graph.producers()];
    assert_eq!(counts, [W::LIMIT; 3]);
}

#[test]
fn limits() {
    counts(Theory::build);
    assert_eq!(plain(1_025, 0, 0).build(), many("atoms", 1_024));
    assert_eq!(plain(0, 1_025, 0).build(), many("nodes", 1_024));
    assert_eq!(plain(0, 0, 1_025).build(), many("producers", 1_024));
    assert!(plain(1_025, 1_025, 1_025).build_wide().is_ok());

    counts(Theory::build_wide);
    let mut theory = plain(262_144, 262_144, 262_144);
    assert_eq!(theory.add_atom(), many("atoms", 262_144));
    assert_eq!(theory.add_node(Node::False), many("nodes", 262_144));
    assert_eq!(theory.add_fact(&[]), many("producers", 262_144));
    // none of these is left behind
    assert!(theory.build_wide().is_ok());
}

/// A theory of two atoms, a node for the first, an And of so many leaves and a fact of so many heads. The leaves are all the same, and so are the heads; the lists share no link.
fn listed(leaves: usize, heads: usize) -> Result<Theory, Error> {
    let mut theory = Theory::new();
    let atoms = [(); 2].map(|()| theory.add_atom().unwrap());
    let leaf = theory.add_node(Node::Atom(atoms[0])).unwrap();
    theory.add_node(Node::And(vec![leaf; leaves]))?;
    theory.add_fact(&vec![atoms[1]; heads])?;
    Ok(theory)
}

/// The edition is built with so many entries and links.
fn entries<W: Width>(build: impl Fn(&Theory) -> Result<GraphOf<W>, Error>) {
    let most = W::ENTRIES;
    for (leaves, heads) in [(most, 0), (0, most), (most - 1, 1)] {
        let graph = build(&listed(leaves, heads).unwrap()).unwrap();
        assert_eq!(graph.words()[4].into(), most as u32);
        assert_eq!(graph.work_words(), W::formula(2 + 2 + 1, most));
    }
    assert_eq!(
        build(&listed(most, 1).unwrap()).err(),
        many::<()>("links", most).err()
    );
}

#[test]
fn entries_and_links() {
    entries(Theory::build);
    let build = |leaves, heads| listed(leaves, heads).unwrap().build();
    assert_eq!(build(4_097, 0), many("leaf entries", 4_096));
    assert_eq!(build(0, 4_097), many("head entries", 4_096));

    entries(Theory::build_wide);
    let most = 1_048_576;
    assert_eq!(listed(most + 1, 0).map(drop), many("leaf entries", most));
    assert_eq!(listed(0, most + 1).map(drop), many("head entries", most));
}

/// Leaf entries and head entries at the limit, each list the same, take a quarter of the links.
fn shared<W: Width>(build: impl Fn(&Theory) -> Result<GraphOf<W>, Error>) {
    let half = W::ENTRIES / 2;
    let mut theory = Theory::new();
    let atom = theory.add_atom().unwrap();
    let leaf = theory.add_node(Node::Atom(atom)).unwrap();
    for _ in 0..2 {
        let all = theory.add_node(Node::And(vec![leaf; half])).unwrap();
        theory.add_producer(all, &vec![atom; half]).unwrap();
    }
    let graph = build(&theory).unwrap();
    assert_eq!(graph.words()[4].into(), half as u32);
    assert_eq!(graph.work_words(), W::formula(1 + 3 + 2, 4 * half));
    assert_eq!(graph.node(NodeId(2)), Some(Node::And(vec![leaf; half])));
    // one more entry does not fit
    let mut more = theory.clone();
    let added = more.add_node(Node::Or(vec![leaf]));
    let answer = added.and_then(|_| build(&more));
    assert_eq!(answer.err(), many::<()>("leaf entries", W::ENTRIES).err());
    let added = theory.add_fact(&[atom]);
    let answer = added.and_then(|_| build(&theory));
    assert_eq!(answer.err(), many::<()>("head entries", W::ENTRIES).err());
}

#[test]
fn lists_that_end_alike_share_links() {
    shared(Theory::build);
    shared(Theory::build_wide);
}

#[test]
fn an_error_says_which_limit() {
    let said = plain(1_025, 0, 0).build().unwrap_err().to_string();
    assert_eq!(said, "more than 1024 atoms");
}
