//! Lists that are kept, theories from graphs and back, graphs as bytes, and what ids, lists and solvers look like.

mod common;

use common::{Rng, Width, theory};
use founded::{
    AtomId, AtomList, AtomMask, Error, Graph, GraphOf, Node, NodeId, NodeMask, ProducerId, Refusal,
    Solver, Theory, WideGraph,
};

/// The heater and the latch.
fn heater() -> Result<Theory, Error> {
    let mut theory = Theory::new();
    let (heater, latch) = (theory.add_atom()?, theory.add_atom()?);
    let (heater_on, latch_set) = (
        theory.add_node(Node::Atom(heater))?,
        theory.add_node(Node::Atom(latch))?,
    );
    theory.add_producer(latch_set, &[heater])?;
    theory.add_producer(heater_on, &[latch])?;
    Ok(theory)
}

#[test]
fn lists_that_are_kept() -> Result<(), Error> {
    let graph = heater()?.build()?;
    let mut solver = Solver::new();
    let (never, atom_never) = (NodeMask::none(&graph), AtomMask::none(&graph));
    let both = solver.complete(&graph, &never, &atom_never)?.to_list();
    let cut = AtomMask::of(&graph, [AtomId(0)])?;
    let one = AtomList::from(solver.complete(&graph, &never, &cut)?);
    assert_eq!((both.len(), one.len()), (2, 1));
    assert!(both.contains(AtomId(0)) && !one.contains(AtomId(0)));
    assert_eq!(
        format!("{both:?} {one:?}"),
        "{AtomId(0), AtomId(1)} {AtomId(1)}"
    );
    let mut names = Vec::new();
    for atom in &both {
        names.push(atom.to_string());
    }
    for atom in one.atoms() {
        names.push(format!("{atom:>3}"));
    }
    assert_eq!(names, ["0", "1", "  1"]);
    assert_eq!(both, both.clone());
    assert_ne!(both, one);
    assert!(AtomList::default().is_empty() && AtomList::default().iter().next().is_none());
    assert_eq!(format!("{} {}", NodeId(7), ProducerId(9)), "7 9");
    assert_eq!(format!("{solver:?}"), "Solver { .. }");
    Ok(())
}

/// A list's members are the same whichever way they are gone through.
#[test]
fn lists_are_gone_through() {
    for seed in 0..300 {
        let mut rng = Rng::new(seed);
        let graph = theory(&mut rng, 200, false).unwrap().0.build().unwrap();
        let mut solver = Solver::new();
        let list = solver.prepare(&graph).unwrap();
        let members: Vec<AtomId> = list.iter().collect();
        assert!(list.into_iter().eq(members.iter().copied()));
        assert!(list.to_list().iter().eq(members));
    }
}

fn there_and_back<W: Width>(graph: &GraphOf<W>)
where
    for<'a> GraphOf<W>: TryFrom<&'a Theory, Error = Error>,
{
    let theory = Theory::from(graph);
    let again = GraphOf::<W>::try_from(&theory).unwrap();
    assert_eq!(
        (again.atoms(), again.nodes(), again.producers()),
        (graph.atoms(), graph.nodes(), graph.producers())
    );
    for n in (0..=graph.nodes() as u32).map(NodeId) {
        assert_eq!(again.node(n), graph.node(n));
    }
    for p in (0..=graph.producers() as u32).map(ProducerId) {
        assert_eq!(again.producer(p), graph.producer(p));
    }
    let read = GraphOf::<W>::from_bytes(&graph.to_bytes());
    assert_eq!(read.unwrap().words(), graph.words());
    assert_eq!(graph.to_bytes().len(), size_of_val(graph.words()));
}

#[test]
fn theories_and_graphs_and_bytes() {
    for seed in 0..500 {
        let mut rng = Rng::new(seed);
        let made = theory(&mut rng, 40, true).unwrap().0;
        there_and_back(&made.build().unwrap());
        there_and_back(&made.build_wide().unwrap());
    }
    let mut many = Theory::new();
    for _ in 0..1_025 {
        many.add_atom().unwrap();
    }
    assert_eq!(
        Graph::try_from(&many),
        Err(Error::TooMany {
            what: "atoms",
            most: 1_024
        })
    );
    assert!(WideGraph::try_from(&many).is_ok());
}

#[test]
fn bytes_of_the_heater() {
    let bytes = heater().unwrap().build().unwrap().to_bytes();
    assert_eq!(bytes[..12], [1, 0, 2, 0, 2, 0, 2, 0, 2, 0, 1, 0]);
    assert_eq!(bytes.len(), 38);
    let wide = heater().unwrap().build_wide().unwrap().to_bytes();
    assert_eq!(wide[..8], [2, 0, 0, 0, 2, 0, 0, 0]);

    let refused = |bytes: &[u8]| Graph::from_bytes(bytes).unwrap_err();
    assert_eq!(refused(&[]), Refusal::Edition);
    assert_eq!(refused(&bytes[..9]), Refusal::Edition);
    assert_eq!(refused(&wide), Refusal::Edition);
    assert_eq!(WideGraph::from_bytes(&bytes).unwrap_err(), Refusal::Edition);
    // Half a word more, and half a word less: the length is not the graph's, whatever comes after it in the table.
    let mut more = bytes.clone();
    more.push(0);
    assert_eq!(
        (refused(&more), refused(&bytes[..37])),
        (Refusal::Size, Refusal::Size)
    );
    more[10] = 9;
    assert_eq!(refused(&more), Refusal::Size);
    more[3] = 0xff;
    assert_eq!(refused(&more), Refusal::Counts);
}
