//! Each refusal by number and place, on both sides of its edge, in both editions, with what it leaves in the lent memory.

mod common;

use common::{Width, graph, work_words};
use founded::{AtomMask, Chain, Error, GraphOf, NodeId, NodeMask, ProducerId, Refusal, Solver};

/// Number and place of the graph check; (0, 0) if it accepts.
fn checked<W: Width>(words: &[W]) -> (u16, u32) {
    let answer = W::check(words);
    let made = GraphOf::from_words(words.to_vec());
    let area = answer.map(|()| work_words(words));
    assert_eq!(made.map(|graph| graph.work_words()), area);
    assert_eq!(W::work_words(words), area.ok());
    answer.map_or_else(|refusal| (refusal.number(), refusal.place()), |()| (0, 0))
}

/// The same for the edition's number and these words.
fn said<W: Width>(words: &[usize]) -> (u16, u32) {
    checked::<W>(&graph(words))
}

fn one_to_three<W: Width>() {
    let (most, links) = (W::LIMIT, W::ENTRIES);
    assert_eq!(checked::<W>(&[]), (1, 0));
    assert_eq!(said::<W>(&[0, 0, 0]), (1, 0));
    assert_eq!(said::<W>(&[0, 0, 0, 0]), (0, 0));
    for edition in (0..9).filter(|&edition| edition != W::NUMBER) {
        let mut words = graph::<W>(&[0, 0, 0, 0]);
        words[0] = W::low(edition.into());
        assert_eq!(checked(&words), (1, 0));
    }
    assert_eq!(said::<W>(&[most, 0, 0, 0]), (0, 0));
    assert_eq!(said::<W>(&[most + 1, 0, 0, 0]), (2, 0));
    assert_eq!(said::<W>(&[0, most, 0, 0]), (3, 0));
    assert_eq!(said::<W>(&[0, most + 1, 0, 0]), (2, 0));
    assert_eq!(said::<W>(&[0, 0, most, 0]), (3, 0));
    assert_eq!(said::<W>(&[0, 0, most + 1, 0]), (2, 0));
    assert_eq!(said::<W>(&[0, 0, 0, links]), (3, 0));
    assert_eq!(said::<W>(&[0, 0, 0, links + 1]), (2, 0));
}

/// One atom, two nodes of these words, one producer and two links.
fn small<W: Width>(nodes: [usize; 6], producer: [usize; 2], links: [usize; 4]) -> (u16, u32) {
    let words = [&[1, 2, 1, 2][..], &nodes, &producer, &links].concat();
    assert_eq!(said::<W>(&words[..words.len() - 1]), (3, 0));
    said::<W>(&words)
}

fn three_to_eight<W: Width>() {
    const ATOM_AND: [usize; 6] = [1, 0, 0, 2, 0, 1];
    const HEAD: [usize; 2] = [2, 2];
    const LINKS: [usize; 4] = [0, 2, 0, 0];
    assert_eq!(small::<W>(ATOM_AND, HEAD, LINKS), (0, 0));
    for bad in [
        [8, 0, 0],
        [1, 1, 0],
        [0, 1, 0],
        [2, 0, 3],
        [0, 0, 1],
        [7, 0, 1],
    ] {
        let second = [&ATOM_AND[..3], &bad].concat().try_into().unwrap();
        assert_eq!(small::<W>(second, HEAD, LINKS), (4, 1), "{bad:?}");
    }
    assert_eq!(small::<W>(ATOM_AND, [3, 2], LINKS), (5, 0));
    assert_eq!(small::<W>(ATOM_AND, [2, 3], LINKS), (5, 0));
    assert_eq!(small::<W>(ATOM_AND, HEAD, [0, 2, 0, 3]), (6, 2));
    // a next equal to its own link: the And's, the producer's, nobody's
    assert_eq!(small::<W>(ATOM_AND, HEAD, [0, 1, 0, 0]), (14, 1));
    assert_eq!(small::<W>([1, 0, 0, 2, 0, 1], HEAD, [0, 0, 0, 2]), (14, 0));
    assert_eq!(small::<W>(ATOM_AND, [2, 1], [0, 0, 9, 2]), (0, 0));
    // a next below its own link, and a circle of both
    assert_eq!(small::<W>([1, 0, 0, 2, 0, 2], HEAD, [0, 0, 0, 1]), (0, 0));
    assert_eq!(small::<W>(ATOM_AND, HEAD, [0, 2, 0, 1]), (14, 1));
    // a leaf one below its node passes, an equal one does not
    assert_eq!(small::<W>(ATOM_AND, [2, 0], [1, 0, 0, 0]), (7, 1));
    assert_eq!(small::<W>([1, 0, 0, 0, 0, 0], [2, 1], [0, 2, 1, 0]), (8, 0));
}

/// 14 says whose chain comes back, also where a node and a producer of the same number could be meant; every call says the same.
fn whose_chain<W: Width>() {
    let all = |records: &[usize], chain: Chain| {
        let words = graph::<W>(&[&[1, 2, 2, 3][..], records, &[0, 0, 0, 3, 0, 2]].concat());
        let said = Some(Refusal::ComesBack(chain));
        assert_eq!(GraphOf::from_words(words.clone()).err(), said);
        assert_eq!(W::check(&words).err(), said);
        assert_eq!(W::work_words(&words), None);
        let (mut output, mut work) = ([5], [W::low(6); 9]);
        assert_eq!(W::needed(&words, &mut work).err(), said);
        assert_eq!(W::prepare(&words, &mut output, &mut work).err(), said);
        let answer = W::complete(&words, &[0], &[0], &mut output, &mut work);
        assert_eq!((answer.err(), output, work), (said, [5], [W::low(6); 9]));
    };
    // links 2 and 3 are a circle, link 1 is not in it
    let (node, producer) = (Chain::Node(NodeId(1)), Chain::Producer(ProducerId(1)));
    all(&[0, 0, 0, 2, 0, 2, 0, 0, 0, 0], node);
    all(&[0, 0, 0, 3, 0, 3, 0, 2, 0, 2], node);
    all(&[0, 0, 0, 2, 0, 1, 0, 0, 0, 3], producer);
    all(&[0, 0, 0, 0, 0, 0, 0, 1, 0, 2], producer);
    let said = "refused 14 1: the head chain of this producer comes back to one of its own links";
    assert_eq!(Refusal::ComesBack(producer).to_string(), said);
}

/// The most links that a check can walk: every node but the first and every producer has all links, from the last down to the first. It is refused in a moment.
fn longest_walks<W: Width>() {
    let (most, links) = (W::LIMIT, W::ENTRIES);
    let mut words = vec![1, most, most, links, 0, 0, 0];
    words.extend([2, 0, links].repeat(most - 1));
    words.extend([0, links].repeat(most));
    words.extend((0..links).flat_map(|next| [0, next]));
    let refusal = |words: &[usize]| {
        let words = graph::<W>(words);
        let proved = (W::NUMBER == 1).then(|| W::check(&words).err());
        let refusal = GraphOf::from_words(words).err();
        // the proved check takes too long in edition 2
        assert!(proved.is_none_or(|proved| proved == refusal));
        refusal
    };
    assert_eq!(refusal(&words), Some(Refusal::Entries));
    let last_node = 4 + 3 * (most - 1);
    let first_link = words.len() - 2 * links;
    let mut other = words.clone();
    other[first_link] = 1;
    assert_eq!(refusal(&other), Some(Refusal::Leaf(NodeId(1))));
    other[4 + 3..last_node + 3].fill(0);
    assert_eq!(refusal(&other), Some(Refusal::Head(ProducerId(0))));
    other[last_node] = 8;
    let last = NodeId(most as u32 - 1);
    assert_eq!(refusal(&other), Some(Refusal::Node(last)));
    // the last node and the first producer have another chain, that comes back
    words[last_node + 2] = 1;
    words[first_link + 1] = 1;
    words[first_link + 3] = 0;
    let node = Refusal::ComesBack(Chain::Node(last));
    assert_eq!(refusal(&words), Some(node));
    words[last_node + 2] = 0;
    words[last_node + 4] = 1;
    let producer = Refusal::ComesBack(Chain::Producer(ProducerId(0)));
    assert_eq!(refusal(&words), Some(producer));
    words[first_link + 1] = links + 1;
    assert_eq!(refusal(&words), Some(Refusal::Link(1)));
}

#[test]
fn of_the_longest_walks() {
    longest_walks::<u16>();
    longest_walks::<u32>();
}

/// The greatest places.
fn far_places<W: Width>() {
    let most = W::LIMIT;
    let last = most as u32 - 1;
    // so many nodes of kind False, the last of these words, and a link for it
    let nodes = |bad: [usize; 3]| {
        let mut words = vec![0, most, 0, 1];
        words.extend(vec![0; 3 * (most - 1)]);
        words.extend(bad);
        words.extend([most - 1, 0]);
        said::<W>(&words)
    };
    assert_eq!(nodes([0, 0, 0]), (0, 0));
    assert_eq!(nodes([8, 0, 0]), (4, last));
    assert_eq!(nodes([2, 0, 1]), (7, last));
    // so many producers, the last of these words, and a link for it
    let producers = |bad: [usize; 2]| {
        let mut words = vec![1, 0, most, 1];
        words.extend(vec![0; 2 * (most - 1)]);
        words.extend(bad);
        words.extend([1, 0]);
        said::<W>(&words)
    };
    assert_eq!(producers([0, 0]), (0, 0));
    assert_eq!(producers([1, 0]), (5, last));
    assert_eq!(producers([0, 1]), (8, last));
    // so many links, unused
    let mut words = vec![0, 0, 0, W::ENTRIES];
    words.extend(vec![0; 2 * W::ENTRIES]);
    assert_eq!(said::<W>(&words), (0, 0));
    *words.last_mut().unwrap() = W::ENTRIES + 1;
    assert_eq!(said::<W>(&words), (6, W::ENTRIES as u32));
    // the body of a producer with a head is absorbed
    let mut words = vec![1, most, 1, 1];
    words.extend(vec![0; 3 * (most - 1)]);
    words.extend([7, 0, 0, most, 1, 0, 0]);
    let graph = GraphOf::<W>::from_words(graph(&words)).unwrap();
    let absorbed = Refusal::Absorbed(NodeId(last));
    assert_eq!(Solver::new().prepare(&graph).err(), Some(absorbed));
}

/// As many entries as there may be, all in one chain, and one more.
fn entries<W: Width>() {
    let most = W::ENTRIES;
    let chain = (1..=most).flat_map(|link| [0, (link + 1) % (most + 1)]);
    // one producer has the whole chain, a second its last link
    let mut words = vec![1, 0, 2, most, 0, 1, 0, 0];
    words.extend(chain.clone());
    assert_eq!(said::<W>(&words), (0, 0));
    words[7] = most;
    assert_eq!(said::<W>(&words), (9, 0));
    // the same of nodes
    let mut words = vec![0, 3, 0, most, 0, 0, 0, 2, 0, 1, 3, 0, 0];
    words.extend(chain);
    assert_eq!(said::<W>(&words), (0, 0));
    words[12] = most;
    assert_eq!(said::<W>(&words), (9, 0));
}

#[test]
fn of_the_graph_in_edition_1() {
    one_to_three::<u16>();
    three_to_eight::<u16>();
    whose_chain::<u16>();
    far_places::<u16>();
    entries::<u16>();
}

#[test]
fn of_the_graph_in_edition_2() {
    one_to_three::<u32>();
    three_to_eight::<u32>();
    whose_chain::<u32>();
    far_places::<u32>();
    entries::<u32>();
    assert_eq!(founded::wide::work_words(&[2, 0, 0, 0, 0]), Some(16));
}

/// C6 of document 01: one atom from a node that names it. Then the same from an absorbed node.
fn self_loop<W: Width>() -> GraphOf<W> {
    GraphOf::from_words(graph(&[1, 1, 1, 1, 1, 0, 0, 1, 1, 0, 0])).unwrap()
}

fn absorbed<W: Width>() -> GraphOf<W> {
    GraphOf::from_words(graph(&[1, 2, 1, 1, 0, 0, 0, 7, 0, 0, 2, 1, 0, 0])).unwrap()
}

/// Runs preparation and pass with these lengths, and gives the answer if both give the same and leave output and work area as document 01 says.
fn both<W: Width>(
    graph: &GraphOf<W>,
    never: usize,
    atom_never: usize,
    output: usize,
    work: usize,
) -> Result<(), Refusal> {
    let (cut, atom_cut) = (vec![0; never], vec![0; atom_never]);
    let run = |pass: bool| {
        let (mut out, mut area) = (vec![5; output], vec![W::low(6); work]);
        let answer = if pass {
            W::complete(graph.words(), &cut, &atom_cut, &mut out, &mut area)
        } else {
            W::prepare(graph.words(), &mut out, &mut area)
        };
        let untouched = answer.is_err_and(|refusal| refusal.number() != 12);
        let left = W::low(if untouched { 6 } else { 0 });
        assert!(area.iter().all(|&word| word == left));
        assert!(answer.is_ok() || out.iter().all(|&word| word == 5));
        assert!(answer.is_err() || out == [1]);
        answer
    };
    let pass = run(true);
    if never == 1 && atom_never == 1 {
        assert_eq!(run(false), pass);
    }
    pass
}

fn ten_to_twelve<W: Width>() {
    let graph = self_loop::<W>();
    let work = work_words(graph.words());
    assert_eq!(both(&graph, 1, 1, 1, work), Ok(()));
    for [never, atom_never] in [[0, 1], [1, 0], [0, 0]] {
        assert_eq!(both(&graph, never, atom_never, 1, work), Ok(()));
    }
    for lengths in [[2, 1, 1], [1, 2, 1], [1, 1, 0], [1, 1, 2], [0, 0, 0]] {
        let [never, atom_never, output] = lengths;
        for work in [work, 0] {
            let answer = both(&graph, never, atom_never, output, work);
            assert_eq!(answer, Err(Refusal::Lengths), "{lengths:?}");
        }
    }
    for work in [0, work - 1, work + 1] {
        assert_eq!(both(&graph, 1, 1, 1, work), Err(Refusal::Work));
        let mut area = vec![W::low(6); work];
        assert_eq!(W::needed(graph.words(), &mut area), Err(Refusal::Work));
        assert!(area.iter().all(|&word| word == W::low(6)));
    }

    let graph = absorbed::<W>();
    let work = work_words(graph.words());
    for work in [0, work - 1, work + 1] {
        assert_eq!(both(&graph, 1, 1, 1, work), Err(Refusal::Work));
    }
    assert_eq!(
        both(&graph, 1, 1, 1, work),
        Err(Refusal::Absorbed(NodeId(1)))
    );
    let mut area = vec![W::low(6); work];
    assert_eq!(W::needed(graph.words(), &mut area), Ok(false));
    assert!(area.iter().all(|&word| word == W::low(0)));
}

#[test]
fn of_the_other_buffers() {
    ten_to_twelve::<u16>();
    ten_to_twelve::<u32>();
}

fn masks<W: Width>() {
    let mut words = vec![65, 65, 0, 0];
    words.extend([0; 3 * 65]);
    let larger = GraphOf::<W>::from_words(graph(&words)).unwrap();
    let graph = self_loop::<W>();
    let mut solver = Solver::new();
    let (never, atom_never) = (NodeMask::none(&graph), AtomMask::none(&graph));
    assert_eq!(
        solver
            .complete(&graph, &never, &atom_never)
            .map(|missing| missing.len()),
        Ok(1)
    );
    let answer = solver.complete(&larger, &never, &AtomMask::none(&larger));
    assert_eq!(answer.err(), Some(Refusal::Lengths));
    let answer = solver.complete(&larger, &NodeMask::none(&larger), &atom_never);
    assert_eq!(answer.err(), Some(Refusal::Lengths));
    let nodes = NodeMask::of(&larger, [0, 64].map(NodeId)).unwrap();
    assert_eq!(nodes.words(), [1, 1]);
    assert!(nodes.contains(NodeId(64)) && !nodes.contains(NodeId(63)));
    assert_eq!(
        NodeMask::of(&larger, [NodeId(65)]),
        Err(Error::NoNode(NodeId(65)))
    );
}

#[test]
fn masks_of_another_graph() {
    masks::<u16>();
    masks::<u32>();
}

#[test]
fn every_number_is_a_case() {
    for number in (1..=13).chain([15]) {
        let refusal = Refusal::of(number, 0).unwrap();
        assert_eq!((refusal.number(), refusal.place()), (number, 0));
        let said = refusal.to_string();
        assert!(said.starts_with(&format!("refused {number} 0: ")));
        // what an edition has of its own is told for both
        let own = [1, 2, 9, 11].contains(&number);
        assert_eq!(said.contains("32-bit") || said.contains("edition 2"), own);
    }
    for number in [4, 5, 6, 7, 8, 12] {
        assert_eq!(Refusal::of(number, 70_000).unwrap().place(), 70_000);
    }
    for number in [0, 14, 16] {
        assert_eq!(Refusal::of(number, 0), None);
    }
    let chains = [Chain::Node(NodeId(9)), Chain::Producer(ProducerId(9))];
    for refusal in chains.map(Refusal::ComesBack) {
        assert_eq!((refusal.number(), refusal.place()), (14, 9));
        assert!(refusal.to_string().starts_with("refused 14 9: the "));
    }
    let said = "refused 12 1: the body cone holds a node of kind 7";
    assert_eq!(Refusal::Absorbed(NodeId(1)).to_string(), said);
    let said = "refused 13 0: no pair of masks, or more than 64";
    assert_eq!(Refusal::Pairs.to_string(), said);
    // what a search branch has of its own
    for number in [10, 11] {
        let said = Refusal::of(number, 0).unwrap().to_string();
        assert!(said.contains("search branch"), "{said}");
    }
}
