//! Graphs of edition 1 in order of their content.

use std::cmp::Ordering;
use std::collections::BTreeMap;

use founded::{Chain, Graph, NodeId, ProducerId, Refusal, compare};

fn graph(words: &[u16]) -> Graph {
    Graph::from_words(words.to_vec()).unwrap()
}

/// A fact whose heads are these, in links of its own, from the first link up.
fn fact(heads: &[u16]) -> Vec<u16> {
    let links = heads.len() as u16;
    let mut words = vec![1, 3, 0, 1, links, 0, u16::from(links > 0)];
    for (link, &head) in (1..).zip(heads) {
        words.extend([head, if link < links { link + 1 } else { 0 }]);
    }
    words
}

/// The same, its chain from the last link down.
fn turned(heads: &[u16]) -> Vec<u16> {
    let links = heads.len() as u16;
    let mut words = vec![1, 3, 0, 1, links, 0, links];
    for (link, &head) in (0..).zip(heads.iter().rev()) {
        words.extend([head, link]);
    }
    words
}

/// In ascending order: each is less than those after it.
#[test]
fn first_difference() {
    let lists: [&[u16]; 7] = [&[], &[0], &[0, 0], &[0, 2], &[1], &[1, 0, 0], &[2]];
    for (i, here) in lists.iter().enumerate() {
        for (j, there) in lists.iter().enumerate() {
            let (x, y) = (graph(&fact(here)), graph(&turned(there)));
            assert_eq!(x.cmp(&y), i.cmp(&j), "{here:?} {there:?}");
            assert_eq!(x == y, i == j);
            assert_eq!(x.same_words(&y), i == j && here.len() < 2);
            assert_eq!(compare(x.words(), y.words()), Ok(i.cmp(&j)));
        }
    }
}

/// Counts come first, then node by node kind, operand and leaves, then producer by producer body and heads.
#[test]
fn record_by_record() {
    let ascending = [
        vec![1, 0, 0, 1, 0, 0, 0],
        vec![1, 0, 1, 0, 0, 7, 0, 0],
        // of two nodes: the operand of node 0 comes before the kind of node 1
        vec![1, 2, 2, 0, 0, 0, 0, 0, 7, 0, 0],
        vec![1, 2, 2, 0, 0, 1, 0, 0, 6, 0, 0],
        vec![1, 2, 2, 0, 0, 1, 1, 0, 2, 0, 0],
        // the opaque kinds are three
        vec![1, 2, 2, 0, 0, 4, 0, 0, 5, 0, 0],
        vec![1, 2, 2, 0, 0, 5, 0, 0, 0, 0, 0],
        vec![1, 2, 2, 0, 0, 6, 0, 0, 0, 0, 0],
        // more producers, and a body before heads
        vec![1, 2, 2, 1, 1, 0, 0, 0, 3, 0, 1, 0, 0, 0, 0],
        vec![1, 2, 2, 1, 1, 0, 0, 0, 3, 0, 1, 1, 0, 0, 0],
    ];
    for (i, x) in ascending.iter().enumerate() {
        for (j, y) in ascending.iter().enumerate() {
            assert_eq!(compare(x, y), Ok(i.cmp(&j)), "{x:?} {y:?}");
        }
    }
}

#[test]
fn a_sorted_map_files_by_content() {
    let mut archive = BTreeMap::new();
    for (number, heads) in [[2, 1, 0], [0, 1, 2], [1, 1, 1]].iter().enumerate() {
        assert_eq!(archive.insert(graph(&fact(heads)), number), None);
    }
    assert_eq!(archive.insert(graph(&turned(&[0, 1, 2])), 3), Some(1));
    assert_eq!(archive.values().copied().collect::<Vec<_>>(), [3, 2, 0]);
}

#[test]
fn refusals() {
    let good = [1, 0, 0, 0, 0];
    let comes_back = [1, 1, 0, 1, 1, 0, 1, 0, 1];
    let node_too = [1, 1, 2, 1, 1, 0, 0, 0, 2, 0, 1, 0, 1, 0, 1];
    assert_eq!(compare(&good, &good), Ok(Ordering::Equal));
    assert_eq!(compare(&[], &comes_back), Err(Refusal::Edition));
    assert_eq!(compare(&good[..4], &[2; 5]), Err(Refusal::Edition));
    assert_eq!(compare(&good, &[1, 0, 0, 0, 1]), Err(Refusal::Size));
    let [head, leaf] =
        [Chain::Producer(ProducerId(0)), Chain::Node(NodeId(1))].map(Refusal::ComesBack);
    assert_eq!(compare(&good, &comes_back), Err(head));
    assert_eq!(compare(&comes_back, &node_too), Err(head));
    assert_eq!(compare(&node_too, &comes_back), Err(leaf));
    assert_eq!(compare(&good, &node_too), Err(leaf));
}
