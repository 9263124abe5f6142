//! Every graph content of tiny sizes, and every word pattern of tiny layouts.

use crate::agree::Masks;
use crate::content::{AND, ATOM, Content, Node, OR, Rule};

/// Sizes up to which contents are listed: each count and each list's length.
#[derive(Clone, Copy, Debug)]
pub struct Sizes {
    pub atoms: u16,
    pub nodes: usize,
    pub rules: usize,
    pub list: usize,
}

/// Every list of numbers below `bound`, up to the length.
fn lists(bound: u16, most: usize) -> Vec<Vec<u16>> {
    let mut all = vec![vec![]];
    let mut from = 0;
    for _ in 0..most {
        let upto = all.len();
        for i in from..upto {
            for value in 0..bound {
                let mut longer = all[i].clone();
                longer.push(value);
                all.push(longer);
            }
        }
        from = upto;
    }
    all
}

/// Every node that may stand at `number`.
fn nodes_at(number: u16, sizes: Sizes) -> Vec<Node> {
    let plain = |kind, operand| Node {
        kind,
        operand,
        leaves: vec![],
    };
    let mut all: Vec<Node> = [0, 4, 5, 6, 7].map(|kind| plain(kind, 0)).into();
    all.extend((0..sizes.atoms).map(|atom| plain(ATOM, atom)));
    for kind in [AND, OR] {
        all.extend(lists(number, sizes.list).into_iter().map(|leaves| Node {
            kind,
            operand: 0,
            leaves,
        }));
    }
    all
}

fn rules(sizes: Sizes) -> Vec<Rule> {
    let heads = lists(sizes.atoms, sizes.list);
    let with = |body: u16| {
        heads.iter().map(move |heads| Rule {
            body,
            heads: heads.clone(),
        })
    };
    (0..=sizes.nodes as u16).flat_map(with).collect()
}

/// Each way to pick one from every list, as positions, the last turning fastest.
fn each_pick(lengths: &[usize], mut visit: impl FnMut(&[usize])) {
    if lengths.contains(&0) {
        return;
    }
    let mut picked = vec![0; lengths.len()];
    loop {
        visit(&picked);
        let Some(turn) = (0..lengths.len())
            .rev()
            .find(|&i| picked[i] + 1 < lengths[i])
        else {
            return;
        };
        picked[turn] += 1;
        picked[turn + 1..].fill(0);
    }
}

/// Visit every content of exactly these counts, lists up to the length.
pub fn each_content(sizes: Sizes, mut visit: impl FnMut(&Content)) {
    let mut options: Vec<usize> = Vec::new();
    let nodes: Vec<Vec<Node>> = (0..sizes.nodes)
        .map(|n| nodes_at(n as u16, sizes))
        .collect();
    let rules = rules(sizes);
    options.extend(nodes.iter().map(Vec::len));
    options.extend((0..sizes.rules).map(|_| rules.len()));
    each_pick(&options, |picked| {
        let (of_nodes, of_rules) = picked.split_at(sizes.nodes);
        visit(&Content {
            atoms: sizes.atoms,
            nodes: of_nodes
                .iter()
                .zip(&nodes)
                .map(|(&i, all)| all[i].clone())
                .collect(),
            rules: of_rules.iter().map(|&i| rules[i].clone()).collect(),
        });
    });
}

/// Every pair of masks for these counts, unused bits clear.
pub fn all_masks(atoms: usize, nodes: usize) -> Vec<Masks> {
    let every = |count: usize| (0..1u64 << count).map(move |bits| vec![bits; count.div_ceil(64)]);
    every(nodes)
        .flat_map(|never| every(atoms).map(move |atom_never| (never.clone(), atom_never)))
        .collect()
}

/// Visit every word pattern of these counts, small as they are: each word from 0
/// to at least one past what could pass, so refused ones too.
pub fn each_pattern([atoms, nodes, rules, links]: [u16; 4], mut visit: impl FnMut(&[u16])) {
    let (node, links_first) = (usize::from(nodes), usize::from(links) + 2);
    let mut options = Vec::new();
    options.extend([9, usize::from(atoms).max(1) + 1, links_first].repeat(node));
    options.extend([node + 2, links_first].repeat(usize::from(rules)));
    options.extend([3, links_first].repeat(usize::from(links)));
    let mut words = vec![1, atoms, nodes, rules, links];
    each_pick(&options, |picked| {
        words.truncate(5);
        words.extend(picked.iter().map(|&word| word as u16));
        visit(&words);
    });
}
