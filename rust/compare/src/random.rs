//! Random graphs: shared tails, repeats, facts, empty And and Or, opaque kinds,
//! kind 7 in and out of the cone, unused links with wild values, circles among
//! them, links in any order.

use crate::agree::Masks;
use crate::calls::{Word, word};
use crate::content::{ABSORBED, AND, ATOM, Draft, IMPLIES, OR};
use crate::rng::Rng;

/// How large a graph may become, and how long its lists.
#[derive(Clone, Copy, Debug)]
pub struct Scale {
    /// The least of each count.
    pub least: usize,
    pub atoms: usize,
    pub nodes: usize,
    pub rules: usize,
    pub list: usize,
    pub links: usize,
}

/// Sizes in the order they are drawn from, small ones first.
pub const SCALES: [Scale; 6] = [
    scale(0, [3, 4, 4], 2, 24),
    scale(0, [6, 8, 8], 4, 60),
    scale(0, [10, 16, 14], 5, 120),
    scale(0, [80, 140, 90], 6, 700),
    scale(0, [300, 500, 300], 8, 2_000),
    scale(0, [1_024, 1_024, 1_024], 12, 4_096),
];

/// Sizes above edition 1's limits, in the same order.
pub const WIDE_SCALES: [Scale; 4] = [
    scale(1_025, [2_000, 3_000, 2_000], 8, 12_000),
    scale(2_000, [20_000, 20_000, 20_000], 6, 100_000),
    scale(20_000, [120_000, 70_000, 90_000], 9, 400_000),
    scale(70_000, [262_144, 262_144, 262_144], 12, 1_048_576),
];

const fn scale(least: usize, most: [usize; 3], list: usize, links: usize) -> Scale {
    let [atoms, nodes, rules] = most;
    Scale {
        least,
        atoms,
        nodes,
        rules,
        list,
        links,
    }
}

/// Links under construction. They are made from the last to the first, so that a
/// next is greater than its own link: `next` is a position in `made`, plus 1.
struct Links<W> {
    made: Vec<(W, usize)>,
    room: usize,
    entries: usize,
}

impl<W: Word> Links<W> {
    fn new(room: usize) -> Self {
        Self {
            made: vec![],
            room,
            entries: 0,
        }
    }

    fn push(&mut self, value: W, next: usize) -> usize {
        self.made.push((value, next));
        self.made.len()
    }

    /// The length of the chain from `first`, if all its values are below the bound.
    fn fitting(&self, first: usize, bound: usize) -> Option<usize> {
        let mut length = 0;
        let mut link = first;
        while link != 0 {
            let (value, next) = self.made[link - 1];
            if value.number() >= bound {
                return None;
            }
            length += 1;
            link = next;
        }
        Some(length)
    }

    /// A chain of values below the bound, its tail sometimes another's.
    fn chain(&mut self, rng: &mut Rng, bound: usize, most: usize) -> usize {
        if bound == 0 {
            return 0;
        }
        let most_entries = W::EDITION.entries;
        let mut first = 0;
        let mut length = 0;
        if !self.made.is_empty() && rng.chance(1, 3) {
            let tail = rng.between(1, self.made.len());
            if let Some(tail_length) = self.fitting(tail, bound) {
                (first, length) = (tail, tail_length);
            }
        }
        if self.entries + length > most_entries {
            (first, length) = (0, 0);
        }
        for _ in 0..rng.between(0, most) {
            if self.made.len() >= self.room || self.entries + length >= most_entries {
                break;
            }
            if rng.chance(1, 12) && self.made.len() + 1 < self.room {
                self.unused(rng);
            }
            first = self.push(word(value(rng, bound)), first);
            length += 1;
        }
        self.entries += length;
        first
    }

    /// A link in no chain, unless a later tail takes it up.
    fn unused(&mut self, rng: &mut Rng) {
        let wild = match rng.below(3) {
            0 => W::MAX,
            1 => W::cut(rng.word()),
            _ => W::cut(rng.below(8) as u64),
        };
        let next = rng.between(0, self.made.len());
        self.push(wild, next);
    }

    /// Up to three links that no chain can take up any more, their nexts anything:
    /// they lead into chains, to each other and to themselves.
    fn loose(&mut self, rng: &mut Rng) {
        let last = (self.made.len() + rng.between(1, 3)).min(self.room);
        while self.made.len() < last {
            let next = rng.between(last.saturating_sub(4), last);
            self.push(W::cut(rng.word()), next);
        }
    }

    /// The final number of a link: the last made is link 1.
    fn number(&self, link: usize) -> W {
        word(if link == 0 {
            0
        } else {
            self.made.len() + 1 - link
        })
    }

    fn records(&self) -> Vec<[W; 2]> {
        self.made
            .iter()
            .rev()
            .map(|&(value, next)| [value, self.number(next)])
            .collect()
    }
}

/// Below the bound, close to it half the time: bodies made of what just came.
fn value(rng: &mut Rng, bound: usize) -> usize {
    let near = bound.min(4);
    if rng.chance(1, 2) {
        bound - 1 - rng.below(near)
    } else {
        rng.below(bound)
    }
}

/// A random graph's words; nearly always one that the graph check accepts.
pub fn graph<W: Word>(rng: &mut Rng, scale: Scale) -> Vec<W> {
    let full = rng.chance(1, 8);
    let mut size = |most: usize| {
        if full {
            most
        } else {
            rng.between(scale.least, most)
        }
    };
    let (atoms, nodes, rules) = (size(scale.atoms), size(scale.nodes), size(scale.rules));
    let absorbed = rng.chance(1, 4);
    let mut links = Links::new(scale.links);
    let mut draft = Draft::new(word(atoms));
    let mut firsts = Vec::new();
    for number in 0..nodes {
        let kind = kind(rng, atoms, number, absorbed);
        let first = match kind {
            AND | OR => links.chain(rng, number, scale.list),
            _ => 0,
        };
        firsts.push(first);
        let operand = if kind == ATOM { rng.below(atoms) } else { 0 };
        draft.nodes.push([W::from(kind), word(operand), word(0)]);
    }
    links.entries = 0;
    for _ in 0..rules {
        firsts.push(links.chain(rng, atoms, scale.list.min(4)));
        draft.rules.push([word(body(rng, nodes)), word(0)]);
    }
    if rng.chance(1, 4) {
        links.loose(rng);
    }
    for (node, &first) in draft.nodes.iter_mut().zip(&firsts) {
        node[2] = links.number(first);
    }
    for (rule, &first) in draft.rules.iter_mut().zip(&firsts[nodes..]) {
        rule[1] = links.number(first);
    }
    draft.links = links.records();
    let words = draft.words();
    if rng.chance(1, 4) {
        words
    } else {
        renumbered(rng, &words)
    }
}

/// The same content, its links numbered at random.
pub fn renumbered<W: Word>(rng: &mut Rng, words: &[W]) -> Vec<W> {
    let links = words[4].number();
    let mut numbers: Vec<usize> = (0..=links).collect();
    for link in 2..=links {
        numbers.swap(link, rng.between(1, link));
    }
    with_numbers(words, &numbers)
}

/// The same content, its links numbered from the last to the first.
pub fn turned<W: Word>(words: &[W]) -> Vec<W> {
    let links = words[4].number();
    let numbers: Vec<usize> = std::iter::once(0).chain((1..=links).rev()).collect();
    with_numbers(words, &numbers)
}

/// The same content, link l being link `numbers[l]`. First links and nexts are at
/// most K.
fn with_numbers<W: Word>(words: &[W], numbers: &[usize]) -> Vec<W> {
    let [n, p, k] = [2, 3, 4].map(|i| words[i].number());
    let number = |old: W| word(numbers[old.number()]);
    let nodes = (0..n).map(|c| 5 + 3 * c + 2);
    let rules = (0..p).map(|r| 5 + 3 * n + 2 * r + 1);
    let mut new = words.to_vec();
    for at in nodes.chain(rules) {
        new[at] = number(words[at]);
    }
    let links = words.len() - 2 * k;
    for (link, record) in (1..).zip(words[links..].chunks(2)) {
        let at = links + 2 * (numbers[link] - 1);
        (new[at], new[at + 1]) = (record[0], number(record[1]));
    }
    new
}

/// Atoms mostly, then And and Or; low numbers have few leaves to take.
fn kind(rng: &mut Rng, atoms: usize, number: usize, absorbed: bool) -> u16 {
    match rng.below(20) {
        0 => 0,
        1 => IMPLIES + rng.below(3) as u16,
        2 if absorbed => ABSORBED,
        3..=10 if atoms > 0 => ATOM,
        3..=7 if number < 3 => IMPLIES,
        low => AND + (low % 2) as u16,
    }
}

fn body(rng: &mut Rng, nodes: usize) -> usize {
    if nodes == 0 || rng.chance(1, 12) {
        0
    } else {
        value(rng, nodes) + 1
    }
}

/// A mask: clear, sparse, even or dense, its bits past the last number wild.
pub fn mask(rng: &mut Rng, count: usize) -> Vec<u64> {
    let style = rng.below(5);
    let word = |rng: &mut Rng| match style {
        0 => 0,
        1 => rng.word() & rng.word() & rng.word(),
        2 => rng.word() & rng.word(),
        3 => rng.word(),
        _ => rng.word() | rng.word(),
    };
    let mut words: Vec<u64> = (0..count.div_ceil(64)).map(|_| word(rng)).collect();
    if let (Some(last), 1..) = (words.last_mut(), count % 64) {
        let past = !0 << (count % 64);
        *last = *last & !past | rng.word() & past;
    }
    words
}

/// Clear masks first, then random ones.
pub fn masks<W: Word>(rng: &mut Rng, words: &[W], pairs: usize) -> Vec<Masks> {
    let [atoms, nodes] = [1, 2].map(|i| words[i].number());
    let clear = (vec![0; nodes.div_ceil(64)], vec![0; atoms.div_ceil(64)]);
    let random = (1..pairs).map(|_| (mask(rng, nodes), mask(rng, atoms)));
    std::iter::once(clear)
        .chain(random.collect::<Vec<_>>())
        .collect()
}

/// Pairs of masks as a search tries them: mostly the pair before with a cut more or
/// less, now and then an earlier one or another.
pub fn search<W: Word>(rng: &mut Rng, words: &[W], pairs: usize) -> Vec<Masks> {
    let [atoms, nodes] = [1, 2].map(|i| words[i].number());
    let mut all: Vec<Masks> = vec![];
    for tried in 0..pairs {
        let pair = match rng.below(8) {
            turn if tried == 0 || turn == 0 => (mask(rng, nodes), mask(rng, atoms)),
            1 => all[rng.below(tried)].clone(),
            _ => {
                let (mut never, mut atom_never) = all[tried - 1].clone();
                turn_a_bit(rng, &mut never, nodes);
                turn_a_bit(rng, &mut atom_never, atoms);
                (never, atom_never)
            }
        };
        all.push(pair);
    }
    all
}

/// Half the time, if there is one.
fn turn_a_bit(rng: &mut Rng, mask: &mut [u64], count: usize) {
    if count > 0 && rng.chance(1, 2) {
        let number = rng.below(count);
        mask[number / 64] ^= 1 << (number % 64);
    }
}
