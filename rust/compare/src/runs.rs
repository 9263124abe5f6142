//! Families of graphs compared.

use std::collections::{BTreeMap, BTreeSet};

use crate::agree::{
    Difference, Masks, Side, Tally, compare, compare_both, compare_renumbered, wrong_lengths,
};
use crate::calls::{Calls, Word, widened};
use crate::random::{SCALES, Scale};
use crate::recut::{Recut, Search};
use crate::rng::Rng;
use crate::tiny::Sizes;
use crate::{branches, damage, edges, random, tiny, within};

/// What was compared, in edition 1 and in edition 2.
pub type Compared = Result<[Tally; 2], Box<Difference>>;

/// Every content of exactly these counts, with every pair of masks.
pub fn contents(sizes: Sizes) -> Compared {
    let masks = tiny::all_masks(usize::from(sizes.atoms), sizes.nodes);
    both(Lengths::Right, |visit| {
        tiny::each_content(sizes, |content| visit(&content.words(), &masks));
    })
}

/// Every word pattern of these counts, with every pair of masks.
pub fn patterns(counts: [u16; 4]) -> Compared {
    let masks = tiny::all_masks(usize::from(counts[0]), usize::from(counts[1]));
    both(Lengths::Right, |visit| {
        tiny::each_pattern(counts, |words| visit(words, &masks));
    })
}

/// Whether the proved calls meet wrong lengths too.
#[derive(Clone, Copy, PartialEq, Eq)]
enum Lengths {
    Right,
    WrongToo,
}

/// What is visited, compared up to the first difference, and laid out in edition
/// 2 as well.
fn both(lengths: Lengths, each: impl FnOnce(&mut dyn FnMut(&[u16], &[Masks]))) -> Compared {
    let (mut narrow, mut wide) = (Side::new(u16::ARCHIVE), Side::new(u32::ARCHIVE));
    let one = |words: &[u16], masks: &[Masks]| {
        compare_both(words, masks, &mut narrow, &mut wide)?;
        if lengths == Lengths::WrongToo {
            wrong_lengths(words, &mut narrow.ours)?;
            within::wrong_lengths(words, &mut narrow.ours)?;
            branches::wrong_lengths(words, &mut narrow.ours)?;
            wrong_lengths(&widened(words), &mut wide.ours)?;
        }
        Ok(())
    };
    up_to_the_first(one, each)?;
    Ok([narrow.tally(), wide.tally()])
}

/// What is visited, in edition 2 alone.
fn wide(lengths: Lengths, each: impl FnOnce(&mut dyn FnMut(&[u32], &[Masks]))) -> Compared {
    let mut side = Side::new(u32::ARCHIVE);
    let one = |words: &[u32], masks: &[Masks]| {
        compare(words, masks, &mut side)?;
        if lengths == Lengths::WrongToo {
            wrong_lengths(words, &mut side.ours)?;
        }
        Ok(())
    };
    up_to_the_first(one, each)?;
    Ok([Tally::default(), side.tally()])
}

fn up_to_the_first<W>(
    mut one: impl FnMut(&[W], &[Masks]) -> Result<(), Difference>,
    each: impl FnOnce(&mut dyn FnMut(&[W], &[Masks])),
) -> Result<(), Box<Difference>> {
    let mut found = None;
    each(&mut |words, masks| {
        if found.is_none() {
            found = one(words, masks).err();
        }
    });
    found.map_or(Ok(()), |difference| Err(Box::new(difference)))
}

/// The scale of random graph `i`: mostly small, a large one now and then.
fn scale(i: u64) -> usize {
    match i {
        _ if i % 20_000 == 19_999 => 5,
        _ if i % 4_000 == 3_999 => 4,
        _ if i % 150 == 149 => 3,
        _ => [0, 1, 1, 2, 0, 1, 2][(i % 7) as usize],
    }
}

/// The generator of number `i` under the seed, for itself alone.
pub(crate) fn numbered(seed: u64, i: u64) -> Rng {
    Rng::new(Rng::new(seed.wrapping_add(i)).word())
}

/// That many pairs of masks for a graph that is accepted.
fn some_masks<W: Word>(rng: &mut Rng, words: &[W], pairs: usize) -> Vec<Masks> {
    if paper::check(words).is_ok() {
        random::masks(rng, words, pairs)
    } else {
        vec![]
    }
}

/// Random graphs `from` up to `to` with four pairs of masks each.
pub fn graphs(seed: u64, from: u64, to: u64) -> Compared {
    both(Lengths::Right, |visit| {
        for i in from..to {
            let mut rng = numbered(seed, i);
            let words: Vec<u16> = random::graph(&mut rng, SCALES[scale(i)]);
            let masks = random::masks(&mut rng, &words, 4);
            visit(&words, &masks);
        }
    })
}

/// Random graphs `from` up to `to` with a pair of masks each, which are handed over
/// at all lengths from 0 to the full ones (request 2).
pub fn short(seed: u64, from: u64, to: u64) -> Compared {
    both(Lengths::Right, |visit| {
        for i in from..to {
            let mut rng = numbered(seed ^ SHORTENED, i);
            let words: Vec<u16> = random::graph(&mut rng, SCALES[(i % 5) as usize]);
            let mut masks = vec![];
            for (never, atom_never) in random::masks(&mut rng, &words, 1) {
                for n in 0..=never.len() {
                    let cut = |a: usize| (never[..n].to_vec(), atom_never[..a].to_vec());
                    masks.extend((0..=atom_never.len()).map(cut));
                }
            }
            visit(&words, &masks);
        }
    })
}

/// What the generators of these graphs differ in from those of the random ones.
const SHORTENED: u64 = 0x3333_0000_0000_0000;

/// Random graphs `from` up to `to`, each under three random numberings of its
/// links and under the one that is the wrong way round, with two pairs of masks.
pub fn renumbered(seed: u64, from: u64, to: u64) -> Compared {
    let (mut narrow, mut wide) = (Side::new(u16::ARCHIVE), Side::new(u32::ARCHIVE));
    for i in from..to {
        let mut rng = numbered(seed ^ RENUMBERED, i);
        let words: Vec<u16> = random::graph(&mut rng, SCALES[scale(i)]);
        let masks = random::masks(&mut rng, &words, 2);
        let mut numberings = vec![random::turned(&words)];
        numberings.extend((0..3).map(|_| random::renumbered(&mut rng, &words)));
        compare_renumbered(&words, &numberings, &masks, &mut narrow, &mut wide)?;
    }
    Ok([narrow.tally(), wide.tally()])
}

/// Random graphs `from` up to `to`, each with one search branch of 1, 2, 63, 64 or
/// another number of pairs.
pub fn searched(seed: u64, from: u64, to: u64) -> Compared {
    let mut side = Side::new(u16::ARCHIVE);
    for i in from..to {
        let mut rng = numbered(seed ^ SEARCHED, i);
        let scale = match i {
            _ if i % 4_000 == 3_999 => 5,
            _ if i % 1_000 == 999 => 4,
            _ if i % 50 == 49 => 3,
            _ => (i % 3) as usize,
        };
        let words: Vec<u16> = random::graph(&mut rng, SCALES[scale]);
        let most = paper::MOST_PAIRS;
        let pairs = match i % 5 {
            0 => rng.between(1, 2),
            1 => most - 1,
            2 => most,
            _ => rng.between(3, most),
        };
        let masks = random::search(&mut rng, &words, pairs);
        if let Some(answers) = compare(&words, &masks, &mut side)? {
            let order = (0..pairs).collect();
            branches::compare(&words, &masks, &[order], &answers, &mut side)?;
        }
    }
    Ok([side.tally(), Tally::default()])
}

/// What the generators of these graphs differ in from those of the random ones, and
/// those of renumbered graphs.
const SEARCHED: u64 = 0x1111_0000_0000_0000;
const RENUMBERED: u64 = 0x5555_0000_0000_0000;

/// Damaged copies of small random graphs.
pub fn damaged(seed: u64, from: u64, to: u64) -> Compared {
    both(Lengths::WrongToo, |visit| {
        for i in from..to {
            let mut rng = numbered(!seed, i);
            let whole: Vec<u16> = random::graph(&mut rng, SCALES[(i % 3) as usize]);
            let words = damage::copy(&mut rng, &whole);
            let masks = some_masks(&mut rng, &words, 3);
            visit(&words, &masks);
        }
    })
}

/// The same, damaged in their 32-bit words.
pub fn wide_damaged(seed: u64, from: u64, to: u64) -> Compared {
    wide(Lengths::WrongToo, |visit| {
        for i in from..to {
            let mut rng = numbered(seed ^ WIDE, i);
            let whole: Vec<u32> = random::graph(&mut rng, SCALES[(i % 3) as usize]);
            let words = damage::copy(&mut rng, &whole);
            let masks = some_masks(&mut rng, &words, 3);
            visit(&words, &masks);
        }
    })
}

/// What the generators of edition 2's graphs differ in from edition 1's.
const WIDE: u64 = 0x2222_0000_0000_0000;

/// Random graphs of a scale above edition 1's limits, with two pairs of masks each.
pub fn wide_graphs(seed: u64, scale: Scale, from: u64, to: u64) -> Compared {
    wide(Lengths::Right, |visit| {
        for i in from..to {
            let mut rng = numbered(seed ^ WIDE ^ scale.atoms as u64, i);
            let words: Vec<u32> = random::graph(&mut rng, scale);
            let masks = random::masks(&mut rng, &words, 2);
            visit(&words, &masks);
        }
    })
}

/// Request 7 on every content of exactly these counts under every pair of masks,
/// with every part of each list.
pub fn recut_contents(calls: Calls<u16>, sizes: Sizes) -> Result<Recut, Box<Difference>> {
    let masks = tiny::all_masks(usize::from(sizes.atoms), sizes.nodes);
    let (mut search, mut rng) = (Search::new(calls), Rng::new(7));
    up_to_the_first(
        |words, masks| search.hold(words, masks, 6, &mut rng),
        |visit| tiny::each_content(sizes, |content| visit(&content.words(), &masks)),
    )?;
    Ok(search.held)
}

/// Request 7 on random graphs `from` up to `to` under three pairs of masks each;
/// of a list of up to six atoms every part.
pub fn recut<W: Word>(
    calls: Calls<W>,
    seed: u64,
    from: u64,
    to: u64,
) -> Result<Recut, Box<Difference>> {
    let mut search = Search::new(calls);
    for i in from..to {
        let mut rng = numbered(seed ^ RECUT, i);
        let words: Vec<W> = random::graph(&mut rng, SCALES[scale(i)]);
        let masks = random::masks(&mut rng, &words, 3);
        search.hold(&words, &masks, 6, &mut rng)?;
    }
    Ok(search.held)
}

/// What the generators of these graphs differ in from those of the random ones.
const RECUT: u64 = 0x7777_0000_0000_0000;

/// The limits: edges, accepted or not, and the largest graphs.
pub fn limits(seed: u64) -> Compared {
    both(Lengths::WrongToo, |visit| {
        let mut rng = Rng::new(seed);
        let edges = edges::all().into_iter().map(|edge| edge.words);
        for words in edges.chain(edges::largest()) {
            let masks = some_masks(&mut rng, &words, 6);
            visit(&words, &masks);
        }
    })
}

/// Up to so many words the limits of edition 2 meet wrong lengths.
const SHORT: usize = 1_000;

/// The limits of edition 2, with so many pairs of masks; the short ones with
/// wrong lengths too.
pub fn wide_limits(seed: u64, pairs: usize) -> Compared {
    let edges = || edges::all().into_iter().map(|edge| edge.words);
    let short = |words: &Vec<u32>| words.len() <= SHORT;
    let some = |lengths: Lengths, list: Vec<Vec<u32>>| {
        wide(lengths, |visit| {
            let mut rng = Rng::new(seed);
            for words in list {
                let masks = some_masks(&mut rng, &words, pairs);
                visit(&words, &masks);
            }
        })
    };
    let [_, mut tally] = some(Lengths::WrongToo, edges().filter(short).collect())?;
    let long = edges()
        .filter(|words| !short(words))
        .chain(edges::largest());
    let [none, others] = some(Lengths::Right, long.collect())?;
    tally.add(&others);
    Ok([none, tally])
}

/// A largest graph of edition 2 with wrong lengths, and one whose entries run over
/// 32 bits: these take long.
pub fn widest() -> Compared {
    let [_, mut tally] = wide(Lengths::WrongToo, |visit| {
        visit(&edges::largest()[2], &[]);
    })?;
    let [none, walked] = wide(Lengths::Right, |visit| {
        visit(&edges::most_walked(), &[]);
    })?;
    tally.add(&walked);
    Ok([none, tally])
}

/// Atoms, nodes, rules and the longest list up to which contents are tiny.
pub type ContentBox = (u16, usize, usize, usize);

/// The tiny contents of the quick part, and of the long one.
pub const QUICK_CONTENTS: [ContentBox; 1] = [(2, 2, 2, 2)];
pub const LONG_CONTENTS: [ContentBox; 4] = [(3, 2, 2, 2), (2, 3, 2, 2), (2, 2, 3, 2), (1, 3, 2, 3)];

/// Every combination of counts within the boxes, with the longest list that one
/// of them allows.
pub fn tiny_sizes(boxes: &[ContentBox]) -> Vec<Sizes> {
    let mut longest = BTreeMap::new();
    for &(atoms, nodes, rules, list) in boxes {
        for a in 0..=atoms {
            for (n, r) in (0..=nodes).flat_map(|n| (0..=rules).map(move |r| (n, r))) {
                let most = longest.entry((a, n, r)).or_insert(list);
                *most = list.max(*most);
            }
        }
    }
    let sizes = longest
        .into_iter()
        .map(|((atoms, nodes, rules), list)| Sizes {
            atoms,
            nodes,
            rules,
            list,
        });
    sizes.collect()
}

/// The largest counts of tiny word patterns: atoms, nodes, rules, links.
pub const QUICK_PATTERNS: [[u16; 4]; 1] = [[1, 1, 1, 2]];
pub const LONG_PATTERNS: [[u16; 4]; 2] = [[1, 2, 1, 2], [1, 1, 1, 3]];

/// Every combination of counts up to some of these.
pub fn tiny_counts(boxes: &[[u16; 4]]) -> BTreeSet<[u16; 4]> {
    let mut counts = BTreeSet::new();
    for &[atoms, nodes, rules, links] in boxes {
        for (a, n) in (0..=atoms).flat_map(|a| (0..=nodes).map(move |n| (a, n))) {
            counts.extend((0..=rules).flat_map(|r| (0..=links).map(move |l| [a, n, r, l])));
        }
    }
    counts
}
