//! Damaged copies of graphs: words changed, dropped, added or exchanged, and links
//! led elsewhere, which makes circles.

use crate::calls::Word;
use crate::rng::Rng;

/// A copy with one to three faults. It may still pass the graph check.
pub fn copy<W: Word>(rng: &mut Rng, words: &[W]) -> Vec<W> {
    let mut copy = words.to_vec();
    for _ in 0..rng.between(1, 3) {
        fault(rng, &mut copy);
    }
    copy
}

fn fault<W: Word>(rng: &mut Rng, words: &mut Vec<W>) {
    if words.is_empty() || rng.chance(1, 20) {
        words.push(W::cut(rng.below(4) as u64));
        return;
    }
    let at = place(rng, words.len());
    let old = words[at].number() as u64;
    match rng.below(12) {
        0 => words[at] = W::cut(rng.word()),
        1 => words[at] = W::cut(old + 1),
        2 => words[at] = W::cut(old.wrapping_sub(1)),
        3 => words[at] = W::cut(old ^ 1 << rng.below(W::BITS)),
        4 => {
            words.remove(at);
        }
        5 => words.truncate(at),
        6 => {
            let other = rng.below(words.len());
            words.swap(at, other);
        }
        7 | 8 => next(rng, words),
        // Counts, kinds and small numbers: what stands close to the limits.
        _ => {
            let [zero, one, two, three, seven, eight] = [0, 1, 2, 3, 7, 8].map(W::from);
            let (count, middle) = (words[1 % words.len()], words[words.len() / 2]);
            words[at] = *rng.pick(&[zero, one, two, three, seven, eight, count, middle]);
        }
    }
}

/// Another next for some link, up to one above K, if the header leaves room for links.
fn next<W: Word>(rng: &mut Rng, words: &mut [W]) {
    let links = words.get(4).map_or(0, |links| links.number());
    if (1..words.len() / 2).contains(&links) {
        let at = words.len() + 1 - 2 * rng.between(1, links);
        words[at] = W::cut(rng.between(0, links + 1) as u64);
    }
}

/// Mostly past the header, where the later rows of the table are decided.
fn place(rng: &mut Rng, length: usize) -> usize {
    if length > 5 && rng.chance(9, 10) {
        rng.between(5, length - 1)
    } else {
        rng.below(length)
    }
}
