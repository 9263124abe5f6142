//! The graph check in plain Rust: rows 1 to 9 and 14, with the limits of either
//! edition. Its walks are those of the proved check: with no memory of its own it
//! tells that a chain comes back by following it for more than K links, and
//! where every next is 0 or above its own link it does not look.

use crate::word::Word;

/// Number and place of a refusal.
pub type Refusal = (u16, u32);

/// # Errors
/// The first row of the table that applies.
pub fn check<W: Word>(words: &[W]) -> Result<(), Refusal> {
    let &[edition, atoms, nodes, producers, links, ref records @ ..] = words else {
        return Err((1, 0));
    };
    if edition.number() != W::EDITION {
        return Err((1, 0));
    }
    let most = |count: W| count.number() > W::MOST;
    if most(atoms) || most(nodes) || most(producers) || links.number() > W::MOST_LINKS {
        return Err((2, 0));
    }
    let counts = [nodes, producers, links].map(W::number);
    if records.len() != 3 * counts[0] + 2 * counts[1] + 2 * counts[2] {
        return Err((3, 0));
    }
    let (of_nodes, rest) = records.split_at(3 * counts[0]);
    let (of_producers, of_links) = rest.split_at(2 * counts[1]);
    let of_nodes = of_nodes.as_chunks::<3>().0;
    let of_producers = of_producers.as_chunks::<2>().0;
    let of_links = of_links.as_chunks::<2>().0;

    first(
        4,
        of_nodes
            .iter()
            .position(|record| bad_node(*record, atoms, links)),
    )?;
    first(
        5,
        of_producers
            .iter()
            .position(|&[body, heads]| body > nodes || heads > links),
    )?;
    let leaves = of_nodes.iter().map(|record| record[2]);
    let heads = of_producers.iter().map(|record| record[1]);
    let upward =
        |(own, &[_, next]): (W, &[W; 2])| next <= links && (next.number() == 0 || next > own);
    let turn = (1..)
        .map(W::of)
        .zip(of_links)
        .position(|link| !upward(link));
    if let Some(turn) = turn {
        let mut later = turn..of_links.len();
        let above = later.find(|&link| of_links[link][1] > links);
        first(6, above.map(|link| link + 1))?;
        first(
            14,
            leaves.clone().position(|first| comes_back(first, of_links)),
        )?;
        first(
            14,
            heads.clone().position(|first| comes_back(first, of_links)),
        )?;
    }
    let leaf_entries = entries(7, leaves.zip((0..).map(W::of)), of_links)?;
    let head_entries = entries(8, heads.zip(std::iter::repeat(atoms)), of_links)?;
    if leaf_entries > W::MOST_LINKS || head_entries > W::MOST_LINKS {
        return Err((9, 0));
    }
    Ok(())
}

fn first(number: u16, place: Option<usize>) -> Result<(), Refusal> {
    place.map_or(Ok(()), |place| Err((number, place as u32)))
}

fn bad_node<W: Word>([kind, operand, first]: [W; 3], atoms: W, links: W) -> bool {
    let none = |word: W| word.number() == 0;
    match kind.number() {
        1 => operand >= atoms || !none(first),
        2 | 3 => !none(operand) || first > links,
        0 | 4..=7 => !none(operand) || !none(first),
        _ => true,
    }
}

/// Whether a chain has not ended after K links.
fn comes_back<W: Word>(first: W, links: &[[W; 2]]) -> bool {
    let mut link = first;
    for _ in 0..links.len() {
        if link.number() == 0 {
            return false;
        }
        link = links[link.number() - 1][1];
    }
    link.number() != 0
}

/// The entries of all chains; each value must be below its chain's bound.
fn entries<W: Word>(
    number: u16,
    chains: impl Iterator<Item = (W, W)>,
    links: &[[W; 2]],
) -> Result<usize, Refusal> {
    let mut entries = 0;
    for (place, (first, bound)) in chains.enumerate() {
        let mut link = first;
        while link.number() != 0 {
            let [value, next] = links[link.number() - 1];
            if value >= bound {
                return Err((number, place as u32));
            }
            entries += 1;
            link = next;
        }
    }
    Ok(entries)
}
