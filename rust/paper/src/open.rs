//! Requests 12 and 13 of document 02: what open readings may turn out to be,
//! every choice of the undecided bits tried after the other.

use crate::graph::Graph;
use crate::table::Refusal;
use crate::{WORK_WORDS, is_cut, mask_len, pack};

/// Bit `number` of a mask; one past its end is not set.
fn is_set(mask: &[u64], number: usize) -> bool {
    number / 64 < mask.len() && is_cut(mask, number)
}

/// The numbers below `count` that are undecided.
fn open_below(count: usize, open: &[u64]) -> Vec<usize> {
    (0..count).filter(|&number| is_set(open, number)).collect()
}

/// Row 21, for a mask and its undecided bits; bits past the last number are
/// ignored.
fn apart(masks: &[(usize, &[u64], &[u64])]) -> Result<(), Refusal> {
    let both = |&(count, cut, open): &(usize, &[u64], &[u64])| {
        (0..count).any(|number| is_set(cut, number) && is_set(open, number))
    };
    if masks.iter().any(both) {
        return Err(Refusal::at(21, 0));
    }
    Ok(())
}

/// Row 10: each mask is as long as it may be at most (request 2), and each output
/// as long as it must be.
fn lengths(masks: &[(usize, usize)], outputs: &[(usize, usize)]) -> Result<(), Refusal> {
    let long = masks.iter().any(|&(length, most)| length > most);
    let other = outputs.iter().any(|&(length, right)| length != right);
    if long || other {
        return Err(Refusal::at(10, 0));
    }
    Ok(())
}

/// Row 11: both calls are of edition 1.
fn work_area(length: usize) -> Result<(), Refusal> {
    if length != WORK_WORDS {
        return Err(Refusal::at(11, 0));
    }
    Ok(())
}

/// A mask with what a choice rules out: the undecided numbers whose bits of
/// `choice` are set.
fn with_choice(count: usize, mask: &[u64], open: &[usize], choice: u32) -> Vec<u64> {
    let mut cuts = mask.to_vec();
    cuts.resize(mask_len(count), 0);
    for (_, &number) in open
        .iter()
        .enumerate()
        .filter(|(i, _)| choice >> i & 1 == 1)
    {
        cuts[number / 64] |= 1 << (number % 64);
    }
    cuts
}

/// What request 12's call is lent, but for the graph.
#[derive(Clone, Copy, Debug)]
pub struct Open<'a> {
    pub never: &'a [u64],
    pub atom_never: &'a [u64],
    pub open: &'a [u64],
    pub atom_open: &'a [u64],
}

/// The states missing under every choice of the undecided bits, and those missing
/// under at least one: both outputs' words.
///
/// # Errors
/// The first row that applies: 1 to 10 and 14, 21, 11, 12.
pub fn undecided(
    words: &[u16],
    lent: Open<'_>,
    always_len: usize,
    sometimes_len: usize,
    work_len: usize,
) -> Result<[Vec<u64>; 2], Refusal> {
    let graph = Graph::decode(words)?;
    let (atoms, nodes) = (graph.atoms, graph.nodes.len());
    lengths(
        &[
            (lent.never.len(), mask_len(nodes)),
            (lent.atom_never.len(), mask_len(atoms)),
            (lent.open.len(), mask_len(nodes)),
            (lent.atom_open.len(), mask_len(atoms)),
        ],
        &[
            (always_len, mask_len(atoms)),
            (sometimes_len, mask_len(atoms)),
        ],
    )?;
    apart(&[
        (nodes, lent.never, lent.open),
        (atoms, lent.atom_never, lent.atom_open),
    ])?;
    work_area(work_len)?;
    let prepared = graph.prepared()?;
    let open = open_below(nodes, lent.open);
    let atom_open = open_below(atoms, lent.atom_open);
    let (mut always, mut sometimes) = (vec![true; atoms], vec![false; atoms]);
    for of_nodes in 0..1 << open.len() {
        let never = with_choice(nodes, lent.never, &open, of_nodes);
        for of_atoms in 0..1 << atom_open.len() {
            let atom_never = with_choice(atoms, lent.atom_never, &atom_open, of_atoms);
            for (a, missing) in prepared
                .missing(&never, &atom_never)
                .into_iter()
                .enumerate()
            {
                always[a] &= missing;
                sometimes[a] |= missing;
            }
        }
    }
    Ok([pack(&always), pack(&sometimes)])
}

/// For each state in how many choices of the undecided states it is missing,
/// ruled out, neither: the output's numbers, three to a state.
///
/// # Errors
/// The first row that applies: 1 to 10 and 14, 21, 22, 11, 12.
pub fn tally(
    words: &[u16],
    never: &[u64],
    atom_never: &[u64],
    atom_open: &[u64],
    output_len: usize,
    work_len: usize,
) -> Result<Vec<u16>, Refusal> {
    let graph = Graph::decode(words)?;
    let (atoms, nodes) = (graph.atoms, graph.nodes.len());
    lengths(
        &[
            (never.len(), mask_len(nodes)),
            (atom_never.len(), mask_len(atoms)),
            (atom_open.len(), mask_len(atoms)),
        ],
        &[(output_len, 3 * atoms)],
    )?;
    apart(&[(atoms, atom_never, atom_open)])?;
    let open = open_below(atoms, atom_open);
    if open.len() > 12 {
        return Err(Refusal::at(22, 0));
    }
    work_area(work_len)?;
    let prepared = graph.prepared()?;
    let never = with_choice(nodes, never, &[], 0);
    let mut counts = vec![0; 3 * atoms];
    for choice in 0..1 << open.len() {
        let cuts = with_choice(atoms, atom_never, &open, choice);
        let missing = prepared.missing(&never, &cuts);
        for a in 0..atoms {
            let ruled_out = is_cut(&cuts, a);
            let which = match (missing[a], ruled_out) {
                (true, _) => 0,
                (false, true) => 1,
                (false, false) => 2,
            };
            counts[3 * a + which] += 1;
        }
    }
    Ok(counts)
}
