//! The calls. A call skips the rows for things it isn't lent. The width of the
//! words is that of the edition.

use crate::edition::Word;
use crate::graph::Graph;
use crate::meaning::Prepared;
use crate::table::Refusal;
use crate::{mask_len, pack};

/// Row 10, for the masks lent and the counts they stand for, which may be
/// shorter (request 2), and for the output, which may not.
fn lengths(masks: &[(&[u64], usize)], output: usize, atoms: usize) -> Result<(), Refusal> {
    let long = |&(mask, count): &(&[u64], usize)| mask.len() > mask_len(count);
    if masks.iter().any(long) || output != mask_len(atoms) {
        return Err(Refusal::at(10, 0));
    }
    Ok(())
}

/// Row 11.
fn work_area<W: Word>(length: usize, graph: &Graph) -> Result<(), Refusal> {
    if length != W::EDITION.work_words(graph) {
        return Err(Refusal::at(11, 0));
    }
    Ok(())
}

/// The words of the work area that row 11 asks for, 0 where the check refuses.
pub fn work_words<W: Word>(words: &[W]) -> usize {
    Graph::decode(words).map_or(0, |graph| W::EDITION.work_words(&graph))
}

/// The loop test: rows 1 to 9, 14 and 11.
///
/// # Errors
/// The first row that applies.
pub fn needed<W: Word>(words: &[W], work_len: usize) -> Result<bool, Refusal> {
    let graph = Graph::decode(words)?;
    work_area::<W>(work_len, &graph)?;
    Ok(graph.loops())
}

/// Preparation: rows 1 to 9 and 14, 10 for its output, 11 and 12. The output's words.
///
/// # Errors
/// The first row that applies.
pub fn prepare<W: Word>(
    words: &[W],
    output_len: usize,
    work_len: usize,
) -> Result<Vec<u64>, Refusal> {
    let graph = Graph::decode(words)?;
    lengths(&[], output_len, graph.atoms)?;
    work_area::<W>(work_len, &graph)?;
    Ok(pack(&graph.prepared()?.marked))
}

/// The pass: all rows. The output's words.
///
/// # Errors
/// The first row that applies.
pub fn complete<W: Word>(
    words: &[W],
    never: &[u64],
    atom_never: &[u64],
    output_len: usize,
    work_len: usize,
) -> Result<Vec<u64>, Refusal> {
    let lent = (never, atom_never, output_len, work_len);
    listed(words, lent, |prepared| prepared.missing(never, atom_never))
}

/// Request 6's call, beside the pass and with the same rows. The output's words.
///
/// # Errors
/// The first row that applies.
pub fn unfounded<W: Word>(
    words: &[W],
    never: &[u64],
    atom_never: &[u64],
    output_len: usize,
    work_len: usize,
) -> Result<Vec<u64>, Refusal> {
    let lent = (never, atom_never, output_len, work_len);
    listed(words, lent, |prepared| {
        prepared.unsupported(never, atom_never)
    })
}

/// All rows, and a list of states.
fn listed<W: Word>(
    words: &[W],
    (never, atom_never, output_len, work_len): (&[u64], &[u64], usize, usize),
    list: impl Fn(&Prepared<'_>) -> Vec<bool>,
) -> Result<Vec<u64>, Refusal> {
    let graph = Graph::decode(words)?;
    let masks = [(never, graph.nodes.len()), (atom_never, graph.atoms)];
    lengths(&masks, output_len, graph.atoms)?;
    work_area::<W>(work_len, &graph)?;
    Ok(pack(&list(&graph.prepared()?)))
}

/// What the pass within an allowance answers, and what is left of the allowance.
pub struct Within {
    pub answer: Result<Vec<u64>, Refusal>,
    pub left: u64,
}

/// The pass within a work allowance (document 02, request 8): as the pass, then 15,
/// the count exceeds the allowance, after 12. The allowance falls by the count on
/// success and reads 0 after 15; an earlier refusal doesn't touch it.
pub fn complete_within<W: Word>(
    words: &[W],
    never: &[u64],
    atom_never: &[u64],
    output_len: usize,
    work_len: usize,
    allowance: u64,
) -> Within {
    let answer = complete(words, never, atom_never, output_len, work_len);
    let count = |graph: &Graph| graph.prepared().expect("no 12").work(never, atom_never);
    match (&answer, Graph::decode(words)) {
        (Ok(_), Ok(graph)) => match allowance.checked_sub(count(&graph)) {
            Some(left) => Within { answer, left },
            None => Within {
                answer: Err(Refusal::at(15, 0)),
                left: 0,
            },
        },
        _ => Within {
            answer,
            left: allowance,
        },
    }
}

/// The most pairs of a search branch.
pub const MOST_PAIRS: usize = 64;

/// The length of a search branch's work area, in 16-bit words.
pub const BRANCH_WORK_WORDS: usize = 49_152;

/// A search branch (document 02, request 1): a missing list for each pair of
/// masks. Masks are lent end to end, and so is the output written: 10 asks each
/// for its length times the number of pairs, 11 for a length of its own. 13, no
/// pair or more than 64, stands after 9 and before 10.
///
/// # Errors
/// The first row that applies.
pub fn branch(
    words: &[u16],
    pairs: usize,
    never: &[u64],
    atom_never: &[u64],
    output_len: usize,
    work_len: usize,
) -> Result<Vec<u64>, Refusal> {
    let graph = Graph::decode(words)?;
    if pairs == 0 || pairs > MOST_PAIRS {
        return Err(Refusal::at(13, 0));
    }
    let (nodes, atoms) = (mask_len(graph.nodes.len()), mask_len(graph.atoms));
    if never.len() != pairs * nodes
        || atom_never.len() != pairs * atoms
        || output_len != pairs * atoms
    {
        return Err(Refusal::at(10, 0));
    }
    if work_len != BRANCH_WORK_WORDS {
        return Err(Refusal::at(11, 0));
    }
    let prepared = graph.prepared()?;
    let list = |pair: usize| {
        let never = &never[pair * nodes..][..nodes];
        let atom_never = &atom_never[pair * atoms..][..atoms];
        pack(&prepared.missing(never, atom_never))
    };
    Ok((0..pairs).flat_map(list).collect())
}
