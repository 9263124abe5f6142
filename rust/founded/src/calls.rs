//! The calls over plain slices, once for both widths. Rust's borrow rules keep the buffers apart, as the calls need.

use std::cmp::Ordering;

use crate::{Meter, Refusal, Word, chains, raw};

/// The length of the work area in edition 1, in 16-bit words. In edition 2 it depends on the graph: [`wide::work_words`].
pub const WORK_WORDS: usize = 32_768;

/// The length of the work area of [`branch`], in 16-bit words.
pub const BRANCH_WORK_WORDS: usize = 49_152;

/// The most pairs of masks of one [`branch`].
pub const MOST_PAIRS: usize = 64;

/// How many 64-bit words a mask over so many numbers has: the node mask over N, the atom mask and the output over A.
#[must_use]
pub const fn mask_words(count: usize) -> usize {
    count.div_ceil(64)
}

/// A code's place is in as many low bits as a word has, its number above them.
fn refusal<W: Word>(graph: &[W], code: u64) -> Refusal {
    let bits = 8 * size_of::<W>();
    let (number, place) = (code >> bits, (code & ((1 << bits) - 1)) as u32);
    match number {
        14 => Some(Refusal::ComesBack(chains::whose(graph, place))),
        _ => u16::try_from(number)
            .ok()
            .and_then(|number| Refusal::of(number, place)),
    }
    .expect("the proved calls answer by no other code")
}

fn answer<W: Word>(graph: &[W], code: W::Code) -> Result<(), Refusal> {
    match code.into() {
        0 => Ok(()),
        code => Err(refusal(graph, code)),
    }
}

pub fn check<W: Word>(graph: &[W]) -> Result<(), Refusal> {
    // SAFETY: a slice is as many valid, aligned words at a pointer that is not null, and is shared for the call.
    answer(graph, unsafe {
        (W::CALLS.check)(graph.as_ptr(), graph.len())
    })
}

pub fn needed<W: Word>(graph: &[W], work: &mut [W]) -> Result<bool, Refusal> {
    // SAFETY: as in `check`; `work` is borrowed for this call alone, so nothing else reads or writes it.
    let code =
        unsafe { (W::CALLS.needed)(graph.as_ptr(), graph.len(), work.as_mut_ptr(), work.len()) };
    match code.into() {
        0 => Ok(false),
        1 => Ok(true),
        code => Err(refusal(graph, code)),
    }
}

pub fn prepare<W: Word>(graph: &[W], output: &mut [u64], work: &mut [W]) -> Result<(), Refusal> {
    // SAFETY: as in `needed`, for `output` too.
    answer(graph, unsafe {
        (W::CALLS.prepare)(
            graph.as_ptr(),
            graph.len(),
            output.as_mut_ptr(),
            output.len(),
            work.as_mut_ptr(),
            work.len(),
        )
    })
}

pub fn complete<W: Word>(
    graph: &[W],
    never: &[u64],
    atom_never: &[u64],
    output: &mut [u64],
    work: &mut [W],
) -> Result<(), Refusal> {
    // SAFETY: as in `prepare`.
    answer(graph, unsafe {
        (W::CALLS.complete)(
            graph.as_ptr(),
            graph.len(),
            never.as_ptr(),
            never.len(),
            atom_never.as_ptr(),
            atom_never.len(),
            output.as_mut_ptr(),
            output.len(),
            work.as_mut_ptr(),
            work.len(),
        )
    })
}

pub fn unfounded(
    graph: &[u16],
    never: &[u64],
    atom_never: &[u64],
    output: &mut [u64],
    work: &mut [u16],
) -> Result<(), Refusal> {
    // SAFETY: as in `prepare`.
    answer(graph, unsafe {
        raw::founded_unfounded(
            graph.as_ptr(),
            graph.len(),
            never.as_ptr(),
            never.len(),
            atom_never.as_ptr(),
            atom_never.len(),
            output.as_mut_ptr(),
            output.len(),
            work.as_mut_ptr(),
            work.len(),
        )
    })
}

pub fn compare(graph: &[u16], other: &[u16]) -> Result<Ordering, Refusal> {
    // SAFETY: as in `check`, for both slices.
    let code =
        unsafe { raw::founded_compare(graph.as_ptr(), graph.len(), other.as_ptr(), other.len()) };
    match code {
        0 => Ok(Ordering::Equal),
        1 => Ok(Ordering::Less),
        2 => Ok(Ordering::Greater),
        // The code does not say whose refusal it is, and 14's chain is one of that graph.
        code => Err(refusal(
            if check(graph).is_err() { graph } else { other },
            code.into(),
        )),
    }
}

/// The pass within a work allowance, in edition 1: as [`complete`](narrow::complete), and the meter's remainder falls by the count. It counts as it goes and stops as soon as the count would
/// exceed the allowance. A refusal leaves output and meter as they were, but that 15 leaves nothing on the meter; 12 and 15 leave the work area all zero.
///
/// # Errors
/// The first of 1 to 12 and 14 that applies, and 15 after them.
pub fn complete_within(
    graph: &[u16],
    never: &[u64],
    atom_never: &[u64],
    output: &mut [u64],
    work: &mut [u16],
    meter: &mut Meter,
) -> Result<(), Refusal> {
    // SAFETY: as in `prepare`; the allowance is a number of its own, borrowed for this call alone.
    answer(graph, unsafe {
        raw::founded_complete_within(
            graph.as_ptr(),
            graph.len(),
            never.as_ptr(),
            never.len(),
            atom_never.as_ptr(),
            atom_never.len(),
            output.as_mut_ptr(),
            output.len(),
            work.as_mut_ptr(),
            work.len(),
            meter.allowance(),
        )
    })
}

/// Telemetry not yet in, on graphs of edition 1. Beside each mask comes one of undecided bits: `open` beside `never`, `atom_open` beside `atom_never`. `always` lists the atoms missing
/// under every choice of the undecided bits, `sometimes` those missing under at least one. Both outputs are left, and the work area, as [`prepare`](narrow::prepare) leaves them.
///
/// # Errors
/// The first of 1 to 12, 14 and 21 that applies.
#[expect(clippy::too_many_arguments, reason = "the call's own, each a slice")]
pub fn undecided(
    graph: &[u16],
    never: &[u64],
    atom_never: &[u64],
    open: &[u64],
    atom_open: &[u64],
    always: &mut [u64],
    sometimes: &mut [u64],
    work: &mut [u16],
) -> Result<(), Refusal> {
    // SAFETY: as in `prepare`, for both outputs.
    answer(graph, unsafe {
        raw::founded_undecided(
            graph.as_ptr(),
            graph.len(),
            never.as_ptr(),
            never.len(),
            atom_never.as_ptr(),
            atom_never.len(),
            open.as_ptr(),
            open.len(),
            atom_open.as_ptr(),
            atom_open.len(),
            always.as_mut_ptr(),
            always.len(),
            sometimes.as_mut_ptr(),
            sometimes.len(),
            work.as_mut_ptr(),
            work.len(),
        )
    })
}

/// A search branch, on a graph of edition 1: the output lists the missing atoms for each of 1 to 64 pairs of masks, as [`complete`](narrow::complete) does for one.
///
/// Node masks, atom masks and the lists of the output are laid end to end, each at its full length: for P pairs they have exactly P·⌈N/64⌉, P·⌈A/64⌉ and P·⌈A/64⌉ words, or it is
/// refused with 10. The work area has exactly [`BRANCH_WORK_WORDS`], or 11. Success and 12 leave it all zero; every other refusal leaves it, and every refusal leaves the output, as it was.
///
/// # Errors
/// The first of 1 to 14 that applies: 14 stands between 6 and 7, and 13, no pair or more than 64, between 9 and 10.
pub fn branch(
    graph: &[u16],
    pairs: usize,
    never: &[u64],
    atom_never: &[u64],
    output: &mut [u64],
    work: &mut [u16],
) -> Result<(), Refusal> {
    // SAFETY: as in `complete`.
    answer(graph, unsafe {
        raw::founded_branch(
            graph.as_ptr(),
            graph.len(),
            pairs,
            never.as_ptr(),
            never.len(),
            atom_never.as_ptr(),
            atom_never.len(),
            output.as_mut_ptr(),
            output.len(),
            work.as_mut_ptr(),
            work.len(),
        )
    })
}

/// The four calls by name, for words of one type.
macro_rules! named {
    ($word:ty) => {
        use crate::{Refusal, calls};

        /// The graph check.
        ///
        /// # Errors
        /// The first of 1 to 9 and 14 that applies.
        pub fn check(graph: &[$word]) -> Result<(), Refusal> {
            calls::check(graph)
        }

        /// The loop test: whether there is a closed walk over all atoms and all nodes. Success leaves the work area all zero, a refusal leaves it as it was.
        ///
        /// # Errors
        /// The first of 1 to 9, 14 and 11 that applies.
        pub fn needed(graph: &[$word], work: &mut [$word]) -> Result<bool, Refusal> {
            calls::needed(graph, work)
        }

        /// Preparation: the output lists the cyclic atoms (document 01: the marked states). Success and 12 leave the work area all zero; every other refusal
        /// leaves it, and every refusal leaves the output, as it was.
        ///
        /// # Errors
        /// The first of 1 to 12 and 14 that applies.
        pub fn prepare(
            graph: &[$word],
            output: &mut [u64],
            work: &mut [$word],
        ) -> Result<(), Refusal> {
            calls::prepare(graph, output, work)
        }

        /// The pass: the output lists the missing atoms, those that lie in some unfounded set under the cuts of `never` (nodes) and `atom_never` (atoms). It
        /// leaves output and work area as [`prepare`] does.
        ///
        /// # Errors
        /// The first of 1 to 12 and 14 that applies.
        pub fn complete(
            graph: &[$word],
            never: &[u64],
            atom_never: &[u64],
            output: &mut [u64],
            work: &mut [$word],
        ) -> Result<(), Refusal> {
            calls::complete(graph, never, atom_never, output, work)
        }
    };
}

/// On graphs of edition 1. The crate has these names at its top.
pub mod narrow {
    use std::cmp::Ordering;

    named!(u16);

    /// The pass with every atom marked (document 02, request 6): the output lists the uncut atoms that are left unfounded, those that nothing produces and those that only hold each other
    /// up. These are the uncut atoms of the greatest unfounded set of Van Gelder, Ross and Schlipf (1991); each atom on the pass's list is among them. It leaves output and work area as
    /// [`prepare`] does.
    ///
    /// # Errors
    /// The first of 1 to 12 and 14 that applies.
    pub fn unfounded(
        graph: &[u16],
        never: &[u64],
        atom_never: &[u64],
        output: &mut [u64],
        work: &mut [u16],
    ) -> Result<(), Refusal> {
        calls::unfounded(graph, never, atom_never, output, work)
    }

    /// One order for graphs, by content: by how many atoms, nodes and producers there are, then node by node by kind, operand and leaf list, then producer by producer by body + 1
    /// and head list. Lists go by first difference, a shorter beginning first. Kinds go by number: Implies, Threshold and `ExtremumCut` are three. The links' numbering and links
    /// in no chain play no part.
    ///
    /// It is a total order, and Equal exactly if the content is the same; then all other calls give both graphs the same answers and lists under the same masks.
    ///
    /// # Errors
    /// The first of 1 to 9 and 14 that applies to `graph`, or where that is accepted to `other`. It does not say which of the two is refused.
    pub fn compare(graph: &[u16], other: &[u16]) -> Result<Ordering, Refusal> {
        calls::compare(graph, other)
    }
}

/// The calls on graphs of edition 2, in 32-bit words.
///
/// Each begins with the graph check. It is lent no memory, and so it walks each chain by itself: where many share a long tail it may walk up to 2·(N + P)·K links before it
/// refuses the graph, for hours. On a graph that it accepts the time goes by the graph's length and its entries.
/// [`WideGraph::from_words`](crate::WideGraph::from_words) looks for such graphs first and is never long: take it for a graph that you did not make yourself.
pub mod wide {
    named!(u32);

    use crate::raw;

    /// The length of the work area that the calls on this graph are lent, in 32-bit words: 16·(A + N + P + 1) + 4·(leaf entries + head entries), as the archive says it.
    /// None if [`check`] refuses the graph. It walks all chains, and so takes about as long as a graph check.
    #[must_use]
    pub fn work_words(graph: &[u32]) -> Option<usize> {
        // SAFETY: as in `calls::check`.
        match unsafe { raw::founded_wide_work_words(graph.as_ptr(), graph.len()) } {
            0 => None,
            words => Some(words as usize),
        }
    }
}
