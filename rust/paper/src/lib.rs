//! Document 01, and requests 1, 5, 6, 8, 9, 12, 13 and 14 of document 02, in slow, plain
//! Rust, written from their text alone; what request 1 takes from the original by
//! name is in [`narrowed`].
//!
//! - [`Edition`], [`Word`]: what an edition has of its own; 16-bit words are of
//!   edition 1, 32-bit words of edition 2;
//! - [`check`]: the refusal table's rows 1 to 9 and 14;
//! - [`needed`], [`prepare`], [`complete`], [`unfounded`]: the calls, with rows 10
//!   to 12;
//! - [`complete_within`]: the pass within a work allowance, with row 15;
//! - [`branch`]: a search branch, with row 13;
//! - [`work_words`]: the length that row 11 asks for;
//! - [`compare`]: one order for graphs, by content;
//! - [`program`]: standard input's bytes to the program's text;
//! - [`Graph`], [`Prepared`]: the meaning, from which the calls are made;
//! - [`large`]: closed chains and support in graphs too large for the slow ways;
//! - [`narrowed`]: what the later pairs of a branch go by;
//! - [`groups`]: unearned groups and unfounded sets, by trying every set of atoms;
//! - [`open`]: undecided bits, by trying every choice.

mod calls;
mod closure;
mod edition;
mod graph;
pub mod groups;
pub mod large;
mod meaning;
pub mod narrowed;
pub mod open;
mod order;
pub mod program;
mod table;
mod truth;
mod work;

pub use calls::{
    BRANCH_WORK_WORDS, MOST_PAIRS, Within, branch, complete, complete_within, needed, prepare,
    unfounded, work_words,
};
pub use edition::{EDITION_1, EDITION_2, Edition, WORK_WORDS, Word};
pub use graph::{Graph, Kind, Node, Rule};
pub use meaning::{Prepared, Rows, marked_by_components};
pub use order::compare;
pub use table::{Refusal, check};

/// Words of 64 bits for that many numbers.
pub fn mask_len(count: usize) -> usize {
    count.div_ceil(64)
}

/// Whether `number` is cut: bit i of word w, lowest first, is 64·w + i. A bit
/// past the mask's end reads as not cut (request 2).
pub fn is_cut(mask: &[u64], number: usize) -> bool {
    mask.get(number / 64)
        .is_some_and(|word| word & (1 << (number % 64)) != 0)
}

/// One bit for each number in the set; unused bits are 0.
pub fn pack(set: &[bool]) -> Vec<u64> {
    let mut words = vec![0; mask_len(set.len())];
    for (number, _) in set.iter().enumerate().filter(|(_, member)| **member) {
        words[number / 64] |= 1 << (number % 64);
    }
    words
}
