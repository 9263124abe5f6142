//! Request 7 of document 02: what a search leans on that cuts missing atoms and
//! runs again, held over runs of the proved calls alone. What a list is plays no
//! part here.

use std::ops::Not;

use crate::agree::{Difference, Masks, on};
use crate::calls::{Calls, Word};
use crate::rng::Rng;
use paper::Graph;

/// What was run and held so far.
#[derive(Clone, Copy, Debug, Default, PartialEq, Eq)]
pub struct Recut {
    pub graphs: u64,
    /// Graphs with 12, on which nothing is held.
    pub absorbed: u64,
    pub loops: u64,
    pub passes: u64,
    /// Second passes with a part of a list cut too, some part of it or all.
    pub parts: u64,
    pub whole: u64,
    /// Second passes with more cuts in both masks, and how many lists grew.
    pub more: u64,
    pub grown: u64,
}

/// The calls, and memory for them.
pub struct Search<W: Word> {
    calls: Calls<W>,
    work: Vec<W>,
    pub held: Recut,
}

/// What a call answers, unless it refuses.
fn success<W: Word>(code: W::Code) -> Option<u32> {
    let (number, answer) = W::parts(code);
    (number == 0).then_some(answer)
}

impl<W: Word> Search<W> {
    pub fn new(calls: Calls<W>) -> Self {
        Self {
            calls,
            work: vec![],
            held: Recut::default(),
        }
    }

    fn loops(&mut self, words: &[W]) -> Option<bool> {
        let work = &mut self.work;
        // Safety: each slice is a vector's own.
        let code = unsafe {
            (self.calls.needed)(words.as_ptr(), words.len(), work.as_mut_ptr(), work.len())
        };
        success::<W>(code).map(|answer| answer == 1)
    }

    fn marks(&mut self, words: &[W], output: usize) -> Option<Vec<u64>> {
        let mut list = vec![!0; output];
        let (prepare, work) = (self.calls.prepare, &mut self.work);
        // Safety: each slice is a vector's own.
        let code = unsafe {
            prepare(
                words.as_ptr(),
                words.len(),
                list.as_mut_ptr(),
                list.len(),
                work.as_mut_ptr(),
                work.len(),
            )
        };
        success::<W>(code).map(|_| list)
    }

    fn list(&mut self, words: &[W], (never, atom_never): &Masks) -> Option<Vec<u64>> {
        self.held.passes += 1;
        let mut list = vec![!0; atom_never.len()];
        let (complete, work) = (self.calls.complete, &mut self.work);
        // Safety: each slice is a vector's own.
        let code = unsafe {
            complete(
                words.as_ptr(),
                words.len(),
                never.as_ptr(),
                never.len(),
                atom_never.as_ptr(),
                atom_never.len(),
                list.as_mut_ptr(),
                list.len(),
                work.as_mut_ptr(),
                work.len(),
            )
        };
        success::<W>(code).map(|_| list)
    }

    /// The relations on one accepted graph, for each pair of masks and some more
    /// that the generator draws from it; of a list of up to `all` atoms every part.
    ///
    /// # Errors
    /// The first that does not hold.
    pub fn hold(
        &mut self,
        words: &[W],
        masks: &[Masks],
        all: u32,
        rng: &mut Rng,
    ) -> Result<(), Difference> {
        let graph = Graph::decode(words).expect("an accepted graph");
        self.work.resize(W::EDITION.work_words(&graph), W::from(0));
        self.held.graphs += 1;
        let loops = self.loops(words).expect("the loop test answers");
        self.held.loops += u64::from(loops);
        let Some(marks) = self.marks(words, paper::mask_len(graph.atoms)) else {
            self.held.absorbed += 1;
            return Ok(());
        };
        if marks.iter().any(|&word| word != 0) != loops {
            let what = format!("the loop test says {loops}, preparation marks {marks:x?}");
            return Err(on(words, None)(what));
        }
        for pair in masks {
            self.hold_pair(words, pair, all, rng)
                .map_err(on(words, Some(pair)))?;
        }
        Ok(())
    }

    fn hold_pair(
        &mut self,
        words: &[W],
        pair: &Masks,
        all: u32,
        rng: &mut Rng,
    ) -> Result<(), String> {
        let (never, atom_never) = pair;
        let first = self.list(words, pair).expect("the pass answers");
        let mut again = |masks: &Masks| self.list(words, masks).expect("the pass answers");
        for part in parts(&first, all, rng) {
            let found = again(&(never.clone(), or(atom_never, &part)));
            let left = and(&first, &not(&part));
            if found != left {
                return Err(format!(
                    "missing {first:x?}; with {part:x?} of it cut too {found:x?}, not {left:x?}"
                ));
            }
        }
        let found = again(&(never.clone(), or(atom_never, &first)));
        if found.iter().any(|&word| word != 0) {
            return Err(format!(
                "missing {first:x?}; with all of it cut too {found:x?}"
            ));
        }
        let more = (
            or(never, &some(never, rng)),
            or(atom_never, &some(atom_never, rng)),
        );
        let found = again(&more);
        let stay = and(&first, &not(&more.1));
        if and(&stay, &found) != stay {
            return Err(format!(
                "missing {first:x?}; with more cuts, {more:x?}, {found:x?}, without some of {stay:x?}"
            ));
        }
        self.held.parts += parts_of(&first, all);
        self.held.whole += 1;
        self.held.more += 1;
        self.held.grown += u64::from(found != stay);
        Ok(())
    }
}

/// How many parts of a list are tried.
fn parts_of(list: &[u64], all: u32) -> u64 {
    match size(list) {
        size if size <= all => 1 << size,
        _ => 3,
    }
}

/// Every part of a small list, the empty one and the whole too; of a larger one
/// three by chance.
fn parts(list: &[u64], all: u32, rng: &mut Rng) -> Vec<Vec<u64>> {
    if size(list) > all {
        return (0..3).map(|_| and(list, &some(list, rng))).collect();
    }
    let members: Vec<usize> = (0..64 * list.len())
        .filter(|&a| paper::is_cut(list, a))
        .collect();
    let part = |chosen: u64| {
        let mut part = vec![0; list.len()];
        for (i, &a) in members.iter().enumerate() {
            part[a / 64] |= (chosen >> i & 1) << (a % 64);
        }
        part
    };
    (0..1 << members.len()).map(part).collect()
}

fn size(list: &[u64]) -> u32 {
    list.iter().map(|word| word.count_ones()).sum()
}

/// Random words, as many; one bit in two or in eight.
fn some(like: &[u64], rng: &mut Rng) -> Vec<u64> {
    let few = rng.chance(1, 2);
    like.iter()
        .map(|_| match few {
            true => rng.word() & rng.word() & rng.word(),
            false => rng.word(),
        })
        .collect()
}

fn or(a: &[u64], b: &[u64]) -> Vec<u64> {
    a.iter().zip(b).map(|(a, b)| a | b).collect()
}

fn and(a: &[u64], b: &[u64]) -> Vec<u64> {
    a.iter().zip(b).map(|(a, b)| a & b).collect()
}

fn not(a: &[u64]) -> Vec<u64> {
    a.iter().copied().map(Not::not).collect()
}
