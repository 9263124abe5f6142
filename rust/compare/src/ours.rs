//! The proved calls, through the static archive, with all lent memory watched.
//!
//! Each slice is lent from the middle of a larger buffer. After a call every
//! word of the buffer, lent or around it, is held to what document 01 leaves
//! there.

use std::ops::Range;

use paper::{Graph, Refusal};

use crate::calls::{Calls, Pass, Word};
use crate::rng::Rng;

/// The numbers of refusals are below this.
pub const NUMBERS: usize = 16;

/// How often each call was made, and how often one was turned away, by number.
#[derive(Clone, Copy, Debug, Default, PartialEq, Eq)]
pub struct Made {
    pub check: u64,
    /// Not in edition 1.
    pub work_words: u64,
    pub needed: u64,
    pub prepare: u64,
    pub complete: u64,
    /// Not in edition 2.
    pub unfounded: u64,
    pub within: u64,
    /// In edition 1 alone.
    pub branch: u64,
    pub refused: [u64; NUMBERS],
}

impl Made {
    pub fn add(&mut self, other: &Self) {
        self.check += other.check;
        self.work_words += other.work_words;
        self.needed += other.needed;
        self.prepare += other.prepare;
        self.complete += other.complete;
        self.unfounded += other.unfounded;
        self.within += other.within;
        self.branch += other.branch;
        for (number, count) in other.refused.iter().enumerate() {
            self.refused[number] += count;
        }
    }

    pub fn all(&self) -> u64 {
        let passes = self.complete + self.unfounded + self.within + self.branch;
        self.check + self.work_words + self.needed + self.prepare + passes
    }
}

/// Words on each side of a lent slice; odd, so that no slice is aligned by luck.
pub(crate) const GUARD: usize = 17;

/// A slice in the middle of a buffer, and what the buffer must hold.
pub(crate) struct Lent<T> {
    buffer: Vec<T>,
    image: Vec<T>,
    guard: [T; GUARD],
}

impl<T: Copy + PartialEq> Lent<T> {
    pub(crate) fn new(guard: [T; GUARD]) -> Self {
        let mut lent = Self {
            buffer: vec![],
            image: vec![],
            guard,
        };
        lent.lend([].into_iter());
        lent
    }

    pub(crate) fn lend(&mut self, words: impl Iterator<Item = T>) {
        self.image.clear();
        self.image.extend_from_slice(&self.guard);
        self.image.extend(words);
        self.image.extend_from_slice(&self.guard);
        self.buffer.clone_from(&self.image);
    }

    pub(crate) fn slice(&self) -> Range<usize> {
        GUARD..self.image.len() - GUARD
    }

    pub(crate) fn len(&self) -> usize {
        self.slice().len()
    }

    pub(crate) fn start(&mut self) -> *mut T {
        self.buffer[GUARD..].as_mut_ptr()
    }

    /// What a success must leave in the slice.
    pub(crate) fn written(&mut self, words: &[T]) {
        let slice = self.slice();
        self.image[slice].copy_from_slice(words);
    }

    pub(crate) fn holds(&self) -> bool {
        self.buffer == self.image
    }
}

/// The work area. What it is filled with stays, since it is long, and it is
/// filled anew only after a call that clears it or for another length.
struct Work<W> {
    buffer: Vec<W>,
    guard: [W; GUARD],
    /// The fillings, each as far as it was needed.
    filled: [Vec<W>; 4],
    /// Which of them the buffer holds.
    turn: usize,
    length: usize,
    /// Whether it was unchanged each time the length changed.
    held: bool,
    rng: Rng,
}

impl<W: Word> Work<W> {
    fn new(guard: [W; GUARD], rng: Rng) -> Self {
        let mut work = Self {
            buffer: vec![],
            guard,
            filled: Default::default(),
            turn: 0,
            length: 0,
            held: true,
            rng,
        };
        work.fill();
        work
    }

    fn fill(&mut self) {
        let (filled, rng) = (&mut self.filled[self.turn], &mut self.rng);
        for i in filled.len()..self.length {
            filled.push(match self.turn {
                0 => W::cut(rng.word()),
                1 => W::MAX,
                2 => W::cut(i as u64),
                _ => W::cut(1 + i as u64 % 3),
            });
        }
        self.buffer.clear();
        self.buffer.extend_from_slice(&self.guard);
        self.buffer.extend_from_slice(&filled[..self.length]);
        self.buffer.extend_from_slice(&self.guard);
    }

    fn lend(&mut self, length: usize) -> *mut W {
        if length != self.length {
            self.held = self.unchanged();
            self.length = length;
            self.fill();
        }
        self.buffer[GUARD..].as_mut_ptr()
    }

    /// The slice, if the words around it are as they were.
    fn guarded(&self) -> Option<&[W]> {
        let (before, rest) = self.buffer.split_at(GUARD);
        let (slice, after) = rest.split_at(self.length);
        (before == self.guard && after == self.guard).then_some(slice)
    }

    fn unchanged(&self) -> bool {
        let filled = &self.filled[self.turn][..self.length];
        self.held && self.guarded().is_some_and(|slice| slice == filled)
    }

    /// Whether the slice was cleared; then it is filled anew.
    fn was_cleared(&mut self) -> bool {
        let zeros = [W::from(0); 4_096];
        let held = self.guarded().is_some_and(|slice| {
            slice
                .chunks(zeros.len())
                .all(|part| part == &zeros[..part.len()])
        });
        self.turn = (self.turn + 1) % self.filled.len();
        self.fill();
        held
    }

    /// What a call must leave of it.
    fn left(&mut self, call: &str, refused: Option<&Refusal>) -> Result<(), String> {
        let (due, held) = match refused.map_or(0, |refusal| refusal.number) {
            0 | 12 | 15 => ("all zero", self.was_cleared()),
            // Left to `Ours::unchanged`.
            1..=9 | 14 => return Ok(()),
            _ => ("unchanged", self.unchanged()),
        };
        if held {
            return Ok(());
        }
        Err(format!(
            "our {call}'s work area is not {due}, or what is beside it"
        ))
    }
}

/// The memory lent to the calls, and one graph in it at a time.
pub struct Ours<W: Word> {
    calls: Calls<W>,
    graph: Lent<W>,
    never: Lent<u64>,
    atom_never: Lent<u64>,
    output: Lent<u64>,
    allowance: Lent<u64>,
    work: Work<W>,
    /// Of a search branch, whose work area has a length of its own.
    branch_work: Work<W>,
    pub made: Made,
}

/// Lengths lent to a call.
#[derive(Clone, Copy, Debug)]
pub struct Lengths {
    pub output: usize,
    pub work: usize,
}

impl Lengths {
    /// Those that fit a graph.
    pub fn right<W: Word>(graph: &Graph) -> Self {
        Self {
            output: paper::mask_len(graph.atoms),
            work: W::EDITION.work_words(graph),
        }
    }
}

impl<W: Word> Ours<W> {
    pub fn new(calls: Calls<W>) -> Self {
        let mut rng = Rng::new(1);
        let words = [(); GUARD].map(|()| W::cut(rng.word()));
        let masks = [(); GUARD].map(|()| rng.word());
        Self {
            calls,
            graph: Lent::new(words),
            never: Lent::new(masks),
            atom_never: Lent::new(masks),
            output: Lent::new(masks),
            allowance: Lent::new(masks),
            branch_work: Work::new(words, Rng::new(rng.word())),
            work: Work::new(words, rng),
            made: Made::default(),
        }
    }

    /// The graph of the calls that follow.
    pub fn graph(&mut self, words: &[W]) {
        self.graph.lend(words.iter().copied());
    }

    /// # Errors
    /// What differs from the expected answer or from the memory it leaves.
    pub fn check(&mut self, expected: Result<(), &Refusal>) -> Result<(), String> {
        self.made.check += 1;
        let (graph, graph_len) = (self.graph.start(), self.graph.len());
        // Safety: the slice lies within its buffer.
        let found = unsafe { (self.calls.check)(graph, graph_len) };
        self.answered("check", found, expected.map(|()| 0))?;
        self.read_only("check")
    }

    /// The length that the work area must have, 0 of a graph that is refused.
    ///
    /// # Errors
    /// As [`Self::check`].
    pub fn work_words(&mut self, expected: usize) -> Result<(), String> {
        let Some(work_words) = self.calls.work_words else {
            return Ok(());
        };
        self.made.work_words += 1;
        let (graph, graph_len) = (self.graph.start(), self.graph.len());
        // Safety: the slice lies within its buffer.
        let found = unsafe { work_words(graph, graph_len) };
        if found != expected as u64 {
            return Err(format!("our work_words: {found}, document {expected}"));
        }
        self.read_only("work_words")
    }

    /// # Errors
    /// As [`Self::check`].
    pub fn needed(&mut self, work: usize, expected: Result<bool, &Refusal>) -> Result<(), String> {
        self.made.needed += 1;
        let (graph, graph_len) = (self.graph.start(), self.graph.len());
        let area = self.work.lend(work);
        // Safety: each slice lies within a buffer of its own.
        let found = unsafe { (self.calls.needed)(graph, graph_len, area, work) };
        self.answered("needed", found, expected.map(u32::from))?;
        self.read_only("needed")?;
        self.work.left("needed", expected.err())
    }

    /// # Errors
    /// As [`Self::check`].
    pub fn prepare(
        &mut self,
        lengths: Lengths,
        expected: Result<&[u64], &Refusal>,
    ) -> Result<(), String> {
        self.made.prepare += 1;
        self.lend_output(lengths.output);
        let (graph, graph_len) = (self.graph.start(), self.graph.len());
        let (output, area) = (self.output.start(), self.work.lend(lengths.work));
        // Safety: each slice lies within a buffer of its own.
        let found = unsafe {
            (self.calls.prepare)(graph, graph_len, output, lengths.output, area, lengths.work)
        };
        self.answered("prepare", found, expected.map(|_| 0))?;
        self.read_only("prepare")?;
        self.output_left("prepare", expected)?;
        self.work.left("prepare", expected.err())
    }

    /// # Errors
    /// As [`Self::check`].
    pub fn complete(
        &mut self,
        never: &[u64],
        atom_never: &[u64],
        lengths: Lengths,
        expected: Result<&[u64], &Refusal>,
    ) -> Result<(), String> {
        self.made.complete += 1;
        let masks = (never, atom_never);
        self.pass("complete", self.calls.complete, masks, lengths, expected)
    }

    /// # Errors
    /// As [`Self::check`].
    pub fn unfounded(
        &mut self,
        never: &[u64],
        atom_never: &[u64],
        lengths: Lengths,
        expected: Result<&[u64], &Refusal>,
    ) -> Result<(), String> {
        let Some(unfounded) = self.calls.unfounded else {
            return Ok(());
        };
        self.made.unfounded += 1;
        let masks = (never, atom_never);
        self.pass("unfounded", unfounded, masks, lengths, expected)
    }

    fn pass(
        &mut self,
        name: &str,
        call: Pass<W>,
        (never, atom_never): (&[u64], &[u64]),
        lengths: Lengths,
        expected: Result<&[u64], &Refusal>,
    ) -> Result<(), String> {
        self.never.lend(never.iter().copied());
        self.atom_never.lend(atom_never.iter().copied());
        self.lend_output(lengths.output);
        let (graph, graph_len) = (self.graph.start(), self.graph.len());
        let (output, area) = (self.output.start(), self.work.lend(lengths.work));
        // Safety: each slice lies within a buffer of its own.
        let found = unsafe {
            call(
                graph,
                graph_len,
                self.never.start(),
                never.len(),
                self.atom_never.start(),
                atom_never.len(),
                output,
                lengths.output,
                area,
                lengths.work,
            )
        };
        self.answered(name, found, expected.map(|_| 0))?;
        self.read_only(name)?;
        self.output_left(name, expected)?;
        self.work.left(name, expected.err())
    }

    /// Nothing in an edition that has no such call.
    ///
    /// # Errors
    /// As [`Self::check`].
    pub fn branch(
        &mut self,
        pairs: usize,
        (never, atom_never): (&[u64], &[u64]),
        lengths: Lengths,
        expected: Result<&[u64], &Refusal>,
    ) -> Result<(), String> {
        let Some(branch) = self.calls.branch else {
            return Ok(());
        };
        self.made.branch += 1;
        self.never.lend(never.iter().copied());
        self.atom_never.lend(atom_never.iter().copied());
        self.lend_output(lengths.output);
        let (graph, graph_len) = (self.graph.start(), self.graph.len());
        let output = self.output.start();
        let area = self.branch_work.lend(lengths.work);
        // Safety: each slice lies within a buffer of its own.
        let found = unsafe {
            branch(
                graph,
                graph_len,
                pairs,
                self.never.start(),
                never.len(),
                self.atom_never.start(),
                atom_never.len(),
                output,
                lengths.output,
                area,
                lengths.work,
            )
        };
        self.answered("branch", found, expected.map(|_| 0))?;
        self.read_only("branch")?;
        self.output_left("branch", expected)?;
        self.branch_work.left("branch", expected.err())
    }

    /// With an allowance, and what must be left of it. Nothing in an edition that has
    /// no such call.
    ///
    /// # Errors
    /// As [`Self::check`].
    pub fn within(
        &mut self,
        (never, atom_never): (&[u64], &[u64]),
        lengths: Lengths,
        (allowance, left): (u64, u64),
        expected: Result<&[u64], &Refusal>,
    ) -> Result<(), String> {
        let Some(within) = self.calls.within else {
            return Ok(());
        };
        self.made.within += 1;
        self.never.lend(never.iter().copied());
        self.atom_never.lend(atom_never.iter().copied());
        self.lend_output(lengths.output);
        self.allowance.lend([allowance].into_iter());
        let (graph, graph_len) = (self.graph.start(), self.graph.len());
        let (output, area) = (self.output.start(), self.work.lend(lengths.work));
        // Safety: each slice lies within a buffer of its own.
        let found = unsafe {
            within(
                graph,
                graph_len,
                self.never.start(),
                never.len(),
                self.atom_never.start(),
                atom_never.len(),
                output,
                lengths.output,
                area,
                lengths.work,
                self.allowance.start(),
            )
        };
        self.answered("complete_within", found, expected.map(|_| 0))?;
        self.read_only("complete_within")?;
        self.output_left("complete_within", expected)?;
        self.allowance.written(&[left]);
        if !self.allowance.holds() {
            let found = &self.allowance.buffer[self.allowance.slice()];
            return Err(format!(
                "our complete_within's allowance of {allowance} or what is beside it: {found:?}, document {left}"
            ));
        }
        self.work.left("complete_within", expected.err())
    }

    /// The output, filled with wild words that differ from call to call.
    fn lend_output(&mut self, length: usize) {
        let mut rng = Rng::new(self.made.all());
        self.output.lend((0..length).map(|_| rng.word()));
    }

    /// Number and place.
    fn answered(
        &mut self,
        call: &str,
        found: W::Code,
        expected: Result<u32, &Refusal>,
    ) -> Result<(), String> {
        let found = W::parts(found);
        let right = match expected {
            Ok(answer) => found == (0, answer),
            Err(refusal) => {
                self.made.refused[usize::from(refusal.number)] += 1;
                found == (u32::from(refusal.number), refusal.place)
            }
        };
        if right {
            return Ok(());
        }
        Err(format!("our {call}: {found:?}, document {expected:?}"))
    }

    fn read_only(&self, call: &str) -> Result<(), String> {
        let read = [
            ("graph", self.graph.holds()),
            ("node mask", self.never.holds()),
            ("atom mask", self.atom_never.holds()),
        ];
        match read.iter().find(|(_, held)| !held) {
            None => Ok(()),
            Some((name, _)) => Err(format!("our {call} wrote to the {name} or beside it")),
        }
    }

    fn output_left(
        &mut self,
        call: &str,
        expected: Result<&[u64], &Refusal>,
    ) -> Result<(), String> {
        if let Ok(words) = expected {
            self.output.written(words);
        }
        if self.output.holds() {
            return Ok(());
        }
        let found = &self.output.buffer[self.output.slice()];
        Err(format!(
            "our {call}'s output or what is beside it: {found:x?}, document {expected:x?}"
        ))
    }

    /// The work area after calls on a graph that is refused: looked at once for
    /// all of the same length, since none may write to it and no write can be
    /// undone; those of other lengths were looked at when the length changed.
    ///
    /// # Errors
    /// If one of them wrote to it.
    pub fn unchanged(&self) -> Result<(), String> {
        if self.work.unchanged() && self.branch_work.unchanged() {
            return Ok(());
        }
        Err("our work area is not unchanged after the graph's refusal, or what is beside it".into())
    }
}
