//! One call on each side, with all that it needs inside.

use founded::raw;
use oracle::{Lists, Oracle};

use crate::plain;
use crate::word::Word;

/// The calls measured.
#[derive(Clone, Copy, Debug, PartialEq, Eq)]
pub enum Call {
    Check,
    LoopTest,
    Preparation,
    Pass,
    /// The pass with every atom marked, which the original does not have.
    Unfounded,
}

impl Call {
    /// Those that both sides have.
    pub const ALL: [Self; 4] = [Self::Check, Self::LoopTest, Self::Preparation, Self::Pass];

    pub fn name(self) -> &'static str {
        match self {
            Self::Check => "check",
            Self::LoopTest => "loop test",
            Self::Preparation => "preparation",
            Self::Pass => "pass",
            Self::Unfounded => "unfounded",
        }
    }
}

/// An answer of either side, so that the two can be compared.
#[derive(Clone, Debug, PartialEq, Eq)]
pub enum Answer {
    Accepted,
    Loops(bool),
    Atoms(Vec<u64>),
}

/// The proved calls of an edition, with their memory used again and again.
pub struct Ours<W> {
    clear: Vec<u64>,
    output: Vec<u64>,
    work: Vec<W>,
}

impl<W: Word> Ours<W> {
    /// For all graphs that have as many atoms, nodes and entries as this one.
    pub fn new(graph: &[W]) -> Self {
        let words = graph[1].number().div_ceil(64);
        Self {
            clear: vec![0; words],
            output: vec![0; words],
            work: vec![W::default(); W::work_words(graph)],
        }
    }

    /// Graph check, rows, the call itself and the clearing of the work area.
    pub fn run(&mut self, call: Call, graph: &[W]) -> W::Code {
        let (words, length) = (graph.as_ptr(), graph.len());
        let (output, output_len) = (self.output.as_mut_ptr(), self.output.len());
        let (work, work_len) = (self.work.as_mut_ptr(), self.work.len());
        let (clear, clear_len) = (self.clear.as_ptr(), self.clear.len());
        // Safety: every pointer and length is that of a slice, and no two that
        // are written overlap.
        unsafe {
            match call {
                Call::Check => W::CHECK(words, length),
                Call::LoopTest => W::NEEDED(words, length, work, work_len),
                Call::Preparation => W::PREPARE(words, length, output, output_len, work, work_len),
                Call::Pass | Call::Unfounded => {
                    let pass = match call {
                        Call::Pass => W::COMPLETE,
                        _ => W::UNFOUNDED.expect("a call of edition 1"),
                    };
                    pass(
                        words, length, clear, clear_len, clear, clear_len, output, output_len,
                        work, work_len,
                    )
                }
            }
        }
    }

    /// # Panics
    /// On a refusal.
    pub fn answer(&mut self, call: Call, graph: &[W]) -> Answer {
        let code: u64 = self.run(call, graph).into();
        match call {
            Call::LoopTest if code <= 1 => Answer::Loops(code == 1),
            _ if code != 0 => panic!("refused: {code:#x}"),
            Call::LoopTest | Call::Check => Answer::Accepted,
            Call::Preparation | Call::Pass | Call::Unfounded => Answer::Atoms(self.output.clone()),
        }
    }
}

impl Ours<u16> {
    /// The pass within an allowance, which falls by the count.
    pub fn within(&mut self, graph: &[u16], allowance: &mut u64) -> u32 {
        let (output, work) = (&mut self.output, &mut self.work);
        // Safety: every pointer and length is that of a slice, and no two that
        // are written overlap.
        unsafe {
            raw::founded_complete_within(
                graph.as_ptr(),
                graph.len(),
                self.clear.as_ptr(),
                self.clear.len(),
                self.clear.as_ptr(),
                self.clear.len(),
                output.as_mut_ptr(),
                output.len(),
                work.as_mut_ptr(),
                work.len(),
                allowance,
            )
        }
    }
}

/// What of the original is made before a measured call.
#[derive(Clone, Copy, Debug, PartialEq, Eq)]
pub enum Before {
    /// Nothing: the words are decoded within the call, and all is freed.
    Words,
    /// The theory and the list of its producers. `index` and `producers` are
    /// within the call, and so is the freeing of what they make.
    Theory,
    /// The lists of leaves and heads too. The four row tables are within the call.
    Lists,
}

impl Before {
    pub const ALL: [Self; 3] = [Self::Words, Self::Theory, Self::Lists];
}

/// The original on one graph.
pub struct Theirs {
    lists: Lists,
    oracle: Oracle,
    clear: Vec<u64>,
}

impl Theirs {
    pub fn new<W: Word>(graph: &[W]) -> Self {
        let atoms = graph[1].number();
        Self {
            lists: Lists::new(graph),
            oracle: Oracle::new(graph).expect("rows"),
            clear: vec![0; atoms.div_ceil(64)],
        }
    }

    /// Rows, a fresh scratch and the call itself, with no graph check; but the
    /// check alone is the plain one. `timed` is given all that is to be timed.
    pub fn run<W: Word, T>(
        &mut self,
        call: Call,
        graph: &[W],
        before: Before,
        timed: impl FnOnce(&mut dyn FnMut() -> Answer) -> T,
    ) -> T {
        if call == Call::Check {
            return timed(&mut || {
                plain::check(graph).expect("accepted");
                Answer::Accepted
            });
        }
        let clear = &self.clear;
        if before == Before::Lists {
            let oracle = &mut self.oracle;
            return timed(&mut || {
                oracle.rebuild_rows().expect("rows");
                answer(oracle, call, clear)
            });
        }
        if before == Before::Words {
            return timed(&mut || {
                let oracle = Oracle::new(graph).expect("rows");
                answer(&oracle, call, clear)
            });
        }
        let mut lists = Some(self.lists.clone());
        timed(&mut || {
            let lists = lists.take().expect("timed once");
            let oracle = Oracle::build(lists).expect("rows");
            answer(&oracle, call, clear)
        })
    }
}

fn answer(oracle: &Oracle, call: Call, clear: &[u64]) -> Answer {
    let atoms = match call {
        Call::Check | Call::LoopTest => return Answer::Loops(oracle.needed().expect("an answer")),
        Call::Preparation => oracle.cyclic_atoms(),
        Call::Pass => oracle.missing(clear, clear),
        Call::Unfounded => unreachable!("the original has no such call"),
    };
    Answer::Atoms(atoms.expect("an answer"))
}
