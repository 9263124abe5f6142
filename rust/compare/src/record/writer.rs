//! The bytes of the recorded list. Every answer of an accepted graph is the
//! original's, and must equal document 01's.

use oracle::{Ended, Oracle};
use paper::Refusal;

use crate::agree::filled;
use crate::ours::NUMBERS;

/// A call on a graph, with the lengths of what it is lent.
#[derive(Clone, Debug)]
pub enum Call {
    Check,
    Needed {
        work: usize,
    },
    Prepare {
        output: usize,
        work: usize,
    },
    Complete {
        never: Vec<u64>,
        atom_never: Vec<u64>,
        output: usize,
        work: usize,
    },
}

/// The records so far, and how many calls and runs of each kind.
#[derive(Clone, Debug, Default)]
pub struct Recording {
    records: u16,
    body: Vec<u8>,
    /// Graphs, program runs.
    pub kinds: [usize; 2],
    /// Check, needed, prepare, complete.
    pub calls: [usize; 4],
    /// Calls by number, 0 for those not turned away.
    pub numbers: [usize; NUMBERS],
}

const MAGIC: [u8; 2] = *b"FS";
const VERSION: u16 = 1;

impl Recording {
    /// The file: header, then the records.
    pub fn bytes(&self) -> Vec<u8> {
        let mut bytes = MAGIC.to_vec();
        bytes.extend(VERSION.to_le_bytes());
        bytes.extend(self.records.to_le_bytes());
        bytes.extend(&self.body);
        bytes
    }

    pub fn records(&self) -> u16 {
        self.records
    }

    fn word(&mut self, word: usize) {
        let word = u16::try_from(word).expect("a recorded number is a word");
        self.body.extend(word.to_le_bytes());
    }

    fn wide(&mut self, words: &[u64]) {
        words
            .iter()
            .for_each(|word| self.body.extend(word.to_le_bytes()));
    }

    fn padded(&mut self, bytes: &[u8]) {
        self.body.extend(bytes);
        self.body.extend(std::iter::repeat_n(0, bytes.len() % 2));
    }

    /// One graph with calls on it.
    pub fn graph(&mut self, words: &[u16], calls: &[Call]) {
        self.records += 1;
        self.kinds[0] += 1;
        self.word(1);
        self.word(words.len());
        words
            .iter()
            .for_each(|word| self.body.extend(word.to_le_bytes()));
        self.word(calls.len());
        for call in calls {
            self.call(words, call);
        }
    }

    fn call(&mut self, words: &[u16], call: &Call) {
        match call {
            Call::Check => {
                self.begin(1);
                self.place(&paper::check(words));
            }
            Call::Needed { work } => {
                self.begin(2);
                self.word(*work);
                let answer =
                    paper::needed(words, *work).map(|yes| agreed(yes, original(words).needed()));
                self.place(&answer);
                self.word(usize::from(answer == Ok(true)));
            }
            Call::Prepare { output, work } => {
                self.begin(3);
                self.word(*output);
                self.word(*work);
                let marked = paper::prepare(words, *output, *work);
                self.list(&settled(marked, || original(words).cyclic_atoms()));
            }
            Call::Complete {
                never,
                atom_never,
                output,
                work,
            } => self.complete(words, [never, atom_never], *output, *work),
        }
    }

    fn complete(&mut self, words: &[u16], masks: [&[u64]; 2], output: usize, work: usize) {
        self.begin(4);
        for mask in masks {
            self.word(mask.len());
            self.wide(mask);
        }
        self.word(output);
        self.word(work);
        let missing = paper::complete(words, masks[0], masks[1], output, work);
        self.list(&settled(missing, || {
            let [nodes, atoms] = [2, 1].map(|at| usize::from(words[at]));
            original(words).missing(&filled(masks[0], nodes), &filled(masks[1], atoms))
        }));
    }

    fn begin(&mut self, call: usize) {
        self.calls[call - 1] += 1;
        self.word(call);
    }

    fn number<T>(&mut self, answer: &Result<T, Refusal>) {
        let number = answer
            .as_ref()
            .err()
            .map_or(0, |refusal| usize::from(refusal.number));
        self.numbers[number] += 1;
        self.word(number);
    }

    /// Number and place, both 0 if not turned away.
    fn place<T>(&mut self, answer: &Result<T, Refusal>) {
        self.number(answer);
        self.word(
            answer
                .as_ref()
                .err()
                .map_or(0, |refusal| refusal.place as usize),
        );
    }

    /// Number and place, and the output if not turned away.
    fn list(&mut self, answer: &Result<Vec<u64>, Refusal>) {
        self.place(answer);
        if let Ok(output) = answer {
            self.wide(output);
        }
    }

    /// One run of the program.
    pub fn run(&mut self, input: &[u8]) {
        self.records += 1;
        self.kinds[1] += 1;
        self.word(2);
        self.word(input.len() % 65_536);
        self.word(input.len() / 65_536);
        self.padded(input);
        let report = paper::program::run(input);
        self.place(&report);
        let text = paper::program::text(&report);
        self.word(text.len());
        self.padded(&text);
    }
}

fn original(words: &[u16]) -> Oracle {
    Oracle::new(words).expect("rows of an accepted graph")
}

/// The original's answer, which must be document 01's.
fn agreed<T: PartialEq + std::fmt::Debug>(paper: T, original: Result<T, Ended>) -> T {
    let original = original.expect("an answer");
    assert_eq!(original, paper, "original and document differ");
    original
}

/// As [`agreed`]; 12 stands where the original ends in `InvalidProgram`.
fn settled(
    paper: Result<Vec<u64>, Refusal>,
    original: impl FnOnce() -> Result<Vec<u64>, Ended>,
) -> Result<Vec<u64>, Refusal> {
    match paper {
        Ok(words) => Ok(agreed(words, original())),
        Err(refusal) if refusal.number == 12 => {
            assert_eq!(original(), Err(Ended::InvalidProgram));
            Err(refusal)
        }
        Err(refusal) => Err(refusal),
    }
}
