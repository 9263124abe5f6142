//! The recorded list: made again byte for byte, and read back by its format.

use compare::record;
use paper::Refusal;

fn file() -> Vec<u8> {
    let path = concat!(env!("CARGO_MANIFEST_DIR"), "/../../crates/replay/stdin");
    std::fs::read(path).expect("the recorded list")
}

#[test]
fn made_again_byte_for_byte() {
    assert!(
        record::make().bytes() == file(),
        "the recorded list differs"
    );
}

#[test]
fn read_back_to_its_end() {
    let bytes = file();
    let mut reader = Reader(&bytes);
    assert_eq!(reader.bytes(2), b"FS");
    assert_eq!(reader.word(), 1);
    let mut calls = 0;
    for _ in 0..reader.word() {
        match reader.word() {
            1 => calls += graph(&mut reader),
            2 => run(&mut reader),
            kind => panic!("record of kind {kind}"),
        }
    }
    assert!(reader.0.is_empty());
    assert_eq!(calls, record::make().calls.iter().sum::<usize>());
}

struct Reader<'a>(&'a [u8]);

impl<'a> Reader<'a> {
    fn bytes(&mut self, count: usize) -> &'a [u8] {
        let (taken, rest) = self.0.split_at(count);
        self.0 = rest;
        taken
    }

    fn padded(&mut self, count: usize) -> &'a [u8] {
        &self.bytes(count + count % 2)[..count]
    }

    fn word(&mut self) -> usize {
        let pair = self.bytes(2);
        usize::from(pair[0]) + 256 * usize::from(pair[1])
    }

    fn words(&mut self, count: usize) -> Vec<u16> {
        (0..count).map(|_| self.word() as u16).collect()
    }

    fn wide(&mut self, count: usize) -> Vec<u64> {
        let word = |quarters: &[u16]| {
            quarters
                .iter()
                .rev()
                .fold(0, |low, &q| low << 16 | u64::from(q))
        };
        (0..count).map(|_| word(&self.words(4))).collect()
    }

    fn mask(&mut self) -> Vec<u64> {
        let length = self.word();
        self.wide(length)
    }

    fn list(&mut self) -> Vec<u16> {
        let length = self.word();
        self.words(length)
    }

    /// A recorded answer and, if not turned away, its output.
    fn answer(&mut self, output: usize) -> Result<Vec<u64>, Refusal> {
        let (number, place) = (self.word() as u16, self.word() as u32);
        match number {
            0 => Ok(self.wide(output)),
            _ => Err(Refusal { number, place }),
        }
    }
}

fn number_and_place<T>(answer: &Result<T, Refusal>) -> [usize; 2] {
    answer
        .as_ref()
        .err()
        .map_or([0, 0], |r| [r.number.into(), r.place as usize])
}

/// A graph's calls, answered anew; how many.
fn graph(reader: &mut Reader<'_>) -> usize {
    let words = reader.list();
    let calls = reader.word();
    for _ in 0..calls {
        match reader.word() {
            1 => assert_eq!(
                number_and_place(&paper::check(&words)),
                [reader.word(), reader.word()]
            ),
            2 => {
                let answer = paper::needed(&words, reader.word());
                assert_eq!(number_and_place(&answer), [reader.word(), reader.word()]);
                assert_eq!(usize::from(answer == Ok(true)), reader.word());
            }
            3 => {
                let (output, work) = (reader.word(), reader.word());
                assert_eq!(paper::prepare(&words, output, work), reader.answer(output));
            }
            4 => {
                let (never, atom_never) = (reader.mask(), reader.mask());
                let (output, work) = (reader.word(), reader.word());
                let answer = paper::complete(&words, &never, &atom_never, output, work);
                assert_eq!(answer, reader.answer(output));
            }
            call => panic!("call {call}"),
        }
    }
    calls
}

fn run(reader: &mut Reader<'_>) {
    let length = reader.word() + 65_536 * reader.word();
    let report = paper::program::run(reader.padded(length));
    assert_eq!(number_and_place(&report), [reader.word(), reader.word()]);
    let length = reader.word();
    assert_eq!(paper::program::text(&report), reader.padded(length));
}
