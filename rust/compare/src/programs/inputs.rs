//! What a program is fed with.

use std::fmt;

use crate::agree::Masks;
use crate::calls::{Word, widened};
use crate::content::{ATOM, Draft};
use crate::edges::Edge;
use crate::random::{self, SCALES, WIDE_SCALES};
use crate::record::input;
use crate::rng::Rng;
use crate::runs::numbered;
use crate::{cases, damage, edges};

/// The longest input that is not refused, 26,890 bytes, and one byte more: what
/// stands after these changes nothing.
pub const MOST: usize = 2 * (5 + 3 * 1_024 + 2 * 1_024 + 2 * 4_096) + 8 * (16 + 16) + 1;

/// The most pieces that an input comes in.
const PIECES: usize = 24;

/// Standard input.
#[derive(Clone, Debug, PartialEq, Eq)]
pub struct Input {
    pub name: String,
    pub bytes: Vec<u8>,
    /// How long its pieces are, in turn; none if it comes at once.
    pub sizes: Vec<usize>,
}

impl Input {
    fn new(name: &str, bytes: Vec<u8>) -> Self {
        Self {
            name: name.into(),
            bytes,
            sizes: vec![],
        }
    }

    fn slow(name: &str, bytes: &[u8], sizes: &[usize]) -> Self {
        Self {
            name: name.into(),
            bytes: bytes.to_vec(),
            sizes: sizes.to_vec(),
        }
    }

    /// The bytes as they come: of the sizes in turn, and the last whatever is left.
    pub fn pieces(&self) -> Vec<&[u8]> {
        let mut pieces = vec![];
        let mut rest = &self.bytes[..];
        for &size in self.sizes.iter().cycle().take(PIECES - 1) {
            if size >= rest.len() {
                break;
            }
            let (piece, after) = rest.split_at(size);
            pieces.push(piece);
            rest = after;
        }
        pieces.push(rest);
        pieces
    }

    pub fn is_slow(&self) -> bool {
        self.pieces().len() > 1
    }
}

impl fmt::Display for Input {
    /// The name, the length, and how it begins and ends.
    fn fmt(&self, f: &mut fmt::Formatter<'_>) -> fmt::Result {
        const SHOWN: usize = 24;
        let Self { name, bytes, sizes } = self;
        write!(f, "{name}: {} bytes", bytes.len())?;
        if self.is_slow() {
            write!(f, ", in pieces of {sizes:?}")?;
        }
        let hex = |part: &[u8]| -> String { part.iter().map(|b| format!(" {b:02x}")).collect() };
        if bytes.len() <= 4 * SHOWN {
            return write!(f, ",{}", hex(bytes));
        }
        let (start, end) = (&bytes[..SHOWN], &bytes[bytes.len() - SHOWN..]);
        write!(f, ",{} …{}", hex(start), hex(end))
    }
}

/// All inputs: some hundred that are always the same, and COUNT random graphs,
/// each with a damaged copy.
pub fn all(seed: u64, count: u64) -> impl Iterator<Item = Input> {
    by_case()
        .chain(cut_and_stray())
        .chain(limits(seed))
        .chain(longest())
        .chain(large())
        .chain((0..count).flat_map(move |i| sample(&mut numbered(seed, i), i)))
        .chain(wide(!seed))
}

/// C1 to C12, at once and slowly, and in the words of edition 2.
fn by_case() -> impl Iterator<Item = Input> {
    cases::all().into_iter().flat_map(|case| {
        let (words, masks) = (case.content.words(), case.masks());
        let bytes = input(&words, &masks);
        let mut inputs = editions_2(case.name, &words, &masks);
        inputs.push(Input::slow(case.name, &bytes, &[1, 7]));
        inputs.insert(0, Input::new(case.name, bytes));
        inputs
    })
}

/// A graph of edition 1 as one of edition 2, in 16-bit words and in 32-bit words,
/// and in 32-bit words that begin with 1.
fn editions_2(name: &str, words: &[u16], masks: &Masks) -> Vec<Input> {
    let mut narrow = words.to_vec();
    narrow[0] = 2;
    let wide = widened(words);
    let mut one = wide.clone();
    one[0] = 1;
    vec![
        Input::new(&format!("{name} as edition 2"), input(&narrow, masks)),
        Input::new(&format!("{name} in 32-bit words"), input(&wide, masks)),
        Input::new(
            &format!("{name} in 32-bit words that begin with 1"),
            input(&one, masks),
        ),
    ]
}

/// Small inputs cut at each byte, and with some bytes too many; one whose masks
/// have two words each, cut and lengthened around its end.
fn cut_and_stray() -> impl Iterator<Item = Input> {
    let small = cases::all().into_iter().flat_map(|case| {
        let (words, masks) = (case.content.words(), case.masks());
        let whole = input(&words, &masks);
        let cut = match case.name {
            "C1" | "C2" | "C12" => 0..whole.len(),
            _ => 0..0,
        };
        let name = format!("{} cut", case.name);
        let mut inputs: Vec<_> = cut
            .map(|length| Input::new(&name, whole[..length].to_vec()))
            .collect();
        inputs.extend([1, 2, 7, 8, 9, 16].map(|stray| lengthened(case.name, &whole, stray)));
        if case.name == "C2" {
            let wide = input(&widened(&words), &masks);
            let cut = |length| Input::new("C2 in 32-bit words, cut", wide[..length].to_vec());
            inputs.extend((0..wide.len()).map(cut));
        }
        inputs
    });
    let two = with_masks(&edges::full(66)[0], |i| i as u64);
    let around = (two.len() - 40..two.len() + 40).map(move |length| {
        let mut bytes = two.clone();
        bytes.resize(length, 0);
        Input::new("a ring of 66 atoms, cut or lengthened", bytes)
    });
    small.chain(around)
}

fn lengthened(name: &str, whole: &[u8], stray: usize) -> Input {
    // Neither zeros nor all the same.
    let more = (0..stray).map(|i| (i * 7 + i / 251) as u8 | 1);
    let bytes = whole.iter().copied().chain(more).collect();
    match stray {
        0 => Input::new(name, bytes),
        _ => Input::new(&format!("{name} and {stray} more"), bytes),
    }
}

/// An accepted graph's words with masks whose words are these.
fn with_masks(words: &[u16], mask: impl Fn(usize) -> u64) -> Vec<u8> {
    let length = |at: usize| paper::mask_len(usize::from(words[at]));
    let (atoms, nodes) = (length(1), length(2));
    let never = (atoms..atoms + nodes).map(&mask).collect();
    input(words, &(never, (0..atoms).map(&mask).collect()))
}

/// A graph with all counts at their limits: a ring of 1,023 atoms, each held up
/// by the one before, with a fact for atom 1. A cut node lets all atoms between
/// it and atom 1 go; the last node is the body for atom 0. The heads are the last
/// links, so that all of the input from there on counts.
fn long_ring() -> Draft<u16> {
    let ring = 1_023;
    let mut draft = Draft::new(1_024);
    draft.nodes = (0..ring).map(|atom| [ATOM, atom, 0]).collect();
    draft.nodes.push([ATOM, ring - 1, 0]);
    draft.links = vec![[u16::MAX, 0]; 3_072];
    for atom in 1..ring {
        let first = draft.chain(&[atom]);
        draft.rules.push([atom, first]);
    }
    for (body, head) in [(1_024, 0), (0, 1)] {
        let first = draft.chain(&[head]);
        draft.rules.push([body, first]);
    }
    draft
}

/// The longest input that is not refused: whole, cut and with bytes too many, at
/// once and slowly.
fn longest() -> impl Iterator<Item = Input> {
    let words = long_ring().words();
    let name = "the longest";
    // The last bit of the last word is the last node's.
    let last = |at| u64::from(at == 31) << 63;
    let whole = with_masks(&words, last);
    let length = whole.len();
    assert_eq!(length + 1, MOST);
    let mut inputs = vec![Input::new(name, whole.clone())];
    for missing in [1, 2, 8, 128, 129, 256, 257] {
        let name = format!("{name} without {missing} bytes");
        inputs.push(Input::new(&name, whole[..length - missing].to_vec()));
    }
    for stray in [1, 2, 8, 100, 65_536 - length, 65_536, 1 << 20] {
        inputs.push(lengthened(name, &whole, stray));
    }
    // A ring without cuts has the longest text.
    let ring = &edges::largest::<u16>()[0];
    inputs.push(Input::new("a large ring", with_masks(ring, |_| 0)));
    let some: [fn(usize) -> u64; 3] = [
        |_| 0,
        |at| u64::from(at < 16) << at,
        |at| u64::from(at == 30),
    ];
    for mask in some {
        inputs.push(Input::new(
            &format!("{name}, with other masks"),
            with_masks(&words, mask),
        ));
    }
    // A read that ends one before the end, at it and after it.
    for stray in [0, 1, 2, 100] {
        let long = lengthened(name, &whole, stray);
        let before_the_end = |&size: &usize| size < long.bytes.len();
        for size in [length - 1, length, MOST]
            .into_iter()
            .filter(before_the_end)
        {
            inputs.push(Input::slow(&long.name, &long.bytes, &[size]));
        }
    }
    let uneven: [&[usize]; 4] = [&[4_096], &[1, 7, 4_096], &[7], &[4_095, 4_097, 1]];
    for sizes in uneven {
        inputs.push(Input::slow(name, &whole, sizes));
    }
    let long = lengthened(name, &whole, 1 << 20);
    inputs.push(Input::slow(&long.name, &long.bytes, &[65_536]));
    inputs.push(Input::slow(&long.name, &long.bytes, &[1, 7, 4_096]));
    inputs.into_iter()
}

/// Accepted graphs at the limits, with loops through all of them.
fn large() -> impl Iterator<Item = Input> {
    let names = ["a ring", "a broken ring", "groups of eight", "a ladder"];
    let graphs = names.into_iter().zip(edges::largest::<u16>());
    graphs.flat_map(|(name, words)| {
        let whole = with_masks(&words, |_| 0);
        let sparse = with_masks(&words, |at| 1 << (7 * at % 64));
        [
            Input::slow(&format!("{name}, large"), &whole, &[1, 7, 4_096]),
            Input::new(&format!("{name}, large, some cut"), sparse),
            lengthened(&format!("{name}, large,"), &whole, 1),
            lengthened(&format!("{name}, large,"), &whole, 65_536),
        ]
    })
}

/// The limits, their masks random where the graph is accepted.
fn limits(seed: u64) -> impl Iterator<Item = Input> {
    let mut rng = Rng::new(seed);
    let edges = edges::all::<u16>().into_iter();
    edges.map(
        move |Edge {
                  name,
                  words,
                  refusal,
              }| {
            let masks = some_masks(&mut rng, &words, refusal.is_none());
            Input::new(&name, input(&words, &masks))
        },
    )
}

/// Random masks if the graph is accepted, else none.
fn some_masks<W: Word>(rng: &mut Rng, words: &[W], accepted: bool) -> Masks {
    if accepted {
        random::masks(rng, words, 2).swap_remove(1)
    } else {
        Masks::default()
    }
}

/// A random graph, each hundredth of the largest size; a damaged copy, a quarter
/// cut short; of some more.
fn sample(rng: &mut Rng, i: u64) -> Vec<Input> {
    let scale = if i % 100 == 99 { 5 } else { (i % 5) as usize };
    let words: Vec<u16> = random::graph(rng, SCALES[scale]);
    let masks = some_masks(rng, &words, true);
    let whole = input(&words, &masks);
    let name = format!("random graph {i}");
    let mut inputs = vec![Input::new(&name, whole.clone())];
    match i % 10 {
        0 => inputs.extend(editions_2(&name, &words, &masks)),
        3 | 9 => {
            let sizes: Vec<usize> = (0..rng.between(1, 5))
                .map(|_| *rng.pick(&[1, 2, 7, 8, 64, 511, 4_096]))
                .collect();
            inputs.push(Input::slow(&name, &whole, &sizes));
        }
        6 => inputs.push(lengthened(&name, &whole, rng.between(1, 20))),
        _ => {}
    }
    let damaged = damage::copy(rng, &words);
    let masks = some_masks(rng, &damaged, paper::check(&damaged).is_ok());
    let mut bytes = input(&damaged, &masks);
    let mut name = format!("{name}, damaged");
    if rng.chance(1, 4) {
        bytes.truncate(rng.below(bytes.len() + 1));
        name += " and cut";
    }
    inputs.push(Input::new(&name, bytes));
    inputs
}

/// Graphs of edition 2 in 32-bit words: the limits, but for the longest, and
/// random graphs up to the largest.
fn wide(seed: u64) -> impl Iterator<Item = Input> {
    let mut rng = Rng::new(seed);
    // Made only when it is their turn.
    let edges = std::iter::once_with(edges::all::<u32>).flatten();
    let short = edges.filter(|edge| edge.words.len() < 300_000);
    let edges = short.map(|edge| {
        let accepted = edge.refusal.is_none();
        (edge.name, edge.words, accepted)
    });
    let graphs = WIDE_SCALES.into_iter().map(move |scale| {
        let words: Vec<u32> = random::graph(&mut rng, scale);
        (format!("up to {} atoms", scale.atoms), words, true)
    });
    let mut rng = Rng::new(seed);
    edges.chain(graphs).map(move |(name, words, accepted)| {
        let masks = some_masks(&mut rng, &words, accepted);
        Input::new(&format!("edition 2, {name}"), input(&words, &masks))
    })
}
