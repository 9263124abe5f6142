//! Which program runs are recorded.

use super::writer::Recording;
use crate::agree::Masks;
use crate::calls::Word;
use crate::content::{ATOM, Content, node, rule};
use crate::random::{self, SCALES};
use crate::rng::Rng;
use crate::{cases, damage, edges};

/// Standard input: graph, atom mask, node mask.
pub fn input<W: Word>(words: &[W], (never, atom_never): &Masks) -> Vec<u8> {
    let mut bytes: Vec<u8> = words.iter().flat_map(|word| word.bytes()).collect();
    bytes.extend(
        atom_never
            .iter()
            .chain(never)
            .flat_map(|word| word.to_le_bytes()),
    );
    bytes
}

pub(super) fn write(recording: &mut Recording) {
    for case in cases::all() {
        recording.run(&input(&case.content.words(), &case.masks()));
    }
    for edge in edges::all() {
        if edge.words.len() < 4_000 || edge.name.starts_with("7 after") {
            recording.run(&with_clear_masks(&edge.words));
        }
    }
    cut_and_stray(recording);
    samples(recording, &mut Rng::new(!super::SEED));
}

/// The words with masks of the lengths that its header asks for.
fn with_clear_masks(words: &[u16]) -> Vec<u8> {
    let length =
        |at: usize| paper::mask_len(usize::from(words.get(at).copied().unwrap_or(0)).min(1_024));
    input(words, &(vec![0; length(2)], vec![0; length(1)]))
}

/// A ring of that many atoms, each held up by the one before.
fn ring(atoms: u16) -> Content {
    Content {
        atoms,
        nodes: (0..atoms).map(|atom| node(ATOM, atom, &[])).collect(),
        rules: (0..atoms)
            .map(|p| rule(p + 1, &[(p + 1) % atoms]))
            .collect(),
    }
}

/// Input that ends early at each byte, and input with bytes to spare.
fn cut_and_stray(recording: &mut Recording) {
    let whole = with_clear_masks(&ring(2).words());
    for length in 0..whole.len() {
        recording.run(&whole[..length]);
    }
    for content in [Content::default(), ring(1), ring(65)] {
        let whole = with_clear_masks(&content.words());
        for missing in [1, 2, 7, 8, 9, 16].into_iter().filter(|&n| n < whole.len()) {
            recording.run(&whole[..whole.len() - missing]);
        }
        for stray in [1, 2, 7, 8, 9, 16] {
            recording.run(&[&whole[..], &vec![0; stray]].concat());
        }
    }
    let long = [with_clear_masks(&ring(2).words()), vec![0xff; 70_000]].concat();
    recording.run(&long);
    let wild: Masks = (vec![!3], vec![!3]);
    recording.run(&input(&ring(2).words(), &wild));
    // 12 with its masks, and without: then 10.
    let absorbed = cases::all()
        .into_iter()
        .find(|case| case.name == "C12")
        .expect("C12");
    let words = absorbed.content.words();
    for masks in [
        (vec![0], vec![0]),
        (vec![1], vec![1]),
        (vec![], vec![0]),
        (vec![0, 0], vec![0]),
    ] {
        recording.run(&input(&words, &masks));
    }
}

fn samples(recording: &mut Recording, rng: &mut Rng) {
    for (scale, graphs) in [(0, 60), (1, 80), (2, 60), (3, 15), (4, 3), (5, 2)] {
        for _ in 0..graphs {
            let words: Vec<u16> = random::graph(rng, SCALES[scale]);
            let masks = random::masks(rng, &words, 2).swap_remove(1);
            recording.run(&input(&words, &masks));
        }
    }
    for i in 0..120 {
        let words: Vec<u16> = random::graph(rng, SCALES[i % 3]);
        let whole = with_clear_masks(&damage::copy(rng, &words));
        let length = if rng.chance(1, 3) {
            rng.between(0, whole.len())
        } else {
            whole.len()
        };
        recording.run(&whole[..length]);
    }
}
