//! Which graphs and calls are recorded.

use super::writer::{Call, Recording};
use crate::agree::Masks;
use crate::content::{ABSORBED, AND, ATOM, Content, IMPLIES, OR, node, rule};
use crate::random::{self, SCALES};
use crate::rng::Rng;
use crate::{cases, damage, edges};

const WORK: usize = paper::WORK_WORDS;
const WORK_LENGTHS: [usize; 6] = [0, 1, 32_767, 32_768, 32_769, 65_535];

pub(super) fn write(recording: &mut Recording) {
    for case in cases::all() {
        let words = case.content.words();
        recording.graph(&words, &usual(&words, &[case.masks()]));
    }
    let mut rng = Rng::new(super::SEED);
    for edge in edges::all::<u16>() {
        let pairs = if paper::check(&edge.words).is_ok() {
            2
        } else {
            1
        };
        let masks = lent(&mut rng, &edge.words, pairs);
        recording.graph(&edge.words, &usual(&edge.words, &masks));
    }
    lengths(recording);
    absorbed(recording, &mut rng);
    for words in edges::largest() {
        let masks = random::masks(&mut rng, &words, 4);
        recording.graph(&words, &usual(&words, &masks));
    }
    renumbered(recording, &mut rng);
    samples(recording, &mut rng);
}

/// The header's count, or 0 where there is none; at most 1,024.
fn count(words: &[u16], at: usize) -> usize {
    usize::from(words.get(at).copied().unwrap_or(0)).min(1_024)
}

/// Masks of the lengths that the header asks for, also for a damaged graph.
fn lent(rng: &mut Rng, words: &[u16], pairs: usize) -> Vec<Masks> {
    let header = [0, count(words, 1) as u16, count(words, 2) as u16];
    random::masks(rng, &header, pairs)
}

/// Each call once, the pass for each pair of masks, all lengths as they should be.
fn usual(words: &[u16], masks: &[Masks]) -> Vec<Call> {
    let output = paper::mask_len(count(words, 1));
    let mut calls = vec![
        Call::Check,
        Call::Needed { work: WORK },
        Call::Prepare { output, work: WORK },
    ];
    calls.extend(masks.iter().map(|(never, atom_never)| Call::Complete {
        never: never.clone(),
        atom_never: atom_never.clone(),
        output,
        work: WORK,
    }));
    calls
}

/// Each call with each of its lengths one off, and every work length.
fn around(words: &[u16]) -> Vec<Call> {
    let [atoms, nodes] = [1, 2].map(|at| paper::mask_len(count(words, at)));
    let near = |length: usize| [length.wrapping_sub(1), length, length + 1];
    let mut calls: Vec<Call> = WORK_LENGTHS.map(|work| Call::Needed { work }).into();
    for output in near(atoms).into_iter().filter(|&length| length <= 20) {
        calls.extend([WORK, 32_767].map(|work| Call::Prepare { output, work }));
    }
    let complete = |never: usize, atom_never: usize, output: usize, work: usize| Call::Complete {
        never: vec![0; never],
        atom_never: vec![0; atom_never],
        output,
        work,
    };
    calls.extend(WORK_LENGTHS.map(|work| complete(nodes, atoms, atoms, work)));
    for (n, a) in [(0, 1), (2, 1), (1, 0), (1, 2), (0, 0), (2, 2)] {
        let (never, atom_never) = (near(nodes)[n], near(atoms)[a]);
        if never <= 20 && atom_never <= 20 {
            calls.extend([WORK, 0].map(|work| complete(never, atom_never, atoms, work)));
        }
    }
    for output in near(atoms)
        .into_iter()
        .filter(|&length| length <= 20 && length != atoms)
    {
        calls.push(complete(nodes, atoms, output, WORK));
    }
    calls
}

/// Rows 10 and 11 around each length, and behind 4 to 9.
fn lengths(recording: &mut Recording) {
    for (atoms, nodes) in [
        (0, 0),
        (1, 1),
        (2, 64),
        (63, 65),
        (64, 64),
        (65, 128),
        (128, 1),
        (129, 0),
        (0, 129),
    ] {
        let content = Content {
            atoms,
            nodes: vec![node(IMPLIES, 0, &[]); nodes],
            rules: vec![],
        };
        let words = content.words();
        recording.graph(&words, &around(&words));
    }
    let full = Content {
        atoms: 1_024,
        nodes: vec![node(OR, 0, &[]); 1_024],
        rules: vec![],
    };
    recording.graph(&full.words(), &around(&full.words()));
    let small = |edge: &edges::Edge<u16>| edge.refusal.is_some() && edge.words.len() < 60;
    for edge in edges::all().iter().filter(|edge| small(edge)).step_by(3) {
        recording.graph(&edge.words, &around(&edge.words));
    }
}

/// Row 12: cut or not, deep or not, several places, and behind 10 and 11.
fn absorbed(recording: &mut Recording, rng: &mut Rng) {
    let nodes = vec![
        node(ABSORBED, 0, &[]),
        node(ATOM, 0, &[]),
        node(ABSORBED, 0, &[]),
        node(AND, 0, &[1, 2, 1]),
        node(ABSORBED, 0, &[]),
        node(OR, 0, &[3, 0, 0]),
        node(OR, 0, &[4, 1]),
    ];
    let rule_lists = [
        vec![rule(6, &[0])],
        vec![rule(4, &[0, 0])],
        vec![rule(7, &[1]), rule(1, &[])],
        vec![rule(6, &[]), rule(2, &[0])],
        vec![rule(1, &[1]), rule(5, &[0]), rule(3, &[1])],
        vec![rule(6, &[0]), rule(7, &[1])],
        vec![rule(0, &[0]), rule(5, &[]), rule(2, &[1])],
        vec![],
    ];
    for rules in rule_lists {
        let content = Content {
            atoms: 2,
            nodes: nodes.clone(),
            rules,
        };
        let words = content.words();
        let mut masks = random::masks(rng, &words, 4);
        masks.push((vec![!0], vec![0]));
        masks.push((vec![!0], vec![!0]));
        recording.graph(&words, &usual(&words, &masks));
        recording.graph(&words, &around(&words));
    }
}

/// Random graphs under three numberings of their links each, with the same masks.
fn renumbered(recording: &mut Recording, rng: &mut Rng) {
    for i in 0..60 {
        let scale = if i % 10 == 9 { 3 } else { i % 3 };
        let words: Vec<u16> = random::graph(rng, SCALES[scale]);
        let masks = random::masks(rng, &words, 3);
        let others = [random::turned(&words), random::renumbered(rng, &words)];
        for words in [words].iter().chain(&others) {
            recording.graph(words, &usual(words, &masks));
        }
    }
}

/// Random graphs of each scale with masks, and damaged copies.
fn samples(recording: &mut Recording, rng: &mut Rng) {
    for (scale, graphs) in [(0, 250), (1, 300), (2, 250), (3, 40), (4, 9), (5, 8)] {
        for _ in 0..graphs {
            let words: Vec<u16> = random::graph(rng, SCALES[scale]);
            let masks = random::masks(rng, &words, 5);
            recording.graph(&words, &usual(&words, &masks));
        }
    }
    for i in 0..400 {
        let whole: Vec<u16> = random::graph(rng, SCALES[i % 3]);
        let words = damage::copy(rng, &whole);
        let masks = lent(rng, &words, 2);
        recording.graph(&words, &usual(&words, &masks));
    }
}
