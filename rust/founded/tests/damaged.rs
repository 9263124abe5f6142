//! Any words, any lengths, in both editions: no call panics, and each leaves output and work area as the documents say, and all memory beside them alone.

mod common;

use common::{Rng, Width, graph, theory, work_words};
use founded::{
    BRANCH_WORK_WORDS, Error, GraphOf, MOST_PAIRS, Refusal, Theory, WORK_WORDS, mask_words,
};

/// How a theory is built in an edition.
type Build<W> = fn(&Theory) -> Result<GraphOf<W>, Error>;

/// Words that often begin like a graph.
fn random_words<W: Width>(rng: &mut Rng) -> Vec<W> {
    let mut words: Vec<usize> = (0..rng.below(40)).map(|_| rng.below(4)).collect();
    if rng.below(3) > 0 && words.len() >= 4 {
        words.resize(4 + 3 * words[1] + 2 * words[2] + 2 * words[3], 0);
    }
    let mut words = graph::<W>(&words);
    match rng.below(5) {
        0 => words[0] = W::low(rng.below(4) as u64),
        1 if rng.below(4) == 0 => words.clear(),
        _ => {}
    }
    words
}

/// A graph with up to three faults.
fn damaged<W: Width>(rng: &mut Rng, build: Build<W>) -> Vec<W> {
    let (theory, ..) = theory(rng, 12, true).unwrap();
    let mut words = build(&theory).unwrap().into_words();
    for _ in 0..rng.below(4) {
        let at = rng.below(words.len());
        match rng.below(8) {
            0 => words.truncate(at),
            1 => words.push(W::low(0)),
            2 => words[at] = W::low(rng.next()),
            _ => words[at] = W::low(rng.below(9) as u64),
        }
        if words.is_empty() {
            break;
        }
    }
    words
}

/// As many entries as a graph may have, or a few more: each of 64 producers has the whole chain of links.
fn crowded<W: Width>(rng: &mut Rng) -> Vec<W> {
    let links = W::ENTRIES / 64 + rng.below(4);
    let mut words = vec![1, 0, 64, links];
    words.extend((0..64).flat_map(|_| [0, 1]));
    words.extend((1..=links).flat_map(|link| [0, (link + 1) % (links + 1)]));
    graph(&words)
}

/// Memory in which a call is lent a part in the middle.
struct Lent<T> {
    all: Vec<T>,
    len: usize,
}

impl<T: Copy + PartialEq + Default> Lent<T> {
    fn new(len: usize, fill: T) -> Self {
        let all = vec![fill; len + 8];
        Self { all, len }
    }

    fn part(&mut self) -> &mut [T] {
        &mut self.all[4..4 + self.len]
    }

    /// Whether every word of the part is `word`, the words beside it being as they were.
    fn is_all(&mut self, fill: T, word: T) -> bool {
        let around = self.all[..4].iter().chain(&self.all[4 + self.len..]);
        assert!(around.into_iter().all(|&beside| beside == fill));
        self.part().iter().all(|&inside| inside == word)
    }
}

struct Lengths {
    output: usize,
    work: usize,
}

/// Runs `call`, and checks what it leaves against its answer. Gives the output after success.
fn left<W: Width>(
    lengths: &Lengths,
    call: impl FnOnce(&mut [u64], &mut [W]) -> Result<(), Refusal>,
) -> Result<Vec<u64>, Refusal> {
    let (fill, word) = (0xa5a5_5a5a_0ff0_1234, W::low(0x7b3c_7b3c));
    let mut output = Lent::new(lengths.output, fill);
    let mut work = Lent::new(lengths.work, word);
    let answer = call(output.part(), work.part());
    let untouched = answer.is_err_and(|refusal| refusal.number() != 12);
    assert!(work.is_all(word, if untouched { word } else { W::low(0) }));
    assert_eq!(
        output.is_all(fill, fill),
        answer.is_err() || lengths.output == 0
    );
    answer.map(|()| output.part().to_vec())
}

fn has(words: &[u64], atom: usize) -> bool {
    words
        .get(atom / 64)
        .is_some_and(|word| word >> (atom % 64) & 1 == 1)
}

/// A search branch on these words, now and then with a wrong number of pairs or a wrong length; every list is that of a pass with its masks. Gives the answer's number;
/// none in edition 2.
fn searched<W: Width>(rng: &mut Rng, graph: &[W]) -> Option<u16> {
    let branch = W::branch()?;
    let count = |at: usize| graph.get(at).map_or(0, |&word| word.into() as usize);
    let [nodes, atoms] = [2, 1].map(|at| mask_words(count(at)).min(16));
    let mut pairs = [1, 2, 5, MOST_PAIRS - 1, MOST_PAIRS][rng.below(5)];
    let [mut never, mut atom_never] = [nodes, atoms].map(|words| {
        (0..pairs * words)
            .map(|_| rng.next() & rng.next())
            .collect::<Vec<u64>>()
    });
    let mut lengths = Lengths {
        output: pairs * atoms,
        work: BRANCH_WORK_WORDS,
    };
    let wrong = rng.below(16);
    match wrong {
        0 => never.push(0),
        1 => atom_never.push(0),
        2 => lengths.output += 1,
        3 | 4 => lengths.work = [0, WORK_WORDS, BRANCH_WORK_WORDS - 1][rng.below(3)],
        5 | 6 => pairs = [0, MOST_PAIRS + 1, usize::MAX][rng.below(3)],
        _ => {}
    }
    let refused = match wrong {
        0..=2 => Some(Refusal::Lengths),
        3 | 4 => Some(Refusal::Work),
        5 | 6 => Some(Refusal::Pairs),
        _ => None,
    };
    let lists = left(&lengths, |output, work| {
        branch(graph, pairs, &never, &atom_never, output, work)
    });
    if let Some(refusal) = W::check(graph).err().or(refused) {
        assert_eq!(lists, Err(refusal));
        return Some(refusal.number());
    }
    let mut work = vec![W::low(0); WORK_WORDS];
    for pair in 0..pairs {
        let never = &never[pair * nodes..][..nodes];
        let atom_never = &atom_never[pair * atoms..][..atoms];
        let mut output = vec![0; atoms];
        match W::complete(graph, never, atom_never, &mut output, &mut work) {
            Ok(()) => {
                let list = lists.as_ref().map(|lists| &lists[pair * atoms..][..atoms]);
                assert_eq!(list, Ok(&output[..]));
            }
            Err(refusal) => assert_eq!(lists, Err(refusal)),
        }
    }
    Some(lists.map_or_else(|refusal| refusal.number(), |_| 0))
}

/// All four calls on these words. Gives the number of the pass's answer.
fn run<W: Width>(rng: &mut Rng, graph: &[W]) -> u16 {
    let checked = W::check(graph);
    let count = |at: usize| graph.get(at).map_or(0, |&word| word.into() as usize);
    let sizes = [2, 1].map(|at| mask_words(count(at)));
    let [mut never, mut atom_never] = sizes.map(|size| {
        (0..size.min(16))
            .map(|_| rng.next() & rng.next())
            .collect::<Vec<u64>>()
    });
    let area = checked.map_or(WORK_WORDS, |()| work_words(graph));
    let mut lengths = Lengths {
        output: sizes[1].min(16),
        work: area,
    };
    match rng.below(16) {
        0 => never.push(0),
        1 => drop(atom_never.pop()),
        2 => lengths.output += 1,
        3 => lengths.work = rng.below(9),
        _ => {}
    }

    let mut yes = false;
    let needed = left(&lengths, |output, work| {
        yes = W::needed(graph, work)?;
        output.fill(0);
        Ok(())
    });
    let cyclic = left(&lengths, |output, work| W::prepare(graph, output, work));
    let missing = left(&lengths, |output, work| {
        W::complete(graph, &never, &atom_never, output, work)
    });

    let made = GraphOf::from_words(graph.to_vec());
    assert_eq!(made.map(|made| made.work_words()), checked.map(|()| area));
    assert_eq!(W::work_words(graph), checked.ok().map(|()| area));
    if let Err(refusal) = checked {
        assert!(matches!(refusal.number(), 1..=9 | 14));
        let answers = [needed.err(), cyclic.err(), missing.clone().err()];
        assert_eq!(answers, [Some(refusal); 3]);
        return refusal.number();
    }
    let bad_work = (lengths.work != area).then_some(Refusal::Work);
    assert_eq!(needed.err(), bad_work);
    let bad_output = (lengths.output != sizes[1]).then_some(Refusal::Lengths);
    let bad_masks =
        (never.len() > sizes[0] || atom_never.len() > sizes[1]).then_some(Refusal::Lengths);
    match (&cyclic, bad_output.or(bad_work)) {
        (Err(Refusal::Absorbed(node)), None) => assert_eq!(count(5 + 3 * node.0 as usize), 7),
        (answer, expected) => assert_eq!(answer.as_ref().err(), expected.as_ref()),
    }
    if let Some(refusal) = bad_masks.or(bad_output).or(bad_work) {
        assert_eq!(missing, Err(refusal));
        return refusal.number();
    }
    assert_eq!(missing.is_ok(), cyclic.is_ok());
    let (Ok(cyclic), Ok(missing)) = (cyclic, missing) else {
        return 12;
    };
    for atom in 0..64 * cyclic.len() {
        assert!(!has(&cyclic, atom) || (atom < count(1) && yes));
        assert!(!has(&missing, atom) || (has(&cyclic, atom) && !has(&atom_never, atom)));
    }
    0
}

/// Random words. One in `rare` is crowded, which takes its time where a graph may have many entries.
fn nothing_panics<W: Width>(build: Build<W>, rare: u64) {
    let (mut numbers, mut branches) = ([0; 15], [0; 15]);
    for seed in 0..8_000 {
        let mut rng = Rng::new(seed);
        let words = match seed % 16 {
            _ if seed % rare == 0 => crowded(&mut rng),
            0..4 => random_words(&mut rng),
            _ => damaged(&mut rng, build),
        };
        numbers[usize::from(run(&mut rng, &words))] += 1;
        match searched(&mut rng, &words) {
            Some(number) => branches[usize::from(number)] += 1,
            None => branches = [11; 15],
        }
    }
    let given = |number: usize| number == 13 || numbers[number] > 10;
    assert!((0..15).all(given), "{numbers:?}");
    assert!(branches.iter().all(|&count| count > 10), "{branches:?}");
}

#[test]
fn nothing_panics_and_nothing_else_is_written() {
    nothing_panics(Theory::build, 16);
    nothing_panics(Theory::build_wide, 250);
}

fn every_prefix<W: Width>(build: Build<W>) {
    let mut rng = Rng::new(7);
    let (theory, ..) = theory(&mut rng, 200, false).unwrap();
    let words = build(&theory).unwrap().into_words();
    assert!(words.len() > 300);
    for len in 0..words.len() {
        let number = run(&mut rng, &words[..len]);
        assert_eq!(number, if len < 5 { 1 } else { 3 });
    }
    assert!([0, 10, 11].contains(&run(&mut rng, &words)));
}

#[test]
fn every_prefix_of_a_graph() {
    every_prefix(Theory::build);
    every_prefix(Theory::build_wide);
}
