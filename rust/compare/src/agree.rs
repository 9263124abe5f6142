//! One graph: the original's answers against document 01's, and those of the
//! proved calls of each edition against both.

use std::fmt;

use oracle::{Ended, Oracle};
use paper::{Graph, Prepared, Refusal};

use crate::branches;
use crate::calls::{Calls, Word, widened};
use crate::content::laid_out;
use crate::ours::{Lengths, Made, NUMBERS, Ours};
use crate::within;

/// The node mask, then the atom mask.
pub type Masks = (Vec<u64>, Vec<u64>);

/// A mask filled up with zeros to its full length over that many numbers, as
/// the original is given it (request 2).
pub fn filled(mask: &[u64], count: usize) -> Vec<u64> {
    let mut words = mask.to_vec();
    words.resize(paper::mask_len(count), 0);
    words
}

/// The original's missing list for masks that may be short.
fn original_missing(
    original: &Oracle,
    graph: &Graph,
    (never, atom_never): &Masks,
) -> Result<Vec<u64>, Ended> {
    let (never, atom_never) = (
        filled(never, graph.nodes.len()),
        filled(atom_never, graph.atoms),
    );
    original.missing(&never, &atom_never)
}

/// What was compared so far, in one edition.
#[derive(Clone, Copy, Debug, Default, PartialEq, Eq)]
pub struct Tally {
    pub accepted: u64,
    /// Graphs turned away, by number. Those with 12 are among the accepted:
    /// the graph check passes them.
    pub refused: [u64; NUMBERS],
    pub loops: u64,
    /// Accepted graphs with kind 7 outside the cone alone.
    pub outside: u64,
    /// Accepted graphs with a cyclic atom.
    pub marked: u64,
    pub passes: u64,
    /// Passes with something missing.
    pub missing: u64,
    /// Passes with demand 3 tried over all sets; those of equal content in the
    /// other edition are not tried again.
    pub grouped: u64,
    pub sets: u64,
    /// Passes within an allowance, in edition 1 alone: counts found, and those that reach
    /// their bound.
    pub counts: u64,
    pub reached: u64,
    /// Search branches compared with the original on one scratch, in edition 1
    /// alone, and their lists of later pairs.
    pub branches: u64,
    pub later: u64,
    /// Accepted graphs whose later pairs go by fewer entries than there are.
    pub narrowed: u64,
    /// What was asked of the proved calls.
    pub ours: Made,
}

impl Tally {
    pub fn add(&mut self, other: &Self) {
        self.accepted += other.accepted;
        for (number, count) in other.refused.iter().enumerate() {
            self.refused[number] += count;
        }
        self.loops += other.loops;
        self.outside += other.outside;
        self.marked += other.marked;
        self.passes += other.passes;
        self.missing += other.missing;
        self.grouped += other.grouped;
        self.sets += other.sets;
        self.counts += other.counts;
        self.reached += other.reached;
        self.branches += other.branches;
        self.later += other.later;
        self.narrowed += other.narrowed;
        self.ours.add(&other.ours);
    }

    /// Count an accepted graph.
    fn count(&mut self, answers: &Answers) {
        let any = |words: &[u64]| u64::from(words.iter().any(|&word| word != 0));
        self.accepted += 1;
        self.loops += u64::from(answers.loops);
        match &answers.marked {
            Ok(marked) => {
                let absorbed = |node: &paper::Node| node.kind == paper::Kind::Absorbed;
                self.outside += u64::from(answers.graph.nodes.iter().any(absorbed));
                self.marked += any(marked);
            }
            Err(_) => self.refused[12] += 1,
        }
        self.passes += answers.missing.len() as u64;
        self.missing += answers.missing.iter().map(|list| any(list)).sum::<u64>();
    }
}

/// A difference found: what differs, on which words and masks.
#[derive(Clone)]
pub struct Difference {
    pub what: String,
    pub edition: u32,
    pub words: Vec<u32>,
    pub masks: Option<Masks>,
}

/// Of a large graph, how it begins: as many characters and words.
const SHOWN: usize = 10_000;

impl fmt::Debug for Difference {
    fn fmt(&self, f: &mut fmt::Formatter<'_>) -> fmt::Result {
        let what: String = self.what.chars().take(SHOWN).collect();
        let (words, masks) = (&self.words, self.masks.as_ref());
        let shown = &words[..words.len().min(SHOWN)];
        writeln!(f, "in edition {}: {what}", self.edition)?;
        write!(f, "{} words: {shown:?}", words.len())?;
        match masks.filter(|_| words.len() <= SHOWN) {
            Some((never, atom_never)) => {
                write!(f, "\nnode mask {never:x?}, atom mask {atom_never:x?}")
            }
            None => Ok(()),
        }
    }
}

/// A difference on these words.
pub(crate) fn on<W: Word>(words: &[W], masks: Option<&Masks>) -> impl FnOnce(String) -> Difference {
    move |what| Difference {
        what,
        edition: W::EDITION.number,
        words: words.iter().map(|&word| word.into()).collect(),
        masks: masks.cloned(),
    }
}

/// The proved calls of one edition, and what was compared with them.
pub struct Side<W: Word> {
    pub ours: Ours<W>,
    pub tally: Tally,
}

impl<W: Word> Side<W> {
    pub fn new(calls: Calls<W>) -> Self {
        Self {
            ours: Ours::new(calls),
            tally: Tally::default(),
        }
    }

    pub fn tally(&self) -> Tally {
        Tally {
            ours: self.ours.made,
            ..self.tally
        }
    }
}

/// What original and document answer alike on an accepted graph.
pub struct Answers {
    pub(crate) graph: Graph,
    loops: bool,
    /// The cyclic atoms, or 12.
    pub(crate) marked: Result<Vec<u64>, Refusal>,
    /// The missing list for each pair of masks; with 12 there is none.
    pub(crate) missing: Vec<Vec<u64>>,
    /// The same of request 6's list, which the document alone answers, in edition 1.
    unfounded: Vec<Vec<u64>>,
}

/// Demand 3 is tried over all sets up to this many atoms.
pub const MOST_ATOMS_FOR_SETS: usize = 10;

/// Compare all answers on the words, for each pair of masks. The answers, if the
/// graph is accepted.
///
/// # Errors
/// The first difference.
pub fn compare<W: Word>(
    words: &[W],
    masks: &[Masks],
    side: &mut Side<W>,
) -> Result<Option<Answers>, Difference> {
    let graph = match Graph::decode(words) {
        Ok(graph) => graph,
        Err(refusal) => {
            side.tally.refused[usize::from(refusal.number)] += 1;
            side.ours.graph(words);
            refused(&refusal, &mut side.ours).map_err(on(words, None))?;
            return Ok(None);
        }
    };
    let answers = answers(graph, words, masks, &mut side.tally)?;
    side.tally.count(&answers);
    proved(words, masks, &answers, &mut side.ours)?;
    Ok(Some(answers))
}

/// Compare all answers on the words, search branches too, and on the same words in
/// edition 2; where tails are shared or links unused, also on words of edition 2 with the same
/// content and a link for each entry. On equal content the answers must be equal.
///
/// # Errors
/// The first difference.
pub fn compare_both(
    words: &[u16],
    masks: &[Masks],
    narrow: &mut Side<u16>,
    wide: &mut Side<u32>,
) -> Result<(), Difference> {
    let answers = compare(words, masks, narrow)?;
    let same = widened(words);
    let Some(answers) = answers else {
        // Edition 2's limits may let it pass.
        return compare(&same, &clear_masks(&same), wide).map(|_| ());
    };
    within::compare(words, masks, &answers, narrow)?;
    let orders = branches::orders(words, masks.len());
    branches::compare(words, masks, &orders, &answers, narrow)?;
    let graph = &answers.graph;
    equal_content(&same, masks, &answers, wide)?;
    if usize::from(words[4]) != graph.leaf_entries() + graph.head_entries() {
        equal_content(&laid_out(graph), masks, &answers, wide)?;
    }
    Ok(())
}

/// Compare all answers on the words; and then, in either edition, on words that
/// differ from them in the numbering of their links alone.
///
/// # Errors
/// The first difference.
pub fn compare_renumbered(
    words: &[u16],
    numberings: &[Vec<u16>],
    masks: &[Masks],
    narrow: &mut Side<u16>,
    wide: &mut Side<u32>,
) -> Result<(), Difference> {
    let Some(answers) = compare(words, masks, narrow)? else {
        return Err(on(words, None)(
            "a graph to be renumbered is refused".into(),
        ));
    };
    let orders = branches::orders(words, masks.len());
    branches::compare(words, masks, &orders, &answers, narrow)?;
    for words in numberings {
        equal_content(words, masks, &answers, narrow)?;
        within::compare(words, masks, &answers, narrow)?;
        branches::ours(words, masks, &orders, &answers, narrow)?;
        equal_content(&widened(words), masks, &answers, wide)?;
    }
    Ok(())
}

/// Words with the content of a graph whose answers are known.
fn equal_content<W: Word>(
    words: &[W],
    masks: &[Masks],
    answers: &Answers,
    side: &mut Side<W>,
) -> Result<(), Difference> {
    if Graph::decode(words).as_ref() != Ok(&answers.graph) {
        let what = "another graph is read from words of the same content";
        return Err(on(words, None)(what.into()));
    }
    side.tally.count(answers);
    proved(words, masks, answers, &mut side.ours)
}

/// A pair that cuts nothing, for a graph that is accepted.
fn clear_masks<W: Word>(words: &[W]) -> Vec<Masks> {
    let clear = |count: usize| vec![0; paper::mask_len(count)];
    Graph::decode(words)
        .map(|graph| (clear(graph.nodes.len()), clear(graph.atoms)))
        .into_iter()
        .collect()
}

/// Report a difference unless both sides are equal.
pub(crate) fn equal<T: PartialEq + fmt::Debug>(
    what: &str,
    original: T,
    paper: T,
) -> Result<(), String> {
    if original == paper {
        return Ok(());
    }
    Err(format!("{what}: original {original:?}, document {paper:?}"))
}

/// The original's answers on an accepted graph, which must be the document's.
fn answers<W: Word>(
    graph: Graph,
    words: &[W],
    masks: &[Masks],
    tally: &mut Tally,
) -> Result<Answers, Difference> {
    let rows = |end: Ended| on(words, None)(format!("rows: {end:?}"));
    let original = Oracle::new(words).map_err(rows)?;
    let loops = static_answers(&graph, &original).map_err(on(words, None))?;
    let (mut missing, mut unfounded) = (vec![], vec![]);
    let marked = match graph.prepared() {
        Ok(prepared) => {
            let marked = marks(&prepared, &original).map_err(on(words, None))?;
            for pair in masks {
                let list =
                    pass(&prepared, &original, pair, tally).map_err(on(words, Some(pair)))?;
                if W::EDITION.number == 1 {
                    let wider = unsupported(&prepared, &list, pair);
                    unfounded.push(wider.map_err(on(words, Some(pair)))?);
                }
                missing.push(list);
            }
            Ok(marked)
        }
        Err(refusal) => {
            refused_with_12(&original, &graph, masks).map_err(on(words, None))?;
            Err(refusal)
        }
    };
    Ok(Answers {
        graph,
        loops,
        marked,
        missing,
        unfounded,
    })
}

/// The four row tables and the loop test.
fn static_answers(graph: &Graph, original: &Oracle) -> Result<bool, String> {
    let (theirs, rows) = (original.rows(), graph.rows());
    equal("atom_nodes", theirs.atom_nodes, rows.conditions_per_state)?;
    equal("parents", theirs.parents, rows.parents_per_condition)?;
    equal("by_head", theirs.by_head, rows.rules_per_head)?;
    equal("by_body", theirs.by_body, rows.rules_per_body)?;
    let loops = graph.loops();
    equal("needed", original.needed(), Ok(loops))?;
    Ok(loops)
}

fn marks(prepared: &Prepared<'_>, original: &Oracle) -> Result<Vec<u64>, String> {
    let marked = paper::pack(&prepared.marked);
    equal("cyclic_atoms", original.cyclic_atoms(), Ok(marked.clone()))?;
    let by_components = paper::marked_by_components(prepared);
    equal(
        "the two wordings of marked",
        &by_components,
        &prepared.marked,
    )?;
    Ok(marked)
}

/// Where the document gives 12, the original ends in `InvalidProgram`.
fn refused_with_12(original: &Oracle, graph: &Graph, masks: &[Masks]) -> Result<(), String> {
    let ended = Err(Ended::InvalidProgram);
    equal("cyclic_atoms", original.cyclic_atoms(), ended.clone())?;
    for pair in masks {
        equal(
            "missing",
            original_missing(original, graph, pair),
            ended.clone(),
        )?;
    }
    Ok(())
}

/// One pass, and demand 3 on its list.
fn pass(
    prepared: &Prepared<'_>,
    original: &Oracle,
    pair: &Masks,
    tally: &mut Tally,
) -> Result<Vec<u64>, String> {
    let (never, atom_never) = pair;
    let missing = prepared.missing(never, atom_never);
    let packed = paper::pack(&missing);
    equal(
        "missing",
        original_missing(original, prepared.graph, pair),
        Ok(packed.clone()),
    )?;
    if !paper::groups::unearned(prepared, &missing, never, atom_never) {
        return Err("the missing list is no unearned group".into());
    }
    if prepared.graph.atoms <= MOST_ATOMS_FOR_SETS {
        tally.grouped += 1;
        tally.sets += 1 << prepared.graph.atoms;
        let union = paper::groups::union_of_all(prepared, never, atom_never);
        equal(
            "missing and the union of all unearned groups",
            missing,
            union,
        )?;
    }
    Ok(packed)
}

/// Request 6's list in the document's reading: with few atoms the uncut part of the
/// union of all unfounded sets, and always with each atom of the old list.
fn unsupported(
    prepared: &Prepared<'_>,
    missing: &[u64],
    (never, atom_never): &Masks,
) -> Result<Vec<u64>, String> {
    let list = prepared.unsupported(never, atom_never);
    if prepared.graph.atoms <= MOST_ATOMS_FOR_SETS {
        let greatest = paper::groups::greatest_uncut(prepared, never, atom_never);
        equal(
            "left unsupported and the greatest unfounded set, uncut",
            &list,
            &greatest,
        )?;
    }
    let packed = paper::pack(&list);
    if missing
        .iter()
        .zip(&packed)
        .any(|(old, new)| old & !new != 0)
    {
        return Err("an atom is missing and not left unsupported".into());
    }
    Ok(packed)
}

/// The proved calls on an accepted graph, against its answers.
fn proved<W: Word>(
    words: &[W],
    masks: &[Masks],
    answers: &Answers,
    ours: &mut Ours<W>,
) -> Result<(), Difference> {
    ours.graph(words);
    let lengths = Lengths::right::<W>(&answers.graph);
    let prepared = answers.marked.as_deref();
    ours.check(Ok(()))
        .and_then(|()| ours.work_words(lengths.work))
        .and_then(|()| ours.needed(lengths.work, Ok(answers.loops)))
        .and_then(|()| ours.prepare(lengths, prepared))
        .map_err(on(words, None))?;
    for (i, pair) in masks.iter().enumerate() {
        let expected = prepared.map(|_| &answers.missing[i][..]);
        ours.complete(&pair.0, &pair.1, lengths, expected)
            .map_err(on(words, Some(pair)))?;
        let expected = prepared.map(|_| answers.unfounded.get(i).map_or(&[][..], |list| list));
        ours.unfounded(&pair.0, &pair.1, lengths, expected)
            .map_err(on(words, Some(pair)))?;
    }
    Ok(())
}

/// 1 to 9 and 14 come before any length, so all lengths are free here; the work area
/// has that of the empty graph.
fn refused<W: Word>(refusal: &Refusal, ours: &mut Ours<W>) -> Result<(), String> {
    let work = W::EDITION.work_words(&Graph::default());
    ours.check(Err(refusal))?;
    ours.work_words(0)?;
    ours.needed(work, Err(refusal))?;
    let lengths = Lengths { output: 1, work };
    ours.prepare(lengths, Err(refusal))?;
    ours.complete(&[!0], &[1, 0], lengths, Err(refusal))?;
    ours.unfounded(&[!0], &[1, 0], lengths, Err(refusal))?;
    for allowance in [0, 9] {
        ours.within(
            (&[!0], &[1, 0]),
            lengths,
            (allowance, allowance),
            Err(refusal),
        )?;
    }
    let work = paper::BRANCH_WORK_WORDS;
    for pairs in [1, paper::MOST_PAIRS + 1] {
        let lengths = Lengths { output: 1, work };
        ours.branch(pairs, (&[!0], &[1, 0]), lengths, Err(refusal))?;
    }
    ours.unchanged()
}

/// The proved calls with wrong lengths of masks, output and work area: 10 and
/// 11 where the graph passes, else its own refusal.
///
/// # Errors
/// The first difference.
pub fn wrong_lengths<W: Word>(words: &[W], ours: &mut Ours<W>) -> Result<(), Difference> {
    ours.graph(words);
    tried_lengths(words, ours)
        .map_err(|what| format!("with wrong lengths, {what}"))
        .map_err(on(words, None))
}

fn tried_lengths<W: Word>(words: &[W], ours: &mut Ours<W>) -> Result<(), String> {
    let count = |at: usize| words.get(at).map_or(0, |count| count.number());
    let right = |at: usize| paper::mask_len(count(at).min(W::EDITION.counts));
    let graph = Graph::decode(words).unwrap_or_default();
    let (a, n, w) = (right(1), right(2), W::EDITION.work_words(&graph));
    let others = other_works::<W>(&graph);
    for &work in [0, 5, w - 1, w + 1, 2 * w].iter().chain(&others) {
        let expected = paper::needed(words, work);
        ours.needed(work, expected.as_ref().copied())?;
    }
    let shorter = a.saturating_sub(1);
    let mut lent = vec![(a + 1, w), (shorter, w), (a + 1, w - 1), (a, w - 1), (a, 0)];
    lent.extend(others.iter().map(|&work| (a, work)));
    for (output, work) in lent {
        let expected = paper::prepare(words, output, work);
        ours.prepare(Lengths { output, work }, expected.as_deref())?;
    }
    let mut lent = vec![
        (n + 1, a, a, w),
        (n.saturating_sub(1), a, a, w),
        (n, a + 1, a, w),
        (n, shorter, a, w),
        (n, a, a + 1, w),
        (n, a, shorter, w),
        (a, n, a, w),
        (n + 1, a + 1, a + 1, 0),
        (n, a, a + 1, w + 1),
        (n, a, a, w + 1),
        (n, a, a, w - 1),
    ];
    lent.extend(others.iter().map(|&work| (n, a, a, work)));
    for (never, atom_never, output, work) in lent {
        let (never, atom_never) = (vec![0; never], vec![!0; atom_never]);
        let expected = paper::complete(words, &never, &atom_never, output, work);
        let lengths = Lengths { output, work };
        ours.complete(&never, &atom_never, lengths, expected.as_deref())?;
        let expected = paper::unfounded(words, &never, &atom_never, output, work);
        ours.unfounded(&never, &atom_never, lengths, expected.as_deref())?;
    }
    ours.unchanged()
}

/// Lengths of the work area by a wrong reading of edition 2's: four words fewer
/// or more, nothing for the 1, no leaf, no head or no entries counted, edition 1's.
fn other_works<W: Word>(graph: &Graph) -> Vec<usize> {
    if W::EDITION.number == 1 {
        return vec![];
    }
    let right = W::EDITION.work_words(graph);
    let (leaves, heads) = (4 * graph.leaf_entries(), 4 * graph.head_entries());
    let mut lengths = vec![right - 4, right + 4, right - 16, paper::WORK_WORDS];
    lengths.extend([leaves, heads, leaves + heads].map(|fewer| right - fewer));
    lengths.sort_unstable();
    lengths.dedup();
    lengths.retain(|&length| length != right);
    lengths
}
