//! Search branches: several pairs of masks in one call, in edition 1.
//!
//! The original goes from pair to pair on one scratch, and what it narrows its
//! rows to is held to the papers' reading. The proved call is lent the masks end
//! to end; its narrowed rows stand in the work area while it runs and are cleared,
//! so that its lists alone can be looked at.

use oracle::{Ended, Oracle, Projected, Role};
use paper::narrowed::{Narrowed, Start};
use paper::{BRANCH_WORK_WORDS, Graph, MOST_PAIRS, Refusal, WORK_WORDS};

use crate::agree::{Answers, Difference, Masks, Side, equal, filled, on};
use crate::ours::{Lengths, Ours};
use crate::rng::Rng;

/// The pairs of a branch: places in a list of masks.
pub type Order = Vec<usize>;

/// The branches of a graph with so many pairs of masks: one of all pairs, a pair
/// that the words choose first; for three graphs in eight also one of 1 or 2, or of
/// 63 or 64 pairs, some of them the same.
pub fn orders(words: &[u16], pairs: usize) -> Vec<Order> {
    if pairs == 0 {
        return vec![];
    }
    let seed = words.iter().fold(0, |seed: u64, &word| {
        seed.wrapping_mul(31) + u64::from(word)
    });
    let mut rng = Rng::new(seed);
    let first = rng.below(pairs);
    let turned = (first..pairs).chain(0..first).take(MOST_PAIRS);
    let mut orders = vec![turned.collect()];
    let more = match rng.below(8) {
        0 => rng.between(1, 2),
        1 => MOST_PAIRS - 1,
        2 => MOST_PAIRS,
        _ => return orders,
    };
    orders.push((0..more).map(|_| rng.below(pairs)).collect());
    orders
}

/// The masks at their full lengths: those that are laid end to end are never short.
fn full(masks: &[Masks], graph: &Graph) -> Vec<Masks> {
    let pair = |(never, atom_never): &Masks| {
        let nodes = filled(never, graph.nodes.len());
        (nodes, filled(atom_never, graph.atoms))
    };
    masks.iter().map(pair).collect()
}

/// The masks of a branch end to end.
fn end_to_end(masks: &[Masks], order: &Order) -> Masks {
    let of = |one: fn(&Masks) -> &Vec<u64>| {
        let pairs = order.iter().map(|&pair| one(&masks[pair]));
        pairs.flatten().copied().collect()
    };
    (of(|pair| &pair.0), of(|pair| &pair.1))
}

/// Branches of an accepted graph whose answers are known: the original's and ours.
///
/// # Errors
/// The first difference.
pub fn compare(
    words: &[u16],
    masks: &[Masks],
    orders: &[Order],
    answers: &Answers,
    side: &mut Side<u16>,
) -> Result<(), Difference> {
    let rows = |end: Ended| on(words, None)(format!("rows: {end:?}"));
    let original = Oracle::new(words).map_err(rows)?;
    let masks = &full(masks, &answers.graph);
    if !masks.is_empty() {
        let narrows = narrowed(&original, masks, answers).map_err(on(words, None))?;
        side.tally.narrowed += u64::from(narrows);
    }
    for order in orders {
        from_pair_to_pair(&original, masks, order, answers)
            .map_err(on(words, Some(&end_to_end(masks, order))))?;
        side.tally.branches += 1;
        side.tally.later += order.len() as u64 - 1;
    }
    ours(words, masks, orders, answers, side)
}

/// The original on one scratch.
fn from_pair_to_pair(
    original: &Oracle,
    masks: &[Masks],
    order: &Order,
    answers: &Answers,
) -> Result<(), String> {
    let mut scratch = original.branch();
    for (number, &pair) in order.iter().enumerate() {
        let (never, atom_never) = &masks[pair];
        let expected = match &answers.marked {
            Ok(_) => Ok(answers.missing[pair].clone()),
            Err(_) => Err(Ended::InvalidProgram),
        };
        let list = scratch.missing(never, atom_never);
        equal(&format!("missing of pair {number}"), list, expected)?;
    }
    Ok(())
}

/// What the original's later passes go by, against the papers' reading. Whether
/// there is less of it than of the rows.
fn narrowed(original: &Oracle, masks: &[Masks], answers: &Answers) -> Result<bool, String> {
    let mut scratch = original.branch();
    for (never, atom_never) in [&masks[0], &masks[masks.len() - 1]] {
        if scratch.projected().is_some() {
            return Err("the first pass goes by narrowed rows".into());
        }
        // Where it ends without an answer it narrows nothing.
        _ = scratch.missing(never, atom_never);
    }
    match (answers.graph.prepared(), scratch.projected()) {
        (Ok(prepared), Some(theirs)) => {
            let paper = prepared.narrowed();
            same_rows(&theirs, &paper)?;
            Ok(narrows(&answers.graph, &paper))
        }
        (Err(_), None) => Ok(false),
        (Ok(_), None) => Err("the second pass does not go by narrowed rows".into()),
        (Err(_), Some(_)) => Err("rows are narrowed of a graph that 12 refuses".into()),
    }
}

fn narrows(graph: &Graph, narrowed: &Narrowed) -> bool {
    let entries = |rows: &[Vec<usize>]| rows.iter().map(Vec::len).sum::<usize>();
    entries(&narrowed.parents_per_condition) < graph.leaf_entries()
        || entries(&narrowed.heads_per_body) < graph.head_entries()
}

/// The original's `Projection` against the narrowed rows and start states by their
/// meaning: both tables with order and repeats, `seed_start`, and on either side
/// of it the same conditions, each with its state. In which order these stand is
/// the original's own.
///
/// # Errors
/// The first difference.
pub fn same_rows(theirs: &Projected, paper: &Narrowed) -> Result<(), String> {
    equal(
        "narrowed parents",
        &theirs.parents,
        &paper.parents_per_condition,
    )?;
    equal("narrowed heads", &theirs.heads, &paper.heads_per_body)?;
    equal("seed_start", theirs.seed_start, paper.counters.len())?;
    let sorted = |conditions: &[usize]| {
        let mut sorted = conditions.to_vec();
        sorted.sort_unstable();
        sorted
    };
    let (counters, seeds) = theirs.body_nodes.split_at(theirs.seed_start);
    equal("counters", sorted(counters), paper.counters.clone())?;
    equal("seeds", sorted(seeds), paper.seeds.clone())?;
    for (&condition, &role) in theirs.body_nodes.iter().zip(&theirs.initial) {
        let what = format!("start state of {condition}");
        equal(&what, Some(start(role)), paper.starts[condition])?;
    }
    Ok(())
}

fn start(role: Role) -> Start {
    match role {
        Role::Inactive => Start::Never,
        Role::Awaiting(count) => Start::Waits(count),
        Role::True => Start::True,
        Role::Boundary(atom) => Start::Unless(atom),
    }
}

/// The proved call on branches of an accepted graph.
///
/// # Errors
/// The first difference.
pub fn ours(
    words: &[u16],
    masks: &[Masks],
    orders: &[Order],
    answers: &Answers,
    side: &mut Side<u16>,
) -> Result<(), Difference> {
    side.ours.graph(words);
    let masks = &full(masks, &answers.graph);
    for order in orders {
        let lent = end_to_end(masks, order);
        let lists = order.iter().flat_map(|&pair| answers.missing.get(pair));
        let lists: Vec<u64> = lists.flatten().copied().collect();
        let expected = answers.marked.as_ref().map(|_| &lists[..]);
        let lengths = Lengths {
            output: lent.1.len(),
            work: BRANCH_WORK_WORDS,
        };
        side.ours
            .branch(order.len(), (&lent.0, &lent.1), lengths, expected)
            .map_err(on(words, Some(&lent)))?;
    }
    Ok(())
}

/// The proved call with wrong numbers of pairs and wrong lengths, by themselves and
/// together: 13, 10 and 11 where the graph passes, else its own refusal.
///
/// # Errors
/// The first difference.
pub fn wrong_lengths(words: &[u16], ours: &mut Ours<u16>) -> Result<(), Difference> {
    ours.graph(words);
    // Of a graph that is refused the check may take long: it is asked once.
    let refused = paper::check(words).err();
    let mut tried = || {
        for (pairs, lent) in lent(words) {
            one(words, refused.as_ref(), pairs, lent, ours)?;
        }
        ours.unchanged()
    };
    tried()
        .map_err(|what| format!("with wrong lengths, {what}"))
        .map_err(on(words, None))
}

/// Node masks, atom masks, output and work area, in words.
type Lent = [usize; 4];

/// Numbers of pairs, and lengths for each. Of an accepted graph with nodes and atoms
/// all are wrong.
fn lent(words: &[u16]) -> Vec<(usize, Lent)> {
    let graph = Graph::decode(words).unwrap_or_default();
    let (n, a) = (
        paper::mask_len(graph.nodes.len()),
        paper::mask_len(graph.atoms),
    );
    let right = |pairs: usize| [pairs * n, pairs * a, pairs * a, BRANCH_WORK_WORDS];
    let mut all = vec![];
    for pairs in [3, MOST_PAIRS] {
        for at in 0..4 {
            for more in [false, true] {
                let mut lengths = right(pairs);
                lengths[at] = if more {
                    lengths[at] + 1
                } else {
                    lengths[at].saturating_sub(1)
                };
                all.push((pairs, lengths));
            }
        }
    }
    // As long as a lone pass asks, or as another number of pairs; 11 after 10.
    let [never, atom_never, output, work] = right(3);
    all.extend([
        (3, [n, a, a, work]),
        (3, [never, atom_never, a, work]),
        (3, [never, atom_never, output, WORK_WORDS]),
        (3, [never, atom_never, output, 0]),
        (3, [never, atom_never, output, 2 * work]),
        (3, [atom_never, never, output, work]),
        (3, right(2)),
        (2, right(3)),
        (3, [never, atom_never, output + 1, WORK_WORDS]),
    ]);
    // 13, with lengths that would fit and with others. The large numbers are 0, 1 and
    // 64 to one who keeps the low bits alone; to one who multiplies, some are none.
    let large = [1 << 8, 1 << 16, 1 << 32, 1 << 58, 1 << 63];
    let low = large.map(|large: usize| [large, large + 1, large + 64]);
    let few = [0, MOST_PAIRS + 1];
    let many = low.into_iter().flatten().chain([usize::MAX]);
    all.extend(
        many.chain(few)
            .map(|pairs| (pairs, right(pairs % 256 % 67))),
    );
    for pairs in few {
        all.extend([
            (pairs, right(1)),
            (pairs, [n + 1, a, a, work]),
            (pairs, [n, a, a, WORK_WORDS]),
        ]);
    }
    all
}

fn one(
    words: &[u16],
    refused: Option<&Refusal>,
    pairs: usize,
    [never, atom_never, output, work]: Lent,
    ours: &mut Ours<u16>,
) -> Result<(), String> {
    // Nothing cut in some words, everything in others.
    let mask = |length: usize, cut: usize| -> Vec<u64> {
        let word = |at: usize| if at % 3 == cut { !0 } else { 0 };
        (0..length).map(word).collect()
    };
    let (never, atom_never) = (mask(never, 2), mask(atom_never, 1));
    let lengths = Lengths { output, work };
    let lent = (&never[..], &atom_never[..]);
    if let Some(refusal) = refused {
        return ours.branch(pairs, lent, lengths, Err(refusal));
    }
    let expected = paper::branch(words, pairs, lent.0, lent.1, output, work);
    ours.branch(pairs, lent, lengths, expected.as_deref())
}
