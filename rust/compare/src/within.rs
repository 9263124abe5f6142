//! Passes within a work allowance, in edition 1: the proved call against the papers'
//! count, with allowances around it.

use paper::{Graph, Prepared};

use crate::agree::{Answers, Difference, Masks, Side, on};
use crate::ours::{Lengths, Ours};

/// Compare the pass within an allowance on an accepted graph, for each pair of masks:
/// with one less than the count, the count, one more, nothing and the largest number.
///
/// # Errors
/// The first difference.
pub fn compare(
    words: &[u16],
    masks: &[Masks],
    answers: &Answers,
    side: &mut Side<u16>,
) -> Result<(), Difference> {
    side.ours.graph(words);
    let lengths = Lengths::right::<u16>(&answers.graph);
    let prepared = answers.graph.prepared();
    for (i, pair) in masks.iter().enumerate() {
        let lent = (&pair.0[..], &pair.1[..]);
        let tried = match &prepared {
            Ok(prepared) => passes(prepared, lent, lengths, &answers.missing[i], side),
            Err(refusal) => [0, 9].into_iter().try_for_each(|allowance| {
                let ours = &mut side.ours;
                ours.within(lent, lengths, (allowance, allowance), Err(refusal))
            }),
        };
        tried.map_err(on(words, Some(pair)))?;
    }
    Ok(())
}

fn passes(
    prepared: &Prepared<'_>,
    lent: (&[u64], &[u64]),
    lengths: Lengths,
    missing: &[u64],
    side: &mut Side<u16>,
) -> Result<(), String> {
    let count = prepared.work(lent.0, lent.1);
    let most = bound(prepared.graph);
    if count > most {
        return Err(format!("the count is {count}, and its bound {most}"));
    }
    side.tally.counts += 1;
    side.tally.reached += u64::from(count == most);
    let mut allowances = vec![0, count, count + 1, u64::MAX];
    allowances.extend(count.checked_sub(1));
    allowances.sort_unstable();
    allowances.dedup();
    let exceeded = paper::Refusal {
        number: 15,
        place: 0,
    };
    for allowance in allowances {
        let (expected, left) = match allowance.checked_sub(count) {
            Some(left) => (Ok(missing), left),
            None => (Err(&exceeded), 0),
        };
        side.ours
            .within(lent, lengths, (allowance, left), expected)?;
    }
    Ok(())
}

/// A + 2N + leaf entries + head entries.
fn bound(graph: &Graph) -> u64 {
    (graph.atoms + 2 * graph.nodes.len() + graph.leaf_entries() + graph.head_entries()) as u64
}

/// The call with wrong lengths of masks, output and work area: 10 and 11 where the
/// graph passes, else its own refusal; the allowance is as it was, also where it is too
/// little.
///
/// # Errors
/// The first difference.
pub fn wrong_lengths(words: &[u16], ours: &mut Ours<u16>) -> Result<(), Difference> {
    ours.graph(words);
    tried_lengths(words, ours)
        .map_err(|what| format!("with wrong lengths, {what}"))
        .map_err(on(words, None))
}

fn tried_lengths(words: &[u16], ours: &mut Ours<u16>) -> Result<(), String> {
    let graph = Graph::decode(words).unwrap_or_default();
    let Lengths { output: a, work: w } = Lengths::right::<u16>(&graph);
    let n = paper::mask_len(graph.nodes.len());
    let lent = [
        (n + 1, a, a, w),
        (n, a + 1, a, w),
        (n, a, a + 1, w),
        (n + 1, a, a, w - 1),
        (n, a, a, w - 1),
        (n, a, a, w + 1),
        (n, a, a, 0),
    ];
    for (never, atom_never, output, work) in lent {
        let (never, atom_never) = (vec![0; never], vec![!0; atom_never]);
        for allowance in [0, 9] {
            let expected =
                paper::complete_within(words, &never, &atom_never, output, work, allowance);
            let answer = expected.answer.as_deref();
            let lengths = Lengths { output, work };
            let left = (allowance, expected.left);
            ours.within((&never, &atom_never), lengths, left, answer)?;
        }
    }
    ours.unchanged()
}
