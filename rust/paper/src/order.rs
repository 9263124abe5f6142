//! Request 14 of document 02: one order for rule files.

use std::cmp::Ordering;

use crate::Word;
use crate::table::{Parts, Refusal, check};

/// The order of two graphs: the first's refusal, or where that is accepted the
/// second's.
///
/// # Errors
/// As [`check`] turns the words away.
pub fn compare<W: Word>(words: &[W], other: &[W]) -> Result<Ordering, Refusal> {
    check(words)?;
    check(other)?;
    Ok(by_content(words, other))
}

/// A, N and P, then condition by condition, then rule by rule.
fn by_content<W: Word>(words: &[W], other: &[W]) -> Ordering {
    let (x, y) = (Parts::of(words), Parts::of(other));
    let counts = [(x.a, y.a), (x.n, y.n), (x.p, y.p)];
    for (here, there) in counts {
        if here != there {
            return numbers(here, there);
        }
    }
    for c in 0..x.n {
        let ([kind, operand, _], [other_kind, other_operand, _]) = (x.condition(c), y.condition(c));
        if kind != other_kind {
            return numbers(kind, other_kind);
        }
        if operand != other_operand {
            return numbers(operand, other_operand);
        }
        let found = lists(
            &x.leaves(c).collect::<Vec<_>>(),
            &y.leaves(c).collect::<Vec<_>>(),
        );
        if found != Ordering::Equal {
            return found;
        }
    }
    for r in 0..x.p {
        let ([body, _], [other_body, _]) = (x.rule(r), y.rule(r));
        if body != other_body {
            return numbers(body, other_body);
        }
        let found = lists(
            &x.heads(r).collect::<Vec<_>>(),
            &y.heads(r).collect::<Vec<_>>(),
        );
        if found != Ordering::Equal {
            return found;
        }
    }
    Ordering::Equal
}

fn numbers(here: usize, there: usize) -> Ordering {
    if here < there {
        Ordering::Less
    } else if here > there {
        Ordering::Greater
    } else {
        Ordering::Equal
    }
}

/// By first difference, a shorter beginning first.
fn lists(here: &[usize], there: &[usize]) -> Ordering {
    let mut at = 0;
    loop {
        match (at < here.len(), at < there.len()) {
            (false, false) => return Ordering::Equal,
            (false, true) => return Ordering::Less,
            (true, false) => return Ordering::Greater,
            (true, true) if here[at] != there[at] => return numbers(here[at], there[at]),
            (true, true) => at += 1,
        }
    }
}
