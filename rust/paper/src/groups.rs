//! "Unearned groups", in the words of demand 3, and the unfounded sets of Van
//! Gelder, Ross and Schlipf (1991), as request 6 reads them, by trying every set of
//! states.
//!
//! Closed chains are those of preparation. Marks and support play no part: the
//! chains are read from `Prepared::marked` only as "on a closed chain".

use crate::graph::Rule;
use crate::is_cut;
use crate::meaning::Prepared;

/// Whether the set of states is an unearned group under the cuts.
pub fn unearned(prepared: &Prepared<'_>, set: &[bool], never: &[u64], atom_never: &[u64]) -> bool {
    let graph = prepared.graph;
    let member = |a: &usize| set[*a];
    if (0..graph.atoms)
        .filter(member)
        .any(|a| is_cut(atom_never, a) || !prepared.marked[a])
    {
        return false;
    }
    // All members taken as false, every other state as true unless cut.
    let truth = graph.truth(&prepared.cone, never, |a| !set[a] && !is_cut(atom_never, a));
    let concluding = graph
        .rules
        .iter()
        .filter(|rule| rule.heads.iter().any(|head| set[*head]));
    concluding
        .into_iter()
        .all(|rule| rule.body.is_some_and(|body| !truth[body]))
}

/// Whether the set of states is unfounded: whatever concludes an uncut member has a
/// condition that is false once all members are taken as false. Cut states and cut
/// conditions are false, opaque conditions are true unless cut, and a fact has no
/// condition. Every other state is taken as true.
pub fn unfounded(prepared: &Prepared<'_>, set: &[bool], never: &[u64], atom_never: &[u64]) -> bool {
    let graph = prepared.graph;
    let cut = |a: usize| is_cut(atom_never, a);
    let truth = graph.truth(&prepared.cone, never, |a| !set[a] && !cut(a));
    let met = |rule: &&Rule| rule.body.is_none_or(|body| truth[body]);
    let mut heads = graph.rules.iter().filter(met).flat_map(|rule| &rule.heads);
    !heads.any(|&head| set[head] && !cut(head))
}

/// The union of all unearned groups. For small graphs only.
pub fn union_of_all(prepared: &Prepared<'_>, never: &[u64], atom_never: &[u64]) -> Vec<bool> {
    union(prepared, |set| unearned(prepared, set, never, atom_never))
}

/// The uncut part of the union of all unfounded sets. For small graphs only.
pub fn greatest_uncut(prepared: &Prepared<'_>, never: &[u64], atom_never: &[u64]) -> Vec<bool> {
    let mut greatest = union(prepared, |set| unfounded(prepared, set, never, atom_never));
    for (a, member) in greatest.iter_mut().enumerate() {
        *member &= !is_cut(atom_never, a);
    }
    greatest
}

/// The union of all sets of states that pass.
fn union(prepared: &Prepared<'_>, passes: impl Fn(&[bool]) -> bool) -> Vec<bool> {
    let atoms = prepared.graph.atoms;
    assert!(atoms <= 16, "every set of {atoms} states");
    let mut union = vec![false; atoms];
    for chosen in 0..1u32 << atoms {
        let set: Vec<bool> = (0..atoms).map(|a| chosen >> a & 1 == 1).collect();
        if passes(&set) {
            for (a, member) in set.iter().enumerate() {
                union[a] |= member;
            }
        }
    }
    union
}
