//! Stand-in for the original's `explanations.rs`, which is left out. It only
//! reads what the parent module keeps to itself: the cyclic atoms, and what the
//! later passes of a scratch go by.

use super::{Failure, Initial, Meter, Narrower, Producers, Quota, Scratch, Theory};
use crate::regions::{Projected, Role, all_rows};

pub(in crate::regions) fn cyclic_atoms<Q: Quota + ?Sized>(
    theory: &Theory,
    index: &Narrower,
    producers: &Producers,
    work: &mut Meter<'_, Q>,
) -> Result<Vec<u64>, Failure<Q::Error>> {
    let mut scratch = Scratch::default();
    scratch.prepare_cone(theory, index, producers, false, work)?;
    scratch.prepare_components(theory, index, producers, work)?;
    Ok(scratch.cyclic_atoms.to_vec())
}

/// None before the second pass of a scratch.
pub(in crate::regions) fn projected(scratch: &Scratch) -> Option<Projected> {
    let plan = scratch.projected.as_ref()?;
    let role = |initial: &Initial| match *initial {
        Initial::Inactive => Role::Inactive,
        Initial::Awaiting(count) => Role::Awaiting(count),
        Initial::True => Role::True,
        Initial::Boundary(atom) => Role::Boundary(atom),
    };
    Some(Projected {
        parents: all_rows(&plan.parents),
        heads: all_rows(&plan.heads),
        body_nodes: scratch.body_nodes.clone(),
        initial: plan.initial.iter().map(role).collect(),
        seed_start: plan.seed_start,
    })
}
