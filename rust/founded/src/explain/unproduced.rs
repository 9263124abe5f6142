//! States that nothing produces.

use super::laid::{Laid, atom};
use super::{Cuts, numbers};
use crate::{AtomId, Error, Graph, Solver, WideGraph};

/// The states that nothing produces, on a loop or not: request 6's list, every uncut state that is left unsupported where a state holds only if it is supported. These facts
/// are taken as given. In edition 1 it is the proved call's list; where that has no room, it is read off the proved missing list of edition 2.
///
/// # Errors
/// No edition has room for the rules.
pub fn list(laid: &Laid, cuts: &Cuts, facts: &[usize]) -> Result<Vec<usize>, Error> {
    let mut laid = laid.clone();
    if !facts.is_empty() {
        let facts: Vec<AtomId> = facts.iter().map(|&state| atom(state)).collect();
        laid.theory.add_fact(&facts)?;
    }
    let list = match laid.theory.build() {
        Ok(graph) => by_call(&laid, &graph, cuts),
        Err(Error::TooMany { .. }) => {
            let graph = with_loops(&mut laid)?;
            by_missing_list(&laid, &graph, cuts)
        }
        Err(error) => Err(error),
    };
    list.map(|atoms| numbers(&atoms))
}

fn by_call(laid: &Laid, graph: &Graph, cuts: &Cuts) -> Result<Vec<AtomId>, Error> {
    let (never, atom_never) = laid.masks(graph, cuts)?;
    let mut solver = Solver::new();
    let list = solver.unfounded(graph, &never, &atom_never)?;
    Ok(list.iter().collect())
}

/// The rules with one more for each state, from itself: `a :- a.` No call gives request 6's list of a wide graph. By these rules every state is on a loop, so that the missing list leaves
/// out none for being on no loop and a state holds only if it is supported; and they support nothing, since what they conclude must hold already. So the missing list is request 6's.
fn with_loops(laid: &mut Laid) -> Result<WideGraph, Error> {
    for state in 0..laid.states() {
        let itself = laid.named(state)?;
        laid.theory.add_producer(itself, &[atom(state)])?;
    }
    laid.theory.build_wide()
}

fn by_missing_list(laid: &Laid, graph: &WideGraph, cuts: &Cuts) -> Result<Vec<AtomId>, Error> {
    let (never, atom_never) = laid.masks(graph, cuts)?;
    let mut solver = Solver::new();
    let missing = solver.complete(graph, &never, &atom_never)?;
    Ok(missing.iter().collect())
}
