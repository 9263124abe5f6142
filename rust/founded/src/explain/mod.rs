//! The missing states of rule files, and why each is missing.
//!
//! The loop test's answer and the list of the missing states are the proved calls'. What explains the list is plain code, which holds each part that it tells to the rules
//! before it gives it out: see [`Explanation::of`].

mod answer;
mod breakers;
mod cuts;
mod laid;
mod parts;
mod strong;
mod unfounded;
mod unproduced;

use std::collections::HashMap;
use std::fmt;

pub use cuts::Cuts;
pub use parts::Part;

use crate::rules::{Problem, Program, Source};
use crate::{AtomId, Error, GraphOf, Word};
use answer::Answer;
pub(crate) use answer::Either;
use laid::Laid;
use parts::Missing;

/// What the proved calls say of a program under some cuts, and the missing states explained.
#[derive(Clone, Debug)]
pub struct Explanation {
    /// The loop test's answer.
    pub loops: bool,
    /// The missing states, ascending.
    pub missing: Vec<usize>,
    /// The missing states in parts, each after those that it leans on.
    pub parts: Vec<Part>,
    /// The graph and the masks that the calls were given.
    pub(crate) words: Words,
}

/// A graph and masks for it, as words.
#[derive(Clone, Debug)]
pub(crate) struct Words {
    pub(crate) graph: Either,
    pub(crate) never: Vec<u64>,
    pub(crate) atom_never: Vec<u64>,
}

/// Why there is no explanation.
#[derive(Clone, Debug)]
pub enum Failure {
    /// The program has no room, or the calls refuse it.
    Refused(Problem),
    /// A part that does not hold to the rules: the states. It is a mistake of this crate.
    Mistaken(Vec<String>),
}

impl Failure {
    /// What happened, with the line of the program that it is about.
    #[must_use]
    pub fn shown(&self, sources: &[Source]) -> String {
        match self {
            Self::Refused(problem) => problem.shown(sources, ""),
            Self::Mistaken(states) => format!(
                "a part that was found does not hold to the rules, so nothing is told (a mistake in founded): {}",
                states.join(", ")
            ),
        }
    }
}

impl fmt::Display for Failure {
    fn fmt(&self, f: &mut fmt::Formatter<'_>) -> fmt::Result {
        match self {
            Self::Refused(problem) => f.write_str(&problem.said),
            Self::Mistaken(_) => f.write_str(&self.shown(&[])),
        }
    }
}

impl std::error::Error for Failure {}

/// What falls with each part is worked out while the graph's words times the parts are no more.
const MOST_WORDS: usize = 50_000_000;

impl Explanation {
    /// Runs the proved calls and explains what they say. Each part is told only if it is, together with the parts that it leans on, an unfounded set as docs/FORMAT.md defines it.
    ///
    /// # Errors
    /// The program has no room in any edition; or a part was found that does not hold to the rules.
    pub fn of(program: &Program, cuts: &Cuts) -> Result<Self, Failure> {
        let laid = Laid::of(program).map_err(Failure::Refused)?;
        let refused = |error: Error| Failure::Refused(laid.told(program, error));
        let graph = Either::of(&laid.theory).map_err(refused)?;
        let (answer, mut parts, masks) = match &graph {
            Either::Narrow(graph) => checked(program, cuts, &laid, graph),
            Either::Wide(graph) => checked(program, cuts, &laid, graph),
        }?;
        if graph.words().saturating_mul(parts.len()) <= MOST_WORDS {
            fill_falls(&mut parts, &laid, cuts);
        }
        Ok(Self {
            loops: answer.loops,
            missing: numbers(&answer.missing),
            parts,
            words: Words {
                graph,
                never: masks.0,
                atom_never: masks.1,
            },
        })
    }
}

/// The states that nothing produces, on a loop or not, ascending: every uncut state that is left unsupported where a state holds only if it is supported. The missing states are among
/// them. Where edition 1 has room for the rules, the list is the proved call's ([`Solver::unfounded`](crate::Solver::unfounded)). No such call takes wide graphs: for larger rules it is
/// the proved missing list of the same rules with `a :- a.` added for each state.
///
/// # Errors
/// The rules, or where they are large the rules with those that are added, have no room in any edition.
pub fn unproduced(program: &Program, cuts: &Cuts) -> Result<Vec<usize>, Failure> {
    let laid = Laid::of(program).map_err(Failure::Refused)?;
    let list = unproduced::list(&laid, cuts, &[]);
    list.map_err(|error| Failure::Refused(laid.told(program, error)))
}

fn numbers(atoms: &[AtomId]) -> Vec<usize> {
    atoms.iter().map(|atom| atom.0 as usize).collect()
}

type Checked = (Answer, Vec<Part>, (Vec<u64>, Vec<u64>));

/// The proved answer, and the parts of the missing list once each has been held to the rules.
fn checked<W: Word>(
    program: &Program,
    cuts: &Cuts,
    laid: &Laid,
    graph: &GraphOf<W>,
) -> Result<Checked, Failure> {
    let refused = |error: Error| Failure::Refused(laid.told(program, error));
    let masks = laid.masks(graph, cuts).map_err(refused)?;
    let answer = answer::answer(graph, &masks).map_err(refused)?;
    let parts = Missing::of(program, cuts, &numbers(&answer.missing)).parts();
    let rules = unfounded::Rules::of(graph, &answer.cyclic, &masks);
    if let Some(part) = mistaken(&parts, &rules) {
        let names = part
            .states
            .iter()
            .map(|&state| program.states()[state].clone());
        return Err(Failure::Mistaken(names.collect()));
    }
    let words = (masks.0.words().to_vec(), masks.1.words().to_vec());
    Ok((answer, parts, words))
}

/// The first part that is no unfounded set together with those that it leans on, and that they lean on in turn. Each of its states is held to the rules with its own part and those
/// that this leans on taken as false; those of the others have been, since they come before it.
fn mistaken<'a>(parts: &'a [Part], rules: &unfounded::Rules<'_>) -> Option<&'a Part> {
    let mut part_of = HashMap::new();
    for (number, part) in parts.iter().enumerate() {
        part_of.extend(part.states.iter().map(|&state| (laid::atom(state), number)));
        let set = |atom: AtomId| {
            let other = part_of.get(&atom);
            other
                .is_some_and(|other| *other == number || part.leans_on.binary_search(other).is_ok())
        };
        let mut states = part.states.iter();
        if !states.all(|&state| rules.may_be_in(laid::atom(state), &set)) {
            return Some(part);
        }
    }
    None
}

/// What falls with each part, where the rules have room with what [`unproduced::list`] adds.
fn fill_falls(parts: &mut [Part], laid: &Laid, cuts: &Cuts) {
    if parts.is_empty() {
        return;
    }
    let Ok(before) = unproduced::list(laid, cuts, &[]) else {
        return;
    };
    for part in parts {
        let Ok(after) = unproduced::list(laid, cuts, &part.states) else {
            return;
        };
        let is_in = |list: &[usize], state: &usize| list.binary_search(state).is_ok();
        let fallen = before.iter().copied();
        let fallen = fallen.filter(|state| !is_in(&after, state) && !is_in(&part.states, state));
        part.falls = Some(fallen.collect());
    }
}

#[cfg(test)]
mod tests {
    use super::*;
    use crate::{Chain, NodeId, ProducerId, Refusal, rules};

    /// What is told of the parts that a change makes of the right ones.
    fn told(text: &str, change: impl Fn(&mut Vec<Part>)) -> Option<Vec<usize>> {
        let program = rules::read([("r.lp", text)]).expect("a rule file");
        let cuts = Cuts::default();
        let laid = Laid::of(&program).expect("it has room");
        let graph = laid.theory.build().expect("it has room");
        let masks = laid.masks(&graph, &cuts).expect("there are no cuts");
        let answer = answer::answer(&graph, &masks).expect("it is accepted");
        let mut parts = Missing::of(&program, &cuts, &numbers(&answer.missing)).parts();
        change(&mut parts);
        let rules = unfounded::Rules::of(&graph, &answer.cyclic, &masks);
        mistaken(&parts, &rules).map(|part| part.states.clone())
    }

    #[test]
    fn a_mistaken_part_is_seen() {
        let two = "a :- a. b :- b. b :- a. c :- c. c. d :- a, c.";
        assert_eq!(told(two, |_| {}), None);
        // b leans on a, and that is left out.
        assert_eq!(told(two, |parts| parts[1].leans_on.clear()), Some(vec![1]));
        // c is a fact, and d is on no loop.
        assert_eq!(told(two, |parts| parts[0].states.push(2)), Some(vec![0, 2]));
        assert_eq!(told(two, |parts| parts[0].states.push(3)), Some(vec![0, 3]));
        // Half of a circle.
        let ring = "a :- b. b :- a.";
        assert_eq!(
            told(ring, |parts| parts[0].states.truncate(1)),
            Some(vec![0])
        );
    }

    #[test]
    fn a_refusal_is_told_by_its_line() {
        let text = "#external e.\na :- b, e.\nb.\nb :- a, not c.\n";
        let program = rules::read([("r.lp", text)]).expect("a rule file");
        let laid = Laid::of(&program).expect("it has room");
        let line = |error: Error| {
            let told = Failure::Refused(laid.told(&program, error)).shown(program.sources());
            let place = told.split(": ").next().unwrap_or_default();
            (place.to_owned(), told)
        };
        let refusals = [
            (Refusal::Head(ProducerId(1)), "r.lp:3:1"),
            (Refusal::Producer(ProducerId(2)), "r.lp:4:1"),
            (
                Refusal::ComesBack(Chain::Producer(ProducerId(0))),
                "r.lp:2:1",
            ),
            // Nodes: the externals and the `not`, the states as they are asked for, the bodies.
            (Refusal::Absorbed(NodeId(0)), "r.lp:2:1"),
            (Refusal::Absorbed(NodeId(1)), "r.lp:4:1"),
            (Refusal::Node(NodeId(2)), "r.lp:2:1"),
            (Refusal::Leaf(NodeId(3)), "r.lp:2:1"),
            (Refusal::Leaf(NodeId(4)), "r.lp:4:1"),
            (Refusal::ComesBack(Chain::Node(NodeId(5))), "r.lp:4:1"),
            (Refusal::Work, "r.lp:1:1"),
        ];
        for (refusal, place) in refusals {
            assert_eq!(line(Error::Refused(refusal)).0, place, "{refusal}");
        }
        assert_eq!(
            line(Error::Refused(Refusal::Head(ProducerId(1)))).1,
            "r.lp:3:1: expected rules that the proved calls take, found what they refuse: refused 8 1: a head not below A\n    b.\n    ^"
        );
        let many = Error::TooMany {
            what: "leaf entries",
            most: 9,
        };
        assert_eq!(
            line(many).1,
            "r.lp:1:1: expected at most 9 conditions in all bodies together, found more\n    #external e.\n    ^"
        );
    }
}
