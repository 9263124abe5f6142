//! The missing states parted into circles: strongly connected parts under the rules among them.

use crate::rules::{Program, Rule};

use super::breakers::Inside;
use super::{Cuts, strong};

/// A strongly connected part of the missing states: a circle, or a state that is on none.
#[derive(Clone, Debug, PartialEq, Eq)]
pub struct Part {
    pub(crate) states: Vec<usize>,
    pub(crate) rules: Vec<usize>,
    pub(crate) leaning: Vec<usize>,
    pub(crate) ruled_out: Vec<usize>,
    pub(crate) leans_on: Vec<usize>,
    pub(crate) breakers: Option<Vec<usize>>,
    pub(crate) falls: Option<Vec<usize>>,
}

impl Part {
    /// Its states, ascending.
    #[must_use]
    pub fn states(&self) -> &[usize] {
        &self.states
    }

    /// The rules by which its states hold each other up. There are none where a state is on no circle that the cuts leave.
    #[must_use]
    pub fn rules(&self) -> &[usize] {
        &self.rules
    }

    /// Whether it is a circle.
    #[must_use]
    pub fn is_circle(&self) -> bool {
        !self.rules.is_empty()
    }

    /// The rules that conclude one of its states from other parts alone.
    #[must_use]
    pub fn leaning(&self) -> &[usize] {
        &self.leaning
    }

    /// The rules that conclude one of its states and are ruled out.
    #[must_use]
    pub fn ruled_out(&self) -> &[usize] {
        &self.ruled_out
    }

    /// The parts that it leans on, by their numbers, which are below its own.
    #[must_use]
    pub fn leans_on(&self) -> &[usize] {
        &self.leans_on
    }

    /// Those of its states that break the whole part if they are given as a fact, one alone; None if that was not tried since the part is large.
    #[must_use]
    pub fn breakers(&self) -> Option<&[usize]> {
        self.breakers.as_deref()
    }

    /// What falls with it, besides its own states: what nothing produces any more until these are given as facts. None if it was not worked out.
    #[must_use]
    pub fn falls(&self) -> Option<&[usize]> {
        self.falls.as_deref()
    }
}

/// The missing states with the rules that the cuts leave.
pub struct Missing<'a> {
    program: &'a Program,
    /// Whether each state of the program is missing.
    missing: Vec<bool>,
    /// The rules that conclude each state, those that the cuts leave and those that they take.
    left: Vec<Vec<usize>>,
    taken: Vec<Vec<usize>>,
}

impl<'a> Missing<'a> {
    pub fn of(program: &'a Program, cuts: &Cuts, states: &[usize]) -> Self {
        let count = program.states().len();
        let mut this = Self {
            program,
            missing: vec![false; count],
            left: vec![Vec::new(); count],
            taken: vec![Vec::new(); count],
        };
        for &state in states {
            this.missing[state] = true;
        }
        for (number, rule) in program.rules().iter().enumerate() {
            let left = cuts.leaves(program, number);
            let by_head = if left {
                &mut this.left
            } else {
                &mut this.taken
            };
            for &head in rule.heads() {
                if this.missing[head] && by_head[head].last() != Some(&number) {
                    by_head[head].push(number);
                }
            }
        }
        this
    }

    fn rule(&self, number: usize) -> &'a Rule {
        &self.program.rules()[number]
    }

    /// The missing states that a rule asks for.
    fn needs(&self, number: usize) -> impl Iterator<Item = usize> {
        self.rule(number)
            .states()
            .filter(|&state| self.missing[state])
    }

    /// The missing states that a state's rules ask for.
    fn below(&self, state: usize) -> Vec<usize> {
        self.left[state]
            .iter()
            .flat_map(|&rule| self.needs(rule))
            .collect()
    }

    /// The parts, each after those that it leans on.
    pub fn parts(&self) -> Vec<Part> {
        let states = || (0..self.missing.len()).filter(|&state| self.missing[state]);
        let below = |state| self.below(state);
        let (part, count) = strong::parts(self.missing.len(), states(), below);
        let mut members = vec![Vec::new(); count];
        for (state, part) in states().filter_map(|state| Some((state, part[state]?))) {
            members[part].push(state);
        }
        let made = members.into_iter().enumerate();
        made.map(|(own, states)| self.part(own, states, &part))
            .collect()
    }

    fn part(&self, own: usize, states: Vec<usize>, part: &[Option<usize>]) -> Part {
        let all = |by_head: &[Vec<usize>]| {
            let mut rules: Vec<usize> = states
                .iter()
                .flat_map(|&state| by_head[state].clone())
                .collect();
            rules.sort_unstable();
            rules.dedup();
            rules
        };
        let (rules, leaning): (Vec<usize>, _) = all(&self.left)
            .into_iter()
            .partition(|&rule| self.needs(rule).any(|state| part[state] == Some(own)));
        let ruled_out = all(&self.taken);
        let mut leans_on: Vec<usize> = states
            .iter()
            .flat_map(|&state| self.below(state))
            .filter_map(|state| part[state])
            .filter(|&other| other != own)
            .collect();
        leans_on.sort_unstable();
        leans_on.dedup();
        let inner = rules
            .iter()
            .map(|&rule| (self.needs(rule).collect(), self.rule(rule).heads()));
        let breakers = Inside::of(&states, inner).breakers(&states);
        Part {
            states,
            rules,
            leaning,
            ruled_out,
            leans_on,
            breakers,
            falls: None,
        }
    }
}
