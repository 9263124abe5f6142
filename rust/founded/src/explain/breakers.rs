//! Which of a part's states break it if they are given as a fact.

use std::collections::HashMap;

/// A rule within a part: how many different states of the part it waits for, and what it concludes. States count from 0 within the part.
struct Inner {
    waits: usize,
    heads: Vec<usize>,
}

/// A part's rules, by what they wait for.
pub struct Inside {
    states: usize,
    rules: Vec<Inner>,
    /// The rules that wait for each state.
    waiting: Vec<Vec<usize>>,
}

impl Inside {
    /// Of a part's states, and of the needs and the heads of each of its rules. A rule that needs a state of another part never concludes anything here: that part stays missing.
    pub fn of<'a>(
        states: &[usize],
        rules: impl Iterator<Item = (Vec<usize>, &'a [usize])>,
    ) -> Self {
        let own: HashMap<usize, usize> = states.iter().copied().zip(0..).collect();
        let mut inside = Self {
            states: states.len(),
            rules: Vec::new(),
            waiting: vec![Vec::new(); states.len()],
        };
        for (needs, heads) in rules {
            let needs: Option<Vec<usize>> =
                needs.iter().map(|need| own.get(need).copied()).collect();
            let Some(mut needs) = needs else { continue };
            needs.sort_unstable();
            needs.dedup();
            for &need in &needs {
                inside.waiting[need].push(inside.rules.len());
            }
            inside.rules.push(Inner {
                waits: needs.len(),
                heads: heads
                    .iter()
                    .filter_map(|head| own.get(head).copied())
                    .collect(),
            });
        }
        inside
    }

    /// Whether every state holds once this one does.
    fn breaks(&self, fact: usize) -> bool {
        let mut waits: Vec<usize> = self.rules.iter().map(|rule| rule.waits).collect();
        let mut holds = vec![false; self.states];
        let mut held = vec![fact];
        holds[fact] = true;
        let mut at = 0;
        while let Some(&state) = held.get(at) {
            at += 1;
            for &rule in &self.waiting[state] {
                waits[rule] -= 1;
                if waits[rule] > 0 {
                    continue;
                }
                for &head in &self.rules[rule].heads {
                    if !holds[head] {
                        holds[head] = true;
                        held.push(head);
                    }
                }
            }
        }
        held.len() == self.states
    }

    /// The states, each of which breaks the part alone; None if trying them all would take long.
    pub fn breakers(&self, states: &[usize]) -> Option<Vec<usize>> {
        const MOST: usize = 50_000_000;
        if self.states.saturating_mul(self.states + self.rules.len()) > MOST {
            return None;
        }
        let breaking = (0..self.states).filter(|&state| self.breaks(state));
        Some(breaking.map(|state| states[state]).collect())
    }
}
