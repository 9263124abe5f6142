//! What is ruled out for a run: states, opaque conditions and rules' bodies.

use std::collections::BTreeSet;

use crate::rules::near::hint;
use crate::rules::{Literal, Program, Rule, parser};

/// States, conditions and rules by their numbers in a program.
#[derive(Clone, Debug, Default, PartialEq, Eq)]
pub struct Cuts {
    pub(crate) states: BTreeSet<usize>,
    pub(crate) conditions: BTreeSet<usize>,
    pub(crate) rules: BTreeSet<usize>,
}

/// Whether a file that was read is meant: by its whole name, or by its last part.
fn is_named(name: &str, given: &str) -> bool {
    name == given || name.rsplit('/').next() == Some(given)
}

/// `FILE:LINE` taken apart.
fn file_and_line(text: &str) -> Option<(&str, usize)> {
    let (file, line) = text.rsplit_once(':')?;
    Some((file, line.parse().ok()?))
}

impl Cuts {
    /// Rules out what the text names: a state, an external, `not x`, or the bodies of the rules on a line, as `FILE:LINE`.
    ///
    /// # Errors
    /// Why it names nothing that can be ruled out.
    pub fn rule_out(&mut self, program: &Program, text: &str) -> Result<(), String> {
        let text = text.trim();
        let written = || parser::condition(text).and_then(|text| program.named(&text));
        match program.named(text).or_else(written) {
            Some(Literal::State(state)) => {
                self.states.insert(state);
                return Ok(());
            }
            Some(Literal::Condition(condition)) => {
                self.conditions.insert(condition);
                return Ok(());
            }
            None => {}
        }
        match file_and_line(text) {
            Some((file, line)) => self.rule_out_line(program, file, line),
            None if program.always.contains(text) => Err(format!(
                "gringo has taken `{text}` out of the rules, since it always holds: rule it out in the program that was grounded"
            )),
            None => Err(format!(
                "no state, no #external and no `not` is called `{text}`{}",
                hint(text, program.names())
            )),
        }
    }

    fn rule_out_line(&mut self, program: &Program, file: &str, line: usize) -> Result<(), String> {
        let mut sources = program.sources().iter();
        let Some(at) = sources.position(|source| is_named(source.name(), file)) else {
            return Err(format!(
                "no file `{file}` was read, and no name is `{file}:{line}`"
            ));
        };
        let source = &program.sources()[at];
        let on_line = |rule: &Rule| {
            let last = source.line(rule.span.end.saturating_sub(1));
            rule.span.file == at && (source.line(rule.span.start)..=last).contains(&line)
        };
        let rules = program.rules().iter().enumerate();
        let rules: Vec<(usize, &Rule)> = rules.filter(|(_, rule)| on_line(rule)).collect();
        if rules.is_empty() {
            return Err(format!(
                "no rule stands on line {line} of {}",
                source.name()
            ));
        }
        let with_bodies = rules.iter().filter(|(_, rule)| !rule.body.is_empty());
        let with_bodies: Vec<usize> = with_bodies.map(|&(number, _)| number).collect();
        if with_bodies.is_empty() {
            let fact = program.rule_text(rules[0].1);
            return Err(format!(
                "line {line} of {} has no body that can be ruled out, it has the fact `{fact}`; a state is ruled out by its name",
                source.name()
            ));
        }
        self.rules.extend(with_bodies);
        Ok(())
    }

    /// Whether nothing is ruled out.
    #[must_use]
    pub fn is_empty(&self) -> bool {
        self.states.is_empty() && self.conditions.is_empty() && self.rules.is_empty()
    }

    /// What is ruled out of a rule, as it is told: its body by its line, or some of what it asks for by name.
    pub(crate) fn of_rule(&self, program: &Program, number: usize) -> Vec<String> {
        let rule = &program.rules()[number];
        if self.rules.contains(&number) {
            return vec![program.line(rule)];
        }
        let mut out = Vec::new();
        for &leaf in rule.body() {
            let text = program.text(leaf);
            if self.is_cut(leaf) && !out.iter().any(|told| told == text) {
                out.push(text.to_owned());
            }
        }
        out
    }

    fn is_cut(&self, leaf: Literal) -> bool {
        match leaf {
            Literal::State(state) => self.states.contains(&state),
            Literal::Condition(condition) => self.conditions.contains(&condition),
        }
    }

    /// Whether a rule is left: nothing is ruled out of it.
    pub(crate) fn leaves(&self, program: &Program, number: usize) -> bool {
        let body = program.rules()[number].body();
        !self.rules.contains(&number) && !body.iter().any(|&leaf| self.is_cut(leaf))
    }

    /// All that is ruled out, by name or by line.
    pub(crate) fn told(&self, program: &Program) -> Vec<String> {
        let states = self.states.iter().map(|&state| Literal::State(state));
        let conditions = self.conditions.iter().map(|&one| Literal::Condition(one));
        let names = states
            .chain(conditions)
            .map(|one| program.text(one).to_owned());
        let rules = self
            .rules
            .iter()
            .map(|&rule| program.line(&program.rules()[rule]));
        names.chain(rules).collect()
    }
}
