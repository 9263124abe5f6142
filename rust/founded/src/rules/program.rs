//! Rules as the check takes them: states, opaque conditions and the rules over them.

use std::collections::{HashMap, HashSet};

use super::{Problem, Source, Span};

/// What a rule asks for: that a state holds, or an opaque condition, each by its number.
#[derive(Clone, Copy, Debug, PartialEq, Eq, Hash, PartialOrd, Ord)]
pub enum Literal {
    State(usize),
    Condition(usize),
}

/// If all of its body holds, its heads do. Without a body it is a fact, without heads a constraint.
#[derive(Clone, Debug, PartialEq, Eq)]
pub struct Rule {
    pub(crate) heads: Vec<usize>,
    /// Its heads stand in braces: each may hold.
    pub(crate) choice: bool,
    pub(crate) body: Vec<Literal>,
    pub(crate) span: Span,
}

impl Rule {
    /// The states that it concludes.
    #[must_use]
    pub fn heads(&self) -> &[usize] {
        &self.heads
    }

    /// What it asks for.
    #[must_use]
    pub fn body(&self) -> &[Literal] {
        &self.body
    }

    /// The states among what it asks for.
    pub(crate) fn states(&self) -> impl Iterator<Item = usize> {
        self.body.iter().filter_map(|&literal| match literal {
            Literal::State(state) => Some(state),
            Literal::Condition(_) => None,
        })
    }
}

/// Puts a name at the end of a list, and gives its number.
fn add(list: &mut Vec<String>, numbers: &mut HashMap<String, usize>, name: &str) -> usize {
    let number = list.len();
    list.push(name.to_owned());
    numbers.entry(name.to_owned()).or_insert(number);
    number
}

/// Rule files that were read together: what they name and what they say.
#[derive(Clone, Debug)]
pub struct Program {
    pub(crate) sources: Vec<Source>,
    pub(crate) states: Vec<String>,
    pub(crate) conditions: Vec<String>,
    pub(crate) rules: Vec<Rule>,
    state_numbers: HashMap<String, usize>,
    condition_numbers: HashMap<String, usize>,
    /// Of aspif: names of what always holds, which gringo has taken out of the rules.
    pub(crate) always: HashSet<String>,
    pub(crate) warnings: Vec<Problem>,
}

impl Program {
    pub(crate) fn new(sources: Vec<Source>) -> Self {
        Self {
            sources,
            states: Vec::new(),
            conditions: Vec::new(),
            rules: Vec::new(),
            state_numbers: HashMap::new(),
            condition_numbers: HashMap::new(),
            always: HashSet::new(),
            warnings: Vec::new(),
        }
    }

    /// The state of this name, a new one if there is none yet.
    pub(crate) fn state(&mut self, name: &str) -> usize {
        let known = self.state_numbers.get(name).copied();
        known.unwrap_or_else(|| self.new_state(name))
    }

    /// The opaque condition of this text, a new one if there is none yet.
    pub(crate) fn condition(&mut self, text: &str) -> usize {
        let known = self.condition_numbers.get(text).copied();
        known.unwrap_or_else(|| self.new_condition(text))
    }

    /// A new state. If another has its name, that is found by it.
    pub(crate) fn new_state(&mut self, name: &str) -> usize {
        add(&mut self.states, &mut self.state_numbers, name)
    }

    /// A new opaque condition. If another has its text, that is found by it.
    pub(crate) fn new_condition(&mut self, text: &str) -> usize {
        add(&mut self.conditions, &mut self.condition_numbers, text)
    }

    /// The state or the opaque condition of this text.
    #[must_use]
    pub fn named(&self, text: &str) -> Option<Literal> {
        let state = self.state_numbers.get(text).copied().map(Literal::State);
        state.or_else(|| {
            self.condition_numbers
                .get(text)
                .copied()
                .map(Literal::Condition)
        })
    }

    /// The files, in the order in which they were read.
    #[must_use]
    pub fn sources(&self) -> &[Source] {
        &self.sources
    }

    /// The states' names, by their numbers.
    #[must_use]
    pub fn states(&self) -> &[String] {
        &self.states
    }

    /// The opaque conditions' texts, by their numbers.
    #[must_use]
    pub fn conditions(&self) -> &[String] {
        &self.conditions
    }

    /// The rules, in their order.
    #[must_use]
    pub fn rules(&self) -> &[Rule] {
        &self.rules
    }

    /// What a state or a condition is called.
    #[must_use]
    pub fn text(&self, literal: Literal) -> &str {
        match literal {
            Literal::State(state) => &self.states[state],
            Literal::Condition(condition) => &self.conditions[condition],
        }
    }

    /// A rule's text, in one line.
    #[must_use]
    pub fn rule_text(&self, rule: &Rule) -> String {
        let heads: Vec<&str> = rule.heads.iter().map(|&head| &*self.states[head]).collect();
        let body: Vec<&str> = rule.body.iter().map(|&leaf| self.text(leaf)).collect();
        let mut text = heads.join("; ");
        if rule.choice {
            text = format!("{{ {text} }}");
        }
        if rule.heads.is_empty() && !rule.choice {
            text += ":-";
        } else if !body.is_empty() {
            text += " :-";
        }
        if !body.is_empty() {
            text = format!("{text} {}", body.join(", "));
        }
        text + "."
    }

    /// The file and the line where a rule begins.
    #[must_use]
    pub fn place(&self, rule: &Rule) -> (&str, usize) {
        let source = &self.sources[rule.span.file];
        (source.name(), source.line(rule.span.start))
    }

    /// `FILE:LINE` of a rule.
    #[must_use]
    pub fn line(&self, rule: &Rule) -> String {
        let (file, line) = self.place(rule);
        format!("{file}:{line}")
    }

    /// What is worth a look in the files and is no error, each with the line and a caret.
    pub fn warnings(&self) -> impl Iterator<Item = String> {
        let shown = |warning: &Problem| warning.shown(&self.sources, "warning: ");
        self.warnings.iter().map(shown)
    }

    /// The same, each in one line.
    pub(crate) fn warning_lines(&self) -> impl Iterator<Item = String> {
        let line = |warning: &Problem| warning.headline(&self.sources, "");
        self.warnings.iter().map(line)
    }

    /// The names that a cut may have meant.
    pub(crate) fn names(&self) -> impl Iterator<Item = &str> {
        self.states
            .iter()
            .chain(&self.conditions)
            .map(String::as_str)
    }
}
