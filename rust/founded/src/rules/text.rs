//! The statements of rule files as a program: which name is a state, which is an opaque condition, and which is neither.

use std::collections::{HashMap, HashSet};

use super::near::hint;
use super::parser::{self, Atom, Statement, shown};
use super::program::Rule;
use super::{Literal, Problem, Problems, Program};

/// The statements' names by what they are, each with the place where it is first concluded or declared.
struct Names<'a> {
    concluded: HashMap<&'a str, &'a Atom>,
    external: HashMap<&'a str, &'a Atom>,
    /// The same names in their order.
    all: Vec<&'a str>,
}

impl<'a> Names<'a> {
    fn of(statements: &'a [Statement]) -> Self {
        let (mut concluded, mut external) = (HashMap::new(), HashMap::new());
        let mut all = Vec::new();
        let mut add = |names: &mut HashMap<&'a str, &'a Atom>, atom: &'a Atom| {
            all.push(&*atom.name);
            names.entry(&atom.name).or_insert(atom);
        };
        for statement in statements {
            match statement {
                Statement::Rule(rule) => {
                    rule.heads.iter().for_each(|head| add(&mut concluded, head))
                }
                Statement::External(atom) => add(&mut external, atom),
            }
        }
        Self {
            concluded,
            external,
            all,
        }
    }

    fn is_known(&self, name: &str) -> bool {
        self.concluded.contains_key(name) || self.external.contains_key(name)
    }

    /// What is to be said of a condition whose name is not known, with the nearest known name if that is asked for.
    fn unknown(&self, leaf: &parser::Literal, near: bool) -> Problem {
        let name = &leaf.atom.name;
        let known = self.all.iter().copied().filter(|_| near);
        let hint = hint(name, known);
        let said = if leaf.negated {
            format!(
                "no rule concludes `{name}` and no #external names it, `not {name}` counts as true{hint}"
            )
        } else {
            format!("expected a state that a rule concludes or an #external, found `{name}`{hint}")
        };
        Problem::new(leaf.atom.span, said)
    }
}

struct Resolver<'a> {
    names: Names<'a>,
    program: &'a mut Program,
    problems: Vec<Problem>,
    /// Conditions whose names are not known, and of which that has been said.
    told: HashSet<(bool, &'a str)>,
}

impl<'a> Resolver<'a> {
    fn external(&mut self, atom: &Atom) {
        let Some(head) = self.names.concluded.get(&*atom.name) else {
            self.program.condition(&atom.name);
            return;
        };
        let source = &self.program.sources[head.span.file];
        let said = format!(
            "expected an #external that no rule concludes, found `{}`, which the rule at {}:{} concludes",
            atom.name,
            source.name(),
            source.line(head.span.start)
        );
        self.problems.push(Problem::new(atom.span, said));
    }

    fn leaf(&mut self, leaf: &'a parser::Literal) -> Literal {
        let name = &*leaf.atom.name;
        if !self.names.is_known(name) && self.told.insert((leaf.negated, name)) {
            // Those that are not shown need no hint, which costs a look at all names.
            let said = self.problems.len() + self.program.warnings.len();
            let problem = self.names.unknown(leaf, said < 2 * Problems::SHOWN);
            if leaf.negated {
                self.program.warnings.push(problem);
            } else {
                self.problems.push(problem);
            }
        }
        if leaf.negated || self.names.external.contains_key(name) {
            Literal::Condition(self.program.condition(&shown(leaf.negated, name)))
        } else {
            Literal::State(self.program.state(name))
        }
    }

    fn rule(&mut self, rule: &'a parser::Rule) {
        let heads = rule.heads.iter().map(|head| self.program.state(&head.name));
        let heads = heads.collect();
        let body = rule.body.iter().map(|leaf| self.leaf(leaf)).collect();
        self.program.rules.push(Rule {
            heads,
            choice: rule.choice,
            body,
            span: rule.span,
        });
    }
}

/// Puts what the statements say into the program, and gives what is wrong with it.
pub fn resolve(program: &mut Program, statements: &[Statement]) -> Vec<Problem> {
    let mut resolver = Resolver {
        names: Names::of(statements),
        program,
        problems: Vec::new(),
        told: HashSet::new(),
    };
    for statement in statements {
        match statement {
            Statement::External(atom) => resolver.external(atom),
            Statement::Rule(rule) => resolver.rule(rule),
        }
    }
    resolver.problems
}
