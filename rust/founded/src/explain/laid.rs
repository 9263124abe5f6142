//! A program laid down as a theory: docs/RULES.md says what each part becomes.

use crate::rules::{Literal, Problem, Program, Span};
use crate::{
    AtomId, AtomMask, Chain, Error, GraphOf, Node, NodeId, NodeMask, ProducerId, Refusal, Theory,
    Word,
};

use super::Cuts;

/// A program's theory. State s is atom s, opaque condition c is node c, and rule r is producer r, whose body is a node of its own.
#[derive(Clone, Debug, Default)]
pub struct Laid {
    pub(crate) theory: Theory,
    /// The node that names each state, of those that some rule asks for.
    named: Vec<Option<NodeId>>,
    /// The body of each rule that has one.
    bodies: Vec<Option<NodeId>>,
}

/// A state's atom. The counts are within 32 bits: a theory has fewer.
pub fn atom(state: usize) -> AtomId {
    AtomId(state as u32)
}

impl Laid {
    /// # Errors
    /// More than a theory may have, told of the rule that is too many.
    pub fn of(program: &Program) -> Result<Self, Problem> {
        let mut laid = Self::default();
        for state in 0..program.states().len() {
            let added = laid.theory.add_atom();
            added.map_err(|error| told_of_rule(program, mentions(program, state), error))?;
            laid.named.push(None);
        }
        for _ in program.conditions() {
            let added = laid.theory.add_node(Node::Implies);
            added.map_err(|error| told_of_rule(program, None, error))?;
        }
        for rule in 0..program.rules().len() {
            let added = laid.rule(program, rule);
            added.map_err(|error| told_of_rule(program, Some(rule), error))?;
        }
        Ok(laid)
    }

    /// How many states there are.
    pub fn states(&self) -> usize {
        self.named.len()
    }

    /// The node that names a state.
    pub fn named(&mut self, state: usize) -> Result<NodeId, Error> {
        if let Some(node) = self.named[state] {
            return Ok(node);
        }
        let node = self.theory.add_node(Node::Atom(atom(state)))?;
        self.named[state] = Some(node);
        Ok(node)
    }

    fn rule(&mut self, program: &Program, number: usize) -> Result<(), Error> {
        let rule = &program.rules()[number];
        let mut leaves = Vec::with_capacity(rule.body().len());
        for &leaf in rule.body() {
            leaves.push(match leaf {
                Literal::State(state) => self.named(state)?,
                Literal::Condition(condition) => NodeId(condition as u32),
            });
        }
        let heads: Vec<AtomId> = rule.heads().iter().map(|&head| atom(head)).collect();
        let body = if leaves.is_empty() {
            self.theory.add_fact(&heads)?;
            None
        } else {
            let body = self.theory.add_node(Node::And(leaves))?;
            self.theory.add_producer(body, &heads)?;
            Some(body)
        };
        self.bodies.push(body);
        Ok(())
    }

    /// The nodes and the atoms that are cut.
    pub fn masks<W: Word>(
        &self,
        graph: &GraphOf<W>,
        cuts: &Cuts,
    ) -> Result<(NodeMask, AtomMask), Error> {
        let conditions = cuts.conditions.iter().map(|&one| NodeId(one as u32));
        let bodies = cuts.rules.iter().filter_map(|&rule| self.bodies[rule]);
        let nodes = NodeMask::of(graph, conditions.chain(bodies))?;
        let atoms = AtomMask::of(graph, cuts.states.iter().map(|&state| atom(state)))?;
        Ok((nodes, atoms))
    }

    /// What the calls or the theory refuse, told of the rule that it is about.
    pub fn told(&self, program: &Program, error: Error) -> Problem {
        let rule = match error {
            Error::Refused(refusal) => match refusal {
                Refusal::Producer(ProducerId(rule))
                | Refusal::Head(ProducerId(rule))
                | Refusal::ComesBack(Chain::Producer(ProducerId(rule))) => Some(rule as usize),
                Refusal::Node(node)
                | Refusal::Leaf(node)
                | Refusal::Absorbed(node)
                | Refusal::ComesBack(Chain::Node(node)) => self.asks_for(program, node),
                _ => None,
            },
            _ => None,
        };
        told_of_rule(program, rule, error)
    }

    /// The first rule whose body a node is, or that asks for what the node stands for.
    fn asks_for(&self, program: &Program, node: NodeId) -> Option<usize> {
        let body = self.bodies.iter().position(|&body| body == Some(node));
        let leaf = |leaf: &Literal| match *leaf {
            Literal::State(state) => self.named[state] == Some(node),
            Literal::Condition(condition) => condition == node.0 as usize,
        };
        let mut rules = program.rules().iter();
        body.or_else(|| rules.position(|rule| rule.body().iter().any(leaf)))
    }
}

/// The first rule that names a state.
fn mentions(program: &Program, state: usize) -> Option<usize> {
    let mut rules = program.rules().iter();
    rules.position(|rule| {
        rule.heads().contains(&state) || rule.body().contains(&Literal::State(state))
    })
}

/// A limit or a refusal in the words of rule files.
fn told_of_rule(program: &Program, rule: Option<usize>, error: Error) -> Problem {
    let said = match error {
        Error::TooMany { what, most } => {
            let what = match what {
                "atoms" => "states",
                "nodes" => "conditions and bodies",
                "producers" => "rules",
                "leaf entries" => "conditions in all bodies together",
                "head entries" => "heads of all rules together",
                other => other,
            };
            format!("expected at most {most} {what}, found more")
        }
        other => {
            format!("expected rules that the proved calls take, found what they refuse: {other}")
        }
    };
    let whole = Span {
        file: 0,
        start: 0,
        end: 0,
    };
    let span = rule
        .and_then(|rule| program.rules().get(rule))
        .map_or(whole, |rule| rule.span);
    Problem::new(span, said)
}
