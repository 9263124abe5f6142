//! aspif, version 1.0.0: what `gringo --output=intermediate` writes. One statement a line, its fields parted by spaces.

use std::collections::{BTreeMap, HashMap, HashSet};
use std::ops::RangeInclusive;

use super::parser::shown;
use super::program::Rule;
use super::{Literal, Problem, Program, Span, whole};

/// Whether a file is aspif, by its first line.
pub fn is_aspif(text: &str) -> bool {
    text.strip_prefix("asp ")
        .is_some_and(|rest| rest.starts_with(|c: char| c.is_ascii_digit()))
}

/// A body's condition: an atom, or `not` an atom, or a weight body.
enum Leaf {
    Atom(i64),
    Not(i64),
    Weight,
}

struct Read {
    choice: bool,
    heads: Vec<i64>,
    body: Vec<Leaf>,
    span: Span,
}

#[derive(Default)]
struct Statements {
    rules: Vec<Read>,
    /// Each external with its place.
    externals: BTreeMap<i64, Span>,
    /// Names of atoms. If an atom has several the first counts.
    names: BTreeMap<i64, String>,
    /// Names of what holds without any condition.
    always: HashSet<String>,
    /// What is passed over: its name, how often, and where first.
    passed_over: BTreeMap<&'static str, (usize, Span)>,
}

type Parsed<T> = Result<T, Problem>;

/// The fields of a line.
struct Fields<'a> {
    text: &'a str,
    file: usize,
    at: usize,
    end: usize,
}

impl<'a> Fields<'a> {
    fn span(&self, start: usize) -> Span {
        let (file, end) = (self.file, self.at);
        Span { file, start, end }
    }

    fn rest(&self) -> &'a str {
        &self.text[self.at..self.end]
    }

    fn expected(&self, what: &str) -> Problem {
        let found = match self.rest().split(' ').next() {
            None | Some("") if self.rest().is_empty() => "the end of the line".to_owned(),
            field => format!("`{}`", field.unwrap_or_default()),
        };
        Problem::new(
            self.span(self.at),
            format!("expected {what}, found {found}"),
        )
    }

    /// The next field and the space behind it.
    fn number(&mut self, what: &str) -> Parsed<i64> {
        let rest = self.rest();
        let field = rest.split(' ').next().unwrap_or_default();
        let Ok(number) = field.parse::<i32>() else {
            return Err(self.expected(what));
        };
        self.at += field.len() + usize::from(field.len() < rest.len());
        Ok(number.into())
    }

    /// A number within bounds.
    fn within(&mut self, bounds: RangeInclusive<i64>, what: &str) -> Parsed<i64> {
        let start = self.at;
        let number = self.number(what)?;
        if bounds.contains(&number) {
            return Ok(number);
        }
        self.at = start;
        Err(self.expected(what))
    }

    fn atom(&mut self) -> Parsed<i64> {
        self.within(1..=i64::MAX, "an atom's number, from 1")
    }

    fn literal(&mut self) -> Parsed<i64> {
        let start = self.at;
        match self.number("a literal")? {
            0 => {
                self.at = start;
                Err(self.expected("a literal, which is not 0"))
            }
            literal => Ok(literal),
        }
    }

    /// A list with its length before it.
    fn list<T>(&mut self, item: impl Fn(&mut Self) -> Parsed<T>) -> Parsed<Vec<T>> {
        let length = self.within(0..=i64::MAX, "the length of a list")?;
        (0..length).map(|_| item(self)).collect()
    }

    /// A string with its length in bytes before it.
    fn string(&mut self) -> Parsed<&'a str> {
        let length = self.within(0..=i64::MAX, "the length of a string")?;
        let bytes = usize::try_from(length).unwrap_or(usize::MAX);
        let Some(string) = self.rest().get(..bytes) else {
            return Err(self.expected(&format!("a string of {length} bytes")));
        };
        self.at += bytes;
        if self.rest().starts_with(' ') {
            self.at += 1;
        }
        Ok(string)
    }

    fn finished(&self) -> Parsed<()> {
        if self.rest().is_empty() {
            Ok(())
        } else {
            Err(self.expected("the end of the line"))
        }
    }
}

impl Statements {
    fn rule(&mut self, fields: &mut Fields<'_>, start: usize) -> Parsed<()> {
        let choice = fields.within(0..=1, "0 for a rule or 1 for a choice")? == 1;
        let heads = fields.list(Fields::atom)?;
        let weights = fields.within(0..=1, "0 for a body or 1 for a weight body")? == 1;
        let body = if weights {
            fields.number("a lower bound")?;
            fields.list(|fields| Ok((fields.literal()?, fields.number("a weight")?)))?;
            vec![Leaf::Weight]
        } else {
            let leaf = |literal: i64| match literal {
                ..0 => Leaf::Not(-literal),
                _ => Leaf::Atom(literal),
            };
            let body = fields.list(Fields::literal)?;
            body.into_iter().map(leaf).collect()
        };
        self.rules.push(Read {
            choice,
            heads,
            body,
            span: fields.span(start),
        });
        Ok(())
    }

    fn output(&mut self, fields: &mut Fields<'_>) -> Parsed<()> {
        let name = fields.string()?;
        match fields.list(Fields::literal)?[..] {
            [] => {
                self.always.insert(name.to_owned());
            }
            [atom] if atom > 0 => {
                self.names.entry(atom).or_insert_with(|| name.to_owned());
            }
            _ => {}
        }
        Ok(())
    }

    fn external(&mut self, fields: &mut Fields<'_>, start: usize) -> Parsed<()> {
        let atom = fields.atom()?;
        let released = fields.within(0..=3, "an external's value, 0 to 3")? == 3;
        let span = fields.span(start);
        if released {
            self.pass_over("release of an external", span);
        } else {
            self.externals.entry(atom).or_insert(span);
        }
        Ok(())
    }

    fn pass_over(&mut self, what: &'static str, span: Span) {
        self.passed_over.entry(what).or_insert((0, span)).0 += 1;
    }

    /// A line's statement; whether it is the one that ends the file.
    fn statement(&mut self, fields: &mut Fields<'_>) -> Parsed<bool> {
        let start = fields.at;
        let number = fields.within(0..=10, "a statement's number, 0 to 10")?;
        match number {
            0 => {}
            1 => self.rule(fields, start)?,
            4 => self.output(fields)?,
            5 => self.external(fields, start)?,
            _ => {
                fields.at = fields.end;
                if let Some(what) = passed_over(number) {
                    self.pass_over(what, fields.span(start));
                }
            }
        }
        fields.finished()?;
        Ok(number == 0)
    }
}

/// What a statement of this number is, if it is passed over with a word; a comment is without one.
fn passed_over(number: i64) -> Option<&'static str> {
    Some(match number {
        2 => "#minimize statement",
        3 => "#project statement",
        6 => "assumption",
        7 => "#heuristic statement",
        8 => "#edge statement",
        9 => "theory statement",
        _ => return None,
    })
}

/// The lines, up to the one that ends the file.
fn statements(text: &str, file: usize) -> Result<Statements, Vec<Problem>> {
    let mut statements = Statements::default();
    let (mut problems, mut ended) = (Vec::new(), false);
    let mut at = 0;
    for (number, line) in text.split_inclusive('\n').enumerate() {
        let end = at + line.trim_end_matches(['\r', '\n']).len();
        let mut fields = Fields {
            text,
            file,
            at,
            end,
        };
        at += line.len();
        if number == 0 {
            if fields.rest() != "asp 1 0 0" {
                let found: String = fields.rest().chars().take(40).collect();
                let said = format!("expected aspif of one step, `asp 1 0 0`, found `{found}`");
                return Err(vec![Problem::new(fields.span(fields.at), said)]);
            }
        } else if ended {
            if fields.at < fields.end {
                problems.push(fields.expected("nothing after the `0` that ends aspif"));
                return Err(problems);
            }
        } else {
            match statements.statement(&mut fields) {
                Ok(end) => ended = end,
                Err(problem) => problems.push(problem),
            }
        }
    }
    if problems.is_empty() && !ended {
        let (start, end) = (text.len(), text.len());
        let said = "expected the `0` that ends aspif, found the end of the file";
        problems.push(Problem::new(Span { file, start, end }, said));
    }
    if problems.is_empty() {
        Ok(statements)
    } else {
        Err(problems)
    }
}

/// What each atom is called: by its output statement, unless another atom is called so, and else by its number.
struct Called {
    names: HashMap<i64, String>,
}

impl Called {
    fn of(names: BTreeMap<i64, String>) -> Self {
        let mut taken = HashSet::new();
        let given = names.into_iter().map(|(atom, name)| {
            let own = if taken.contains(&name) {
                format!("{name}#{atom}")
            } else {
                name
            };
            taken.insert(own.clone());
            (atom, own)
        });
        Self {
            names: given.collect(),
        }
    }

    fn name(&self, atom: i64) -> String {
        self.names
            .get(&atom)
            .cloned()
            .unwrap_or_else(|| format!("#{atom}"))
    }
}

/// Up to five names, and how many more.
fn some(names: &[String]) -> String {
    let shown: Vec<String> = names
        .iter()
        .take(5)
        .map(|name| format!("`{name}`"))
        .collect();
    let more = match names.len().saturating_sub(5) {
        0 => String::new(),
        more => format!(" and {more} more"),
    };
    shown.join(", ") + &more
}

/// The program under construction: atoms by their numbers, so that names, whatever they are, decide nothing.
struct Builder<'a> {
    program: &'a mut Program,
    called: Called,
    concluded: HashSet<i64>,
    externals: BTreeMap<i64, Span>,
    states: HashMap<i64, usize>,
    readings: HashMap<i64, usize>,
    negations: HashMap<i64, usize>,
    weights: usize,
    /// Atoms that are asked for and that nothing concludes, each with the first rule that does.
    nowhere: BTreeMap<i64, Span>,
}

impl Builder<'_> {
    fn is_reading(&self, atom: i64) -> bool {
        self.externals.contains_key(&atom) && !self.concluded.contains(&atom)
    }

    fn state(&mut self, atom: i64) -> usize {
        let new = || self.program.new_state(&self.called.name(atom));
        *self.states.entry(atom).or_insert_with(new)
    }

    /// An atom that is asked for, by a rule or an external.
    fn atom(&mut self, atom: i64) -> Literal {
        if !self.is_reading(atom) {
            return Literal::State(self.state(atom));
        }
        let new = || self.program.new_condition(&self.called.name(atom));
        Literal::Condition(*self.readings.entry(atom).or_insert_with(new))
    }

    fn negation(&mut self, atom: i64) -> usize {
        let new = || {
            self.program
                .new_condition(&shown(true, &self.called.name(atom)))
        };
        *self.negations.entry(atom).or_insert_with(new)
    }

    fn leaf(&mut self, leaf: &Leaf, rule: Span) -> Literal {
        match *leaf {
            Leaf::Atom(atom) => {
                if !self.is_reading(atom) && !self.concluded.contains(&atom) {
                    self.nowhere.entry(atom).or_insert(rule);
                }
                self.atom(atom)
            }
            Leaf::Not(atom) => Literal::Condition(self.negation(atom)),
            Leaf::Weight => {
                self.weights += 1;
                let text = format!("weight body {}", self.weights);
                Literal::Condition(self.program.new_condition(&text))
            }
        }
    }

    fn rule(&mut self, rule: &Read) {
        let heads = rule.heads.iter().map(|&head| self.state(head)).collect();
        let body = rule
            .body
            .iter()
            .map(|leaf| self.leaf(leaf, rule.span))
            .collect();
        self.program.rules.push(Rule {
            heads,
            choice: rule.choice,
            body,
            span: rule.span,
        });
    }

    /// One warning for all of these atoms.
    fn warn(&mut self, atoms: &BTreeMap<i64, Span>, said: impl Fn(&str) -> String) {
        if let Some(&span) = atoms.values().next() {
            let names: Vec<String> = atoms.keys().map(|&atom| self.called.name(atom)).collect();
            let problem = Problem::new(span, said(&some(&names)));
            self.program.warnings.push(problem);
        }
    }
}

/// Reads the program's one file, and gives what is wrong with it.
pub fn read(program: &mut Program) -> Vec<Problem> {
    let read = match statements(program.sources[0].text(), 0) {
        Ok(read) => read,
        Err(problems) => return problems,
    };
    if read.rules.iter().all(|rule| rule.heads.is_empty()) {
        let said = "expected aspif with a rule that concludes something, found none";
        return vec![Problem::new(whole(0), said)];
    }
    program.always = read.always;
    program.warnings.push(Problem::new(
        whole(0),
        "gringo leaves out what it sees can never hold, a circle that nothing enters too; docs/RULES.md says how to keep it",
    ));
    for (what, (count, span)) in read.passed_over {
        let more = match count {
            1 => String::new(),
            _ => format!(", and {} more", count - 1),
        };
        let problem = Problem::new(span, format!("{what} passed over{more}"));
        program.warnings.push(problem);
    }

    let heads = read.rules.iter().flat_map(|rule| &rule.heads);
    let concluded: HashSet<i64> = heads.copied().collect();
    let ruled = |(atom, _): &(&i64, &Span)| concluded.contains(atom);
    let ruled = read.externals.iter().filter(ruled);
    let ruled: BTreeMap<i64, Span> = ruled.map(|(&atom, &span)| (atom, span)).collect();
    let mut builder = Builder {
        program,
        called: Called::of(read.names),
        concluded,
        externals: read.externals,
        states: HashMap::new(),
        readings: HashMap::new(),
        negations: HashMap::new(),
        weights: 0,
        nowhere: BTreeMap::new(),
    };
    builder.warn(&ruled, |names| {
        format!("rules conclude externals, which are taken as states: {names}")
    });
    let externals: Vec<i64> = builder.externals.keys().copied().collect();
    for atom in externals {
        builder.atom(atom);
    }
    for rule in &read.rules {
        builder.rule(rule);
    }
    let nowhere = std::mem::take(&mut builder.nowhere);
    builder.warn(&nowhere, |names| {
        format!("no rule concludes {names}: what is on no loop counts as true")
    });
    Vec::new()
}
