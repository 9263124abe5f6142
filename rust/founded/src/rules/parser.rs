//! The propositional part of clingo's language: docs/RULES.md has the grammar.

use super::lexer::{Kind, Lexer, Token};
use super::{Problem, Source, Span};

/// A name as it is written in one way: `heater(2, a)` is `heater(2,a)`.
#[derive(Clone, Debug)]
pub struct Atom {
    pub name: String,
    pub span: Span,
}

/// A condition of a rule: an atom, or `not` and an atom.
#[derive(Clone, Debug)]
pub struct Literal {
    pub negated: bool,
    pub atom: Atom,
}

#[derive(Clone, Debug)]
pub struct Rule {
    /// Heads in braces.
    pub choice: bool,
    pub heads: Vec<Atom>,
    pub body: Vec<Literal>,
    pub span: Span,
}

/// What a rule file says, in its order.
#[derive(Clone, Debug)]
pub enum Statement {
    Rule(Rule),
    External(Atom),
}

/// Arguments within arguments are followed so deep.
const DEEPEST: usize = 100;

type Parsed<T> = Result<T, Problem>;

struct Parser<'a> {
    source: &'a Source,
    file: usize,
    lexer: Lexer<'a>,
    token: Token,
    /// Where the token before it ends.
    last: usize,
    problems: Vec<Problem>,
}

/// What clingo has and rule files have not, by the token that shows it.
fn beyond(text: &str, kind: Kind) -> Option<&'static str> {
    Some(match (kind, text) {
        (Kind::Variable, _) => "variables (a name begins with a small letter)",
        (Kind::Directive, "#sum" | "#sum'" | "#count" | "#min" | "#max") => "aggregates",
        (Kind::Directive, "#true" | "#false" | "#inf" | "#sup") => "constants such as #true",
        (Kind::Directive, _) => "directives but #external",
        (Kind::Not, _) => "`not` but once before a condition",
        (Kind::Mark, ":") => "conditions on atoms",
        (Kind::Mark, ":~") => "weak constraints",
        (Kind::Mark, "<" | ">" | "=" | "<=" | ">=" | "!=" | "==" | "!") => "comparisons",
        (Kind::Mark, "..") => "ranges",
        (Kind::Mark, "+" | "*" | "/" | "\\" | "**" | "?" | "^" | "~") => "arithmetic",
        (Kind::Mark, "-") => "strong negation and arithmetic",
        (Kind::Mark, "@") => "functions of scripts",
        (Kind::Mark, "&" | "$") => "theory atoms",
        (Kind::Mark, "[") => "annotations",
        _ => return None,
    })
}

impl<'a> Parser<'a> {
    fn new(source: &'a Source, file: usize) -> Self {
        let mut lexer = Lexer::new(source.text());
        let token = lexer.next();
        Self {
            source,
            file,
            lexer,
            token,
            last: 0,
            problems: Vec::new(),
        }
    }

    fn text(&self) -> &'a str {
        &self.source.text()[self.token.start..self.token.end]
    }

    fn span(&self, start: usize, end: usize) -> Span {
        let file = self.file;
        Span { file, start, end }
    }

    fn advance(&mut self) {
        self.last = self.token.end;
        self.token = self.lexer.next();
    }

    fn at_mark(&self, mark: &str) -> bool {
        self.token.kind == Kind::Mark && self.text() == mark
    }

    /// Takes a mark, if it is there.
    fn take(&mut self, mark: &str) -> bool {
        let there = self.at_mark(mark);
        if there {
            self.advance();
        }
        there
    }

    fn found(&self) -> String {
        let text = self.text();
        match self.token.kind {
            Kind::End => "the end of the file".to_owned(),
            Kind::Variable => format!("the variable `{text}`"),
            Kind::Number => format!("the number `{text}`"),
            Kind::Text => format!("the string {text}"),
            Kind::OpenText => {
                "a string that its line does not end (escapes are \\\\, \\\" and \\n)".to_owned()
            }
            Kind::OpenComment => "a comment that no `*%` ends".to_owned(),
            Kind::Unknown if text.chars().all(char::is_control) => "a control character".to_owned(),
            _ => format!("`{text}`"),
        }
    }

    /// The problem that something else is here than what was expected.
    fn expected(&self, what: &str) -> Problem {
        match beyond(self.text(), self.token.kind) {
            Some(beyond) => self.expected_not(what, beyond),
            None => self.expected_but(what, ""),
        }
    }

    /// The same, of something that clingo has and rule files have not.
    fn expected_not(&self, what: &str, beyond: &str) -> Problem {
        let mut problem = self.expected_but(what, &format!("; rule files have no {beyond}"));
        problem.beyond = true;
        problem
    }

    fn expected_but(&self, what: &str, more: &str) -> Problem {
        let found = self.found();
        let span = self.span(self.token.start, self.token.end);
        Problem::new(span, format!("expected {what}, found {found}{more}"))
    }

    /// A list's items up to the closing mark, parted by commas. A comma may end it if `open`.
    fn terms(&mut self, close: &str, open: bool, deep: usize) -> Parsed<(Vec<String>, bool)> {
        let mut terms = Vec::new();
        if self.take(close) {
            return Ok((terms, false));
        }
        loop {
            terms.push(self.term(deep)?);
            if self.take(close) {
                return Ok((terms, false));
            }
            if self.at_mark(";") {
                return Err(self.expected_not("`,` or `)`", "pools"));
            }
            if !self.take(",") {
                return Err(self.expected("`,` or `)`"));
            }
            if open && self.take(close) {
                return Ok((terms, true));
            }
        }
    }

    /// An argument.
    fn term(&mut self, deep: usize) -> Parsed<String> {
        if deep > DEEPEST {
            return Err(self.expected(&format!("arguments nested at most {DEEPEST} deep")));
        }
        let text = self.text();
        match self.token.kind {
            Kind::Number => self.number(""),
            Kind::Text => {
                self.advance();
                Ok(text.to_owned())
            }
            Kind::Name => self.name(deep),
            Kind::Mark if text == "-" => {
                self.advance();
                match self.token.kind {
                    Kind::Number => self.number("-"),
                    _ => Err(self.expected_not("a number after `-`", "arithmetic")),
                }
            }
            Kind::Mark if text == "(" => {
                self.advance();
                let (terms, open) = self.terms(")", true, deep + 1)?;
                Ok(match &terms[..] {
                    [one] if !open => one.clone(),
                    [one] => format!("({one},)"),
                    _ => format!("({})", terms.join(",")),
                })
            }
            _ => Err(self.expected("an argument")),
        }
    }

    fn number(&mut self, sign: &str) -> Parsed<String> {
        let text = self.text();
        if text.parse::<i32>().is_err() {
            return Err(self.expected("a number up to 2147483647"));
        }
        self.advance();
        Ok(match text {
            "0" => text.to_owned(),
            _ => format!("{sign}{text}"),
        })
    }

    /// A name with its arguments.
    fn name(&mut self, deep: usize) -> Parsed<String> {
        let name = self.text();
        self.advance();
        if !self.take("(") {
            return Ok(name.to_owned());
        }
        let (terms, _) = self.terms(")", false, deep + 1)?;
        Ok(match terms[..] {
            [] => name.to_owned(),
            _ => format!("{name}({})", terms.join(",")),
        })
    }

    fn atom(&mut self, what: &str) -> Parsed<Atom> {
        if self.token.kind != Kind::Name {
            return Err(self.expected(what));
        }
        let start = self.token.start;
        let name = self.name(0)?;
        let span = self.span(start, self.last);
        Ok(Atom { name, span })
    }

    fn literal(&mut self) -> Parsed<Literal> {
        let negated = self.token.kind == Kind::Not;
        if negated {
            self.advance();
        }
        if self.token.kind == Kind::Number || self.at_mark("{") {
            return Err(self.expected_not("a condition", "aggregates"));
        }
        let atom = self.atom("a condition")?;
        Ok(Literal { negated, atom })
    }

    /// The heads in braces, after the opening one.
    fn choice(&mut self) -> Parsed<Vec<Atom>> {
        let mut heads = Vec::new();
        if !self.at_mark("}") {
            heads.push(self.atom("a head")?);
            while self.take(";") {
                heads.push(self.atom("a head")?);
            }
        }
        if !self.take("}") {
            return Err(self.expected("`;` or `}`"));
        }
        if self.token.kind == Kind::Number || self.at_bound() {
            return Err(self.expected_not("`:-` or `.`", "choices with bounds"));
        }
        Ok(heads)
    }

    fn at_bound(&self) -> bool {
        ["<", ">", "=", "<=", ">=", "!=", "=="]
            .iter()
            .any(|mark| self.at_mark(mark))
    }

    fn heads(&mut self) -> Parsed<Vec<Atom>> {
        if self.token.kind == Kind::Number {
            return Err(self.expected_not("a rule", "choices with bounds"));
        }
        let mut heads = vec![self.atom("a rule")?];
        while self.take(";") || self.take("|") || self.take(",") {
            heads.push(self.atom("a head")?);
        }
        Ok(heads)
    }

    fn body(&mut self) -> Parsed<Vec<Literal>> {
        if self.at_mark(".") {
            return Ok(Vec::new());
        }
        let mut body = vec![self.literal()?];
        while self.take(",") || self.take(";") {
            body.push(self.literal()?);
        }
        Ok(body)
    }

    fn rule(&mut self) -> Parsed<Statement> {
        let start = self.token.start;
        let choice = self.take("{");
        let heads = if choice {
            self.choice()?
        } else if self.at_mark(":-") {
            Vec::new()
        } else {
            self.heads()?
        };
        let after = self.take(":-");
        let body = if after { self.body()? } else { Vec::new() };
        self.end(match (after, choice) {
            (true, _) => "`,` or `.`",
            (false, true) => "`:-` or `.`",
            (false, false) => "`;`, `:-` or `.`",
        })?;
        Ok(Statement::Rule(Rule {
            choice,
            heads,
            body,
            span: self.span(start, self.last),
        }))
    }

    /// A statement's full stop. Where a statement seems to begin on the next line, the parser goes on with that.
    fn end(&mut self, expected: &str) -> Parsed<()> {
        if self.take(".") {
            return Ok(());
        }
        let line = self.source.line(self.last.saturating_sub(1));
        let begins = matches!(self.token.kind, Kind::Name | Kind::Directive);
        if !begins || self.source.line(self.token.start) == line {
            return Err(self.expected(expected));
        }
        let more = format!("; line {line} ends without a full stop");
        let problem = self.expected_but(expected, &more);
        self.problems.push(problem);
        Ok(())
    }

    fn statement(&mut self) -> Parsed<Statement> {
        if self.token.kind != Kind::Directive || self.text() != "#external" {
            return self.rule();
        }
        self.advance();
        let atom = self.atom("a name")?;
        self.end("`.`")?;
        Ok(Statement::External(atom))
    }

    /// After a problem: on behind the next full stop.
    fn recover(&mut self) {
        while self.token.kind != Kind::End && !self.take(".") {
            self.advance();
        }
    }
}

/// The statements of a rule file, and what is wrong in it.
pub fn parse(source: &Source, file: usize) -> (Vec<Statement>, Vec<Problem>) {
    let mut parser = Parser::new(source, file);
    let mut statements = Vec::new();
    while parser.token.kind != Kind::End {
        match parser.statement() {
            Ok(statement) => statements.push(statement),
            Err(problem) => {
                parser.problems.push(problem);
                parser.recover();
            }
        }
    }
    (statements, parser.problems)
}

/// A condition that stands alone, as `not heater( 2 )`, in the way that its name is written here.
pub fn condition(text: &str) -> Option<String> {
    let source = Source::new("", text);
    let mut parser = Parser::new(&source, 0);
    let literal = parser.literal().ok()?;
    let ended = parser.token.kind == Kind::End;
    ended.then(|| shown(literal.negated, &literal.atom.name))
}

/// A condition's text.
pub fn shown(negated: bool, name: &str) -> String {
    let not = if negated { "not " } else { "" };
    format!("{not}{name}")
}
