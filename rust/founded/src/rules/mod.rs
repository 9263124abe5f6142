//! Rule files as planners write them: the propositional part of clingo's language, and aspif, in which gringo writes any program that it can ground.
//! docs/RULES.md has the grammar and what each rule becomes.
//!
//! ```
//! use founded::rules;
//!
//! let program = rules::read([("heater.lp", "heater :- latch. latch :- heater.")])?;
//! assert_eq!(program.states(), ["heater", "latch"]);
//!
//! let wrong = rules::read([("heater.lp", "heater :- lacth.\nlatch :- heater.")]).unwrap_err();
//! assert_eq!(wrong.to_string(), "\
//! heater.lp:1:11: expected a state that a rule concludes or an #external, found `lacth`; did you mean `latch`?
//!     heater :- lacth.
//!               ^");
//! # Ok::<(), rules::Problems>(())
//! ```

mod aspif;
mod lexer;
pub(crate) mod near;
pub(crate) mod parser;
mod problem;
mod program;
mod source;
mod text;

pub use problem::{Problem, Problems};
pub use program::{Literal, Program, Rule};
pub use source::{Source, Span};

/// Rule files, each with the name by which its lines are told, read together as one program.
///
/// # Errors
/// What is wrong in them: texts that are no rules, names that nothing concludes, no rules at all.
pub fn read<N: AsRef<str>, T: AsRef<[u8]>>(
    files: impl IntoIterator<Item = (N, T)>,
) -> Result<Program, Problems> {
    let (mut sources, mut problems) = (Vec::new(), Vec::new());
    for (file, (name, bytes)) in files.into_iter().enumerate() {
        let bytes = bytes.as_ref();
        if let Err(error) = std::str::from_utf8(bytes) {
            let at = error.valid_up_to();
            let found = format!("expected text in UTF-8, found the byte 0x{:02x}", bytes[at]);
            // In the text that is kept a mark that stood before is left out.
            let start = at.saturating_sub(if bytes.starts_with(b"\xef\xbb\xbf") {
                3
            } else {
                0
            });
            let end = start;
            problems.push(Problem::new(Span { file, start, end }, found));
        }
        sources.push(Source::new(name.as_ref(), &String::from_utf8_lossy(bytes)));
    }
    if problems.is_empty() {
        read_sources(sources)
    } else {
        Err(Problems {
            sources,
            all: problems,
        })
    }
}

/// The first byte of a file, for what is wrong with all of it.
fn whole(file: usize) -> Span {
    let (start, end) = (0, 0);
    Span { file, start, end }
}

fn read_sources(sources: Vec<Source>) -> Result<Program, Problems> {
    let aspif = sources
        .iter()
        .position(|source| aspif::is_aspif(source.text()));
    let mut program = Program::new(sources);
    let problems = match aspif {
        Some(file) if program.sources.len() > 1 => {
            let said = "expected a rule file, found aspif: aspif is read by itself alone";
            vec![Problem::new(whole(file), said)]
        }
        Some(_) => aspif::read(&mut program),
        None => read_texts(&mut program),
    };
    if problems.is_empty() {
        Ok(program)
    } else {
        let sources = program.sources;
        Err(Problems {
            sources,
            all: problems,
        })
    }
}

fn read_texts(program: &mut Program) -> Vec<Problem> {
    let (mut statements, mut problems) = (Vec::new(), Vec::new());
    for (file, source) in program.sources.iter().enumerate() {
        let (read, wrong) = parser::parse(source, file);
        if read.is_empty() && wrong.is_empty() {
            problems.push(Problem::new(whole(file), "expected rules, found none"));
        }
        statements.extend(read);
        problems.extend(wrong);
    }
    if !problems.is_empty() {
        return problems;
    }
    let problems = text::resolve(program, &statements);
    if problems.is_empty() && program.states.is_empty() {
        let said = "expected a rule that concludes a state, found none";
        return vec![Problem::new(whole(0), said)];
    }
    problems
}
