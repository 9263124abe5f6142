//! The program `founded`, but for its process: arguments and standard input in, standard output, standard error and status out.

mod arrows;
mod curves;
mod dot;
mod json;
mod layout;
mod options;
mod svg;
mod text;
mod words;

use std::ffi::{OsStr, OsString};
use std::fs;
use std::io::{self, Read, Write};

use crate::explain::{self, Cuts, Either, Explanation, Failure};
use crate::rules::{self, Problems, Program};
use options::{Asked, Form, Options};

/// Nothing is missing.
const CLEAN: u8 = 0;
/// Something is missing, or unproduced where that is asked for.
const MISSING: u8 = 1;
/// No rule files, or refused.
const REFUSED: u8 = 2;

/// A finished check, for those that print it.
struct Report<'a> {
    program: &'a Program,
    cuts: &'a Cuts,
    explanation: &'a Explanation,
    /// What nothing produces, where `--unproduced` asks for it.
    unproduced: Option<Vec<usize>>,
    /// What `--words` says of the file that it wrote.
    words: Option<String>,
}

impl Report<'_> {
    /// Whether the proved calls were those of edition 1.
    fn is_narrow(&self) -> bool {
        matches!(self.explanation.words.graph, Either::Narrow(_))
    }
}

/// Where the program reads and writes.
pub struct Streams<'a> {
    pub stdin: &'a mut dyn Read,
    pub stdout: &'a mut dyn Write,
    pub stderr: &'a mut dyn Write,
}

/// Runs the program and gives its exit status.
pub fn run(arguments: impl IntoIterator<Item = OsString>, mut streams: Streams<'_>) -> u8 {
    let answered = answered(arguments, &mut streams);
    let (status, stop) = match answered {
        Ok(status) => (status, None),
        Err(stop) => (REFUSED, Some(stop)),
    };
    if let Some(stop) = stop {
        // Nobody is left to be told if this cannot be written.
        let _ = writeln!(streams.stderr, "{stop}");
    }
    status
}

fn answered(
    arguments: impl IntoIterator<Item = OsString>,
    streams: &mut Streams<'_>,
) -> Result<u8, String> {
    let asked = options::asked(arguments)
        .map_err(|wrong| format!("founded: {wrong}; `founded --help` says what there is"))?;
    let version = concat!("founded ", env!("CARGO_PKG_VERSION"), "\n");
    match asked {
        Asked::Check(options) => check(&options, streams),
        Asked::Help => print(streams, options::HELP).map(|()| CLEAN),
        Asked::Version => print(streams, version).map(|()| CLEAN),
    }
}

fn print(streams: &mut Streams<'_>, text: &str) -> Result<(), String> {
    let written = streams.stdout.write_all(text.as_bytes());
    let written = written.and_then(|()| streams.stdout.flush());
    match written {
        // Who reads it has seen enough.
        Err(error) if error.kind() == io::ErrorKind::BrokenPipe => Ok(()),
        written => written.map_err(|error| format!("founded: standard output: {}", told(&error))),
    }
}

fn check(options: &Options, streams: &mut Streams<'_>) -> Result<u8, String> {
    let files = files(options, streams.stdin)?;
    let program = rules::read(files).map_err(|problems| problems.to_string())?;
    warn(&program, streams);
    let mut cuts = Cuts::default();
    for cut in &options.cuts {
        let ruled_out = cuts.rule_out(&program, cut);
        ruled_out.map_err(|wrong| format!("founded: --cut '{cut}': {wrong}"))?;
    }
    let explanation =
        Explanation::of(&program, &cuts).map_err(|failure| failure.shown(program.sources()))?;
    let mut report = Report {
        program: &program,
        cuts: &cuts,
        explanation: &explanation,
        unproduced: None,
        words: None,
    };
    if options.unproduced {
        let list = explain::unproduced(&program, &cuts).map_err(|failure| no_room(&failure))?;
        report.unproduced = Some(list);
    }
    if let Some(file) = &options.words {
        let bytes =
            words::bytes(&explanation).map_err(|wrong| format!("founded: --words: {wrong}"))?;
        write(file, &bytes)?;
        report.words = Some(words::told(&report, &file.to_string_lossy()));
    }
    if let Some(file) = &options.svg {
        write(file, svg::drawn(&report).as_bytes())?;
    }
    let text = match options.form {
        Form::Text => text::told(&report),
        Form::Json => json::told(&report),
        Form::Dot => dot::told(&report),
    };
    print(streams, &text)?;
    let unproduced = report.unproduced.iter().flatten();
    let clean = explanation.missing.iter().chain(unproduced).count() == 0;
    Ok(if clean { CLEAN } else { MISSING })
}

/// Rules that have room without those that the list of what nothing produces adds to large ones.
fn no_room(failure: &Failure) -> String {
    format!("founded: --unproduced: with `a :- a` added for each state a: {failure}")
}

/// The warnings, the first of them if there are many.
fn warn(program: &Program, streams: &mut Streams<'_>) {
    let mut warnings = program.warnings();
    for warning in warnings.by_ref().take(Problems::SHOWN) {
        let _ = writeln!(streams.stderr, "{warning}");
    }
    match warnings.count() {
        0 => {}
        more => {
            let _ = writeln!(streams.stderr, "and {more} more warnings");
        }
    }
}

/// The names and the bytes of the files that are asked for; `-` is standard input.
fn files(options: &Options, stdin: &mut dyn Read) -> Result<Vec<(String, Vec<u8>)>, String> {
    let mut files = options.files.clone();
    if files.is_empty() {
        files.push("-".into());
    }
    if files.iter().filter(|file| *file == "-").count() > 1 {
        return Err("founded: standard input is read but once".to_owned());
    }
    let mut read = |file: &OsStr| {
        let mut bytes = Vec::new();
        match file.to_str() {
            Some("-") => stdin.read_to_end(&mut bytes).map(|_| bytes),
            _ => fs::read(file),
        }
    };
    let named = |file: &OsString| {
        let name = file.to_string_lossy();
        let bytes = read(file).map_err(|error| format!("founded: {name}: {}", told(&error)))?;
        Ok((name.into_owned(), bytes))
    };
    files.iter().map(named).collect()
}

fn write(file: &OsStr, bytes: &[u8]) -> Result<(), String> {
    let name = file.to_string_lossy();
    fs::write(file, bytes).map_err(|error| format!("founded: {name}: {}", told(&error)))
}

/// An error of the system in its words, without its number.
fn told(error: &io::Error) -> String {
    let text = error.to_string();
    text.split(" (os error")
        .next()
        .unwrap_or_default()
        .to_owned()
}
