//! The program `founded` as a user runs it, and random rule files.

#![allow(dead_code, reason = "each test takes what it needs")]

use std::io::Write;
use std::path::{Path, PathBuf};
use std::process::{Command, Stdio};

use crate::common::Rng;

/// The top of the repository.
pub fn top() -> PathBuf {
    Path::new(env!("CARGO_MANIFEST_DIR")).join("../..")
}

/// What a run printed, and how it ended.
#[derive(Debug, PartialEq, Eq)]
pub struct Ran {
    pub status: i32,
    pub stdout: String,
    pub stderr: String,
}

/// Runs the program in a directory.
pub fn run_in(directory: &Path, arguments: &[&str], stdin: &str) -> Ran {
    let mut child = Command::new(env!("CARGO_BIN_EXE_founded"))
        .args(arguments)
        .current_dir(directory)
        .stdin(Stdio::piped())
        .stdout(Stdio::piped())
        .stderr(Stdio::piped())
        .spawn()
        .expect("it starts");
    let mut input = child.stdin.take().expect("its input is a pipe");
    // It may end before it has read all.
    let _ = input.write_all(stdin.as_bytes());
    drop(input);
    let output = child.wait_with_output().expect("it ends");
    Ran {
        status: output.status.code().expect("it ends by itself"),
        stdout: String::from_utf8(output.stdout).expect("text"),
        stderr: String::from_utf8(output.stderr).expect("text"),
    }
}

/// Runs the program at the top of the repository.
pub fn run(arguments: &[&str], stdin: &str) -> Ran {
    run_in(&top(), arguments, stdin)
}

/// A path for a file that a test makes.
pub fn made(name: &str) -> PathBuf {
    Path::new(env!("CARGO_TARGET_TMPDIR")).join(name)
}

fn state(rng: &mut Rng, states: usize) -> String {
    match rng.below(states) {
        at if at % 4 == 3 => format!("p({at})"),
        at => format!("s{at}"),
    }
}

fn condition(rng: &mut Rng, states: usize) -> String {
    match rng.below(8) {
        0 => format!("e{}", rng.below(2)),
        1 => format!("not {}", state(rng, states)),
        2 => format!("not e{}", rng.below(2)),
        _ => state(rng, states),
    }
}

/// A rule file in which every name is known: up to `most` states and about twice as many rules, a rule a line.
pub fn rule_file(rng: &mut Rng, most: usize) -> String {
    let states = 1 + rng.below(most);
    let mut lines = vec!["#external e0.".to_owned(), "#external e1.".to_owned()];
    for _ in 0..rng.below(2 * states + 2) {
        let body: Vec<String> = (0..rng.below(3) + usize::from(rng.below(6) > 0))
            .map(|_| condition(rng, states))
            .collect();
        let body = match body.len() {
            0 => String::new(),
            _ => format!(" :- {}", body.join([", ", "; "][rng.below(2)])),
        };
        let heads: Vec<String> = (0..1 + rng.below(5) / 4)
            .map(|_| state(rng, states))
            .collect();
        lines.push(match rng.below(12) {
            0 => format!(":-{}.", body.trim_start_matches(" :-")),
            1 => format!("{{ {} }}{body}.", heads.join("; ")),
            _ => format!("{}{body}.", heads.join(" ; ")),
        });
    }
    // Each state has a rule, from itself where nothing else is to hold it up.
    for at in 0..states {
        let name = if at % 4 == 3 {
            format!("p({at})")
        } else {
            format!("s{at}")
        };
        let concluded = |line: &String| {
            line.split(":-").next().is_some_and(|heads| {
                heads
                    .split([';', '{', '}', '.'])
                    .any(|head| head.trim() == name)
            })
        };
        if !lines.iter().any(concluded) {
            lines.push(format!("{name} :- {}.", condition(rng, states)));
        }
    }
    lines.join("\n") + "\n"
}
