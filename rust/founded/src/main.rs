//! The program `founded`.

use std::env;
use std::io::{IsTerminal, Write, stderr, stdin, stdout};
use std::process::ExitCode;

use founded::command::{Streams, run};

fn main() -> ExitCode {
    let arguments: Vec<_> = env::args_os().skip(1).collect();
    if arguments == ["check"] && stdin().is_terminal() {
        // Nobody is left to be told if this cannot be written.
        let _ = writeln!(
            stderr(),
            "founded: the rules are read from standard input, up to its end (Ctrl-D)"
        );
    }
    let status = run(
        arguments,
        Streams {
            stdin: &mut stdin().lock(),
            stdout: &mut stdout().lock(),
            stderr: &mut stderr().lock(),
        },
    );
    ExitCode::from(status)
}
