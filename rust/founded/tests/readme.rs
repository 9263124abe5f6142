//! README's commands are run as they stand there, and print what stands below them. `GOLDEN=write cargo test --test readme` writes that anew.

mod common;

use std::env;
use std::fs;
use std::os::unix::fs::symlink;
use std::path::{Path, PathBuf};
use std::process::Command;

use common::command::{made, top};

/// A directory for the commands, in which examples and programs stand as in the repository.
fn directory(name: &str) -> PathBuf {
    let directory = made(name);
    let _ = fs::remove_dir_all(&directory);
    fs::create_dir_all(&directory).unwrap();
    for name in ["examples", "crates", "include", "target"] {
        symlink(
            top().canonicalize().unwrap().join(name),
            directory.join(name),
        )
        .unwrap();
    }
    directory
}

/// What a command prints, standard error with it.
fn printed(command: &str, directory: &Path) -> String {
    let program = Path::new(env!("CARGO_BIN_EXE_founded")).parent().unwrap();
    let path = format!("{}:{}", program.display(), env::var("PATH").unwrap());
    let output = Command::new("sh")
        .args(["-c", &format!("{{ {command}\n}} 2>&1")])
        .env("PATH", path)
        .current_dir(directory)
        .output()
        .unwrap();
    String::from_utf8(output.stdout).unwrap()
}

/// The page with what each command prints below it, and the other lines that stand as commands do.
fn run_all(page: &str, directory: &Path) -> (String, Vec<String>) {
    let (mut out, mut others) = (String::new(), Vec::new());
    let mut below_command = false;
    for line in page.lines() {
        if let Some(command) = line.strip_prefix("    $ ") {
            out += &format!("{line}\n");
            for line in printed(command, directory).lines() {
                out += format!("    {line}").trim_end();
                out.push('\n');
            }
            below_command = true;
        } else if line.starts_with("    ") || (below_command && line.is_empty()) {
            // A blank line ends a block only if no indented line follows; printed ones stand in `out` already.
            if !below_command {
                out += &format!("{line}\n");
                others.push(line.trim().to_owned());
            }
        } else {
            if below_command {
                out.push('\n');
            }
            below_command = false;
            out += &format!("{line}\n");
        }
    }
    (out, others)
}

const IN_C: &str = "cc -Iinclude examples/heater.c target/staticlib/libfounded_calls.a -o heater";

#[test]
fn commands() {
    let file = top().join("README.md");
    let page = fs::read_to_string(&file).unwrap();
    let directory = directory("readme");
    let (printed, others) = run_all(&page, &directory);
    if env::var_os("GOLDEN").is_some() {
        fs::write(&file, &printed).unwrap();
        fs::copy(directory.join("circle.svg"), top().join("docs/circle.svg")).unwrap();
    }
    assert_eq!(fs::read_to_string(&file).unwrap(), printed);
    let drawn = fs::read_to_string(directory.join("circle.svg")).unwrap();
    assert_eq!(
        drawn,
        fs::read_to_string(top().join("docs/circle.svg")).unwrap()
    );

    // Every other command is run by the gate or by another test, and what else stands so is what a program prints.
    let run_elsewhere = [
        "(cd crates/founded_support && rt run < stdin)",
        "loops yes",
        "missing 2 0 1",
        "tools/archive",
        "cargo install --offline --path rust/founded",
        IN_C,
        ".ci/run",
    ];
    for other in others {
        assert!(run_elsewhere.contains(&&*other), "no test runs `{other}`");
    }
}

#[test]
fn the_program_in_c() {
    let directory = directory("readme-c");
    let said = printed(&format!("{IN_C} && ./heater"), &directory);
    assert_eq!(said, "heater is missing\nlatch is missing\n");
}
