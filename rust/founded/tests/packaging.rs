//! The package as cargo takes it: before the archive is built, with a path that says nothing, and installed.

mod common;

use std::path::Path;
use std::process::{Command, Output};

use common::command::made;

/// cargo on this package, in a target directory of the test's own.
fn cargo(arguments: &[&str], archive: Option<&str>) -> (Output, String) {
    let mut command = Command::new(env!("CARGO"));
    command
        .args(arguments)
        .arg("--offline")
        .current_dir(env!("CARGO_MANIFEST_DIR"))
        .env("CARGO_TARGET_DIR", made("packaging"))
        .env_remove("FOUNDED_ARCHIVE");
    if let Some(archive) = archive {
        command.env("FOUNDED_ARCHIVE", archive);
    }
    let output = command.output().expect("cargo runs");
    let said = String::from_utf8_lossy(&output.stderr).into_owned();
    (output, said)
}

/// One after the other: they share the target directory.
#[test]
fn without_an_archive_and_installed() {
    for arguments in [&["check", "--lib", "--bins"][..], &["doc", "--no-deps"]] {
        let (output, said) = cargo(arguments, Some("/nowhere/libfounded_calls.a"));
        assert!(output.status.success(), "{said}");
        assert!(
            said.contains("no archive of the proved calls at /nowhere/libfounded_calls.a"),
            "{said}"
        );
    }

    let (output, said) = cargo(&["check"], Some("target/libfounded_calls.a"));
    assert!(!output.status.success());
    assert!(
        said.contains("FOUNDED_ARCHIVE is `target/libfounded_calls.a`, which begins at no root"),
        "{said}"
    );

    // Not in the release profile, which takes longer.
    let root = made("installed");
    let (output, said) = cargo(
        &[
            "install",
            "--path",
            ".",
            "--debug",
            "--root",
            &root.display().to_string(),
        ],
        None,
    );
    assert!(output.status.success(), "{said}");
    let version = Command::new(root.join("bin/founded"))
        .arg("--version")
        .output()
        .expect("it runs");
    assert_eq!(
        String::from_utf8_lossy(&version.stdout),
        concat!("founded ", env!("CARGO_PKG_VERSION"), "\n")
    );
    assert!(Path::new(env!("CARGO_BIN_EXE_founded")).exists());
}
