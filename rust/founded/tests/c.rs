//! C programs over the header and the archive.

use std::ffi::OsStr;
use std::fs;
use std::path::{Path, PathBuf};
use std::process::{Command, Output};

/// A C compiler on these files, with every warning an error. cc is what rustc itself links with.
fn compiler(name: &str, arguments: impl IntoIterator<Item = impl AsRef<OsStr>>) -> Output {
    Command::new(name)
        .args(["-Wall", "-Wextra", "-Wpedantic", "-Werror", "-I"])
        .arg(Path::new(env!("CARGO_MANIFEST_DIR")).join("../../include"))
        .args(arguments)
        .output()
        .unwrap_or_else(|error| panic!("{name} does not run: {error}"))
}

fn ran(output: &Output) -> String {
    let said = |bytes| String::from_utf8_lossy(bytes).into_owned();
    assert!(output.status.success(), "{}", said(&output.stderr));
    said(&output.stdout)
}

/// A path for a file that a test makes.
fn made(name: &str) -> PathBuf {
    Path::new(env!("CARGO_TARGET_TMPDIR")).join(name)
}

/// What tests/c/NAME.c prints.
fn printed(name: &str) -> String {
    printed_by(&format!("tests/c/{name}.c"), name)
}

/// What a C file's program prints.
fn printed_by(source: &str, name: &str) -> String {
    let source = Path::new(env!("CARGO_MANIFEST_DIR")).join(source);
    let program = made(name);
    let [source, program] = [source.as_os_str(), program.as_os_str()];
    for standard in ["-std=c99", "-std=c11"] {
        let linked = OsStr::new(env!("FOUNDED_LINKED"));
        let arguments = [standard.as_ref(), "-o".as_ref(), program, source, linked];
        ran(&compiler("cc", arguments));
    }
    ran(&Command::new(program).output().expect("it runs"))
}

#[test]
fn heater() {
    let said = "check: 0 0
short: 3 0
loops 1
cyclic 0 3
missing 0 3
with a fact 0 0
heater cut 0 2
empty masks 0 3
long mask: 10 0
short work area: 11 0
absorbed: 12 1
comes back: 14 1
";
    assert_eq!(printed("heater"), said);
}

#[test]
fn example() {
    let said = printed_by("../../examples/heater.c", "heater-example");
    assert_eq!(said, "heater is missing\nlatch is missing\n");
}

#[test]
fn branch() {
    let said = "lists 0: 0 2 2
lists 0: 2 0 0
no pair: 13 0
65 pairs: 13 0
masks of one pair: 10 0
a lone pass's work area: 11 0
absorbed: 12 1
64 pairs of a graph without atoms: 0 0
65 pairs of it: 13 0
";
    assert_eq!(printed("branch"), said);
}

#[test]
fn wide() {
    let said = "work area 120 140, refused 0
check: 0 0
short: 3 0
loops 1
cyclic 0 3
missing 0 3
empty masks 0 3
long mask: 10 0
short work area: 11 0
with a fact 0 0
heater cut 0 2
absorbed: 12 1
ring: 0 0
missing 100000 with 5200016 words
ring: 6 100000
missing 0 with 0 words
ring: 14 99999
missing 0 with 0 words
";
    assert_eq!(printed("wide"), said);
}

#[test]
fn order() {
    let said = "none < heads 0 1 = heads 0 1 < one
0 -1 1
comes back: 14 0
";
    assert_eq!(printed("compare"), said);
}

#[test]
fn within() {
    let said = "ten: done 0, output 0, left 1
nine: done 0, output 0, left 0
eight: too little 0, output 77, left 0
nothing: too little 0, output 77, left 0
most: done 0, output 0, left 18446744073709551606
heater cut: done 0, output 2, left 4
absorbed: refused 1, output 77, left 0
";
    assert_eq!(printed("within"), said);
}

/// Whether a C or C++ function that gives this value compiles.
fn compiles(compiler_name: &str, file: &str, value: &str) -> bool {
    let path = made(file);
    let text = format!(
        "#include \"founded.h\"
uint32_t f(uint32_t code, uint64_t wide);
uint32_t f(uint32_t code, uint64_t wide) {{ (void)code; (void)wide; return {value}; }}
"
    );
    fs::write(&path, text).expect("the file is written");
    let arguments = ["-fsyntax-only".as_ref(), path.as_os_str()];
    compiler(compiler_name, arguments).status.success()
}

/// Each macro takes a code of its own width alone.
fn macros(compiler: &str, file: &str) {
    for (narrow, wide) in [
        ("FOUNDED_NUMBER", "FOUNDED_WIDE_NUMBER"),
        ("FOUNDED_PLACE", "FOUNDED_WIDE_PLACE"),
    ] {
        let compiles =
            |name: &str, code: &str| compiles(compiler, file, &format!("{name}({code})"));
        assert!(compiles(narrow, "code") && compiles(wide, "wide"));
        assert!(!compiles(narrow, "wide") && !compiles(wide, "code"));
        let (code, wide_code) = ("founded_check(0, 0)", "founded_wide_check(0, 0)");
        assert!(compiles(narrow, code) && compiles(wide, wide_code));
        assert!(!compiles(narrow, wide_code) && !compiles(wide, code));
    }
}

#[test]
fn a_code_of_the_other_width_does_not_compile() {
    macros("cc", "macros.c");
    let compiles = |code| {
        compiles(
            "cc",
            "macros.c",
            &format!("(uint32_t)FOUNDED_ORDER({code})"),
        )
    };
    assert!(compiles("founded_compare(0, 0, 0, 0)") && !compiles("wide"));
}

#[test]
fn nor_in_cpp() {
    // not everyone who has cc has this
    match Command::new("c++").arg("--version").output() {
        Ok(_) => macros("c++", "macros.cpp"),
        Err(_) => eprintln!("no c++: the header is not tried there"),
    }
}
