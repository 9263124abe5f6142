//! The archive, the header and `raw` have the same functions.

use std::collections::BTreeSet;
use std::process::Command;

/// Those of these texts that begin with a name of ours: the names.
fn names<'a>(texts: impl Iterator<Item = &'a str>) -> BTreeSet<&'a str> {
    let other = |c: char| !c.is_ascii_alphanumeric() && c != '_';
    texts
        .filter_map(|text| text.split(other).next())
        .filter(|name| name.starts_with("founded_"))
        .collect()
}

/// C without its comments.
fn code(header: &str) -> String {
    let mut parts = header.split("/*");
    let first = parts.next().unwrap_or_default();
    let after = parts.filter_map(|part| Some(part.split_once("*/")?.1));
    [first].into_iter().chain(after).collect()
}

#[test]
fn of_archive_header_and_binding() {
    // nm comes with the linker that rustc calls
    let listed = Command::new("nm")
        .args(["-g", "--defined-only", env!("FOUNDED_LINKED")])
        .output()
        .expect("nm runs");
    assert!(listed.status.success(), "nm: {}", listed.status);
    let listed = String::from_utf8_lossy(&listed.stdout);
    let archive = names(
        listed
            .lines()
            .filter_map(|line| line.split_once(" T "))
            .map(|(_, name)| name),
    );

    let header = code(include_str!("../../../include/founded.h"));
    let words = header.split_whitespace().filter(|word| word.contains('('));
    let header = names(words.map(|word| word.trim_start_matches('*')));

    let binding = names(include_str!("../src/raw.rs").split("pub fn ").skip(1));

    assert_eq!(archive, header);
    assert_eq!(archive, binding);
    assert!(archive.contains("founded_check") && archive.contains("founded_wide_work_words"));
}
