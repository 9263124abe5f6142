//! The rules among the missing states as arrows, for both kinds of pictures.

use std::collections::BTreeSet;

use super::Report;

/// A rule by which one missing state holds another up, or would.
pub struct Arrow {
    pub from: usize,
    pub to: usize,
    pub rule: usize,
    /// Both states are in one part.
    pub inner: bool,
}

/// The arrows to the states of a part: of each rule one from each missing state that it asks for.
pub fn arrows_to(report: &Report<'_>, number: usize) -> Vec<Arrow> {
    let explanation = report.explanation;
    let part = &explanation.parts[number];
    let own = |state: &usize| part.states.binary_search(state).is_ok();
    let missing = |state: &usize| explanation.missing.binary_search(state).is_ok();
    let mut arrows = Vec::new();
    for &rule in part.rules.iter().chain(&part.leaning) {
        let read = &report.program.rules()[rule];
        let from: BTreeSet<usize> = read.states().filter(missing).collect();
        let to: BTreeSet<usize> = read.heads().iter().copied().filter(own).collect();
        for &to in &to {
            arrows.extend(from.iter().map(|&from| Arrow {
                from,
                to,
                rule,
                inner: own(&from),
            }));
        }
    }
    arrows
}

/// A rule's line, with the file where there are several.
pub fn label(report: &Report<'_>, rule: usize) -> String {
    let program = report.program;
    let (file, line) = program.place(&program.rules()[rule]);
    match program.sources() {
        [_] => format!("line {line}"),
        _ => format!("{}:{line}", file.rsplit('/').next().unwrap_or_default()),
    }
}
