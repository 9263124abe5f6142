//! Graph and masks as the proved program reads them.

use super::Report;
use crate::explain::{Either, Explanation};

/// The graph's words, the atom mask and the node mask, as docs/FORMAT.md has them ("The program").
pub fn bytes(explanation: &Explanation) -> Result<Vec<u8>, String> {
    let words = &explanation.words;
    let Either::Narrow(graph) = &words.graph else {
        return Err(
            "the proved program reads graphs of edition 1 alone, and for these rules that has no room (1,024 states, rules, conditions and bodies, each; 4,096 entries)"
                .to_owned(),
        );
    };
    let mut bytes = graph.to_bytes();
    for word in words.atom_never.iter().chain(&words.never) {
        bytes.extend(word.to_le_bytes());
    }
    Ok(bytes)
}

/// What the proved program is to print for the file, and which state each number is.
pub fn told(report: &Report<'_>, file: &str) -> String {
    let missing = &report.explanation.missing;
    let names = report.program.states();
    let mut line = format!("missing {}", missing.len());
    let mut numbers = Vec::new();
    for &state in missing {
        line += &format!(" {state}");
        numbers.push(format!("{state} is {}", names[state]));
    }
    let numbers = match numbers[..] {
        [] => String::new(),
        _ => format!("; {}", numbers.join(", ")),
    };
    format!("words {file}: founded_support is to say `{line}`{numbers}")
}
