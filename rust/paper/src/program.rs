//! "The program": from standard input's bytes to the text. Its words are of 16
//! bits, so that a graph of edition 2 is refused by its number.

use crate::graph::Graph;
use crate::mask_len;
use crate::table::{Refusal, header, sized};

/// What the program prints when nothing turns it away.
#[derive(Clone, Debug, PartialEq, Eq)]
pub struct Report {
    pub loops: bool,
    /// The missing states, ascending.
    pub missing: Vec<usize>,
}

/// # Errors
/// The first row that applies; row 11 never does, the work area being its own.
pub fn run(input: &[u8]) -> Result<Report, Refusal> {
    let (whole, _) = input.as_chunks::<2>();
    let words: Vec<u16> = whole.iter().map(|&pair| u16::from_le_bytes(pair)).collect();
    header(&words)?;
    let graph_words = sized(&words).min(words.len());
    let graph = Graph::decode(&words[..graph_words])?;
    let (atom_never, never) = masks(&input[2 * graph_words..], &graph)?;
    let prepared = graph.prepared()?;
    let missing = prepared.missing(&never, &atom_never);
    Ok(Report {
        loops: graph.loops(),
        missing: (0..graph.atoms).filter(|&a| missing[a]).collect(),
    })
}

/// The atom mask, and the remainder as the node mask; a wrong length is 10.
fn masks(rest: &[u8], graph: &Graph) -> Result<(Vec<u64>, Vec<u64>), Refusal> {
    let (atoms, nodes) = (graph.atoms, graph.nodes.len());
    let (first, remainder) = rest.split_at(rest.len().min(8 * mask_len(atoms)));
    if first.len() != 8 * mask_len(atoms) || remainder.len() != 8 * mask_len(nodes) {
        return Err(Refusal::at(10, 0));
    }
    let wide = |bytes: &[u8]| -> Vec<u64> {
        bytes
            .as_chunks::<8>()
            .0
            .iter()
            .map(|&eight| u64::from_le_bytes(eight))
            .collect()
    };
    Ok((wide(first), wide(remainder)))
}

/// The text of a run.
pub fn text(run: &Result<Report, Refusal>) -> Vec<u8> {
    match run {
        Ok(report) => report_text(report).into_bytes(),
        Err(Refusal { number, place }) => format!("refused {number} {place}\n").into_bytes(),
    }
}

fn report_text(report: &Report) -> String {
    let loops = if report.loops { "yes" } else { "no" };
    let states: String = report
        .missing
        .iter()
        .map(|state| format!(" {state}"))
        .collect();
    format!("loops {loops}\nmissing {}{states}\n", report.missing.len())
}
