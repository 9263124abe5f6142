//! The missing states for graphviz.

use super::Report;
use super::arrows::{arrows_to, label};
use super::text::circle_numbers;

/// A string as DOT has it.
fn string(text: &str) -> String {
    let escaped = text.replace('\\', "\\\\").replace('"', "\\\"");
    format!("\"{escaped}\"")
}

/// A graph with a cluster for each circle; arrows between circles are dashed.
pub fn told(report: &Report<'_>) -> String {
    let explanation = report.explanation;
    let name = |state: usize| string(&report.program.states()[state]);
    let mut out =
        String::from("digraph missing {\n  rankdir=LR;\n  node [shape=box, style=rounded];\n");
    let circles = circle_numbers(&explanation.parts);
    for (part, circle) in explanation.parts.iter().zip(circles) {
        let names: Vec<String> = part.states.iter().map(|&state| name(state)).collect();
        let names = names.join("; ");
        out += &match circle {
            Some(circle) => {
                format!("  subgraph cluster_{circle} {{ label=\"circle {circle}\"; {names}; }}\n")
            }
            None => format!("  {names};\n"),
        };
    }
    for number in 0..explanation.parts.len() {
        for arrow in arrows_to(report, number) {
            let style = if arrow.inner { "" } else { ", style=dashed" };
            let (from, to) = (name(arrow.from), name(arrow.to));
            let label = string(&label(report, arrow.rule));
            out += &format!("  {from} -> {to} [label={label}{style}];\n");
        }
    }
    out + "}\n"
}
