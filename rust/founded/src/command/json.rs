//! The answer as JSON.

use super::Report;
use crate::explain::Part;

/// What of the answer is proved.
fn proved(report: &Report<'_>) -> String {
    let lists = match report.unproduced {
        None => "loops and missing are proved",
        Some(_) if report.is_narrow() => "loops, missing and unproduced are proved",
        Some(_) => {
            "loops and missing are proved, and unproduced as the missing list of these rules with `a :- a` added for each state a"
        }
    };
    format!("{lists}; what is told of the circles is not, but each was checked against the rules")
}

/// A JSON string.
fn string(text: &str) -> String {
    let mut out = String::from('"');
    for c in text.chars() {
        match c {
            '"' => out.push_str("\\\""),
            '\\' => out.push_str("\\\\"),
            '\n' => out.push_str("\\n"),
            c if c.is_control() => out.push_str(&format!("\\u{:04x}", u32::from(c))),
            c => out.push(c),
        }
    }
    out.push('"');
    out
}

fn array(items: impl Iterator<Item = String>) -> String {
    format!("[{}]", items.collect::<Vec<String>>().join(", "))
}

fn strings<T: AsRef<str>>(items: impl Iterator<Item = T>) -> String {
    array(items.map(|item| string(item.as_ref())))
}

struct Json<'a, 'b>(&'b Report<'a>);

impl Json<'_, '_> {
    fn names(&self, states: &[usize]) -> String {
        strings(states.iter().map(|&state| &self.0.program.states()[state]))
    }

    /// A list of states, or null where it was not worked out.
    fn worked_out(&self, states: Option<&Vec<usize>>) -> String {
        states.map_or_else(|| "null".to_owned(), |states| self.names(states))
    }

    fn rule(&self, number: usize) -> String {
        let program = self.0.program;
        let rule = &program.rules()[number];
        let (file, line) = program.place(rule);
        let mut fields = format!(
            "\"file\": {}, \"line\": {line}, \"rule\": {}",
            string(file),
            string(&program.rule_text(rule))
        );
        let out = self.0.cuts.of_rule(program, number);
        if !out.is_empty() {
            fields += &format!(", \"by\": {}", strings(out.iter()));
        }
        format!("{{{fields}}}")
    }

    fn rules(&self, rules: &[usize]) -> String {
        let rules: Vec<String> = rules
            .iter()
            .map(|&rule| format!("\n        {}", self.rule(rule)))
            .collect();
        match rules[..] {
            [] => "[]".to_owned(),
            _ => format!("[{}\n      ]", rules.join(",")),
        }
    }

    fn part(&self, part: &Part) -> String {
        let leans_on = array(part.leans_on.iter().map(usize::to_string));
        let fields = [
            ("states", self.names(&part.states)),
            ("circle", part.is_circle().to_string()),
            ("held_up_by", self.rules(&part.rules)),
            ("leans_on", leans_on),
            ("leans_by", self.rules(&part.leaning)),
            ("ruled_out", self.rules(&part.ruled_out)),
            ("broken_by", self.worked_out(part.breakers.as_ref())),
            ("falls_with_it", self.worked_out(part.falls.as_ref())),
        ];
        let fields = fields.map(|(name, value)| format!("      \"{name}\": {value}"));
        format!("    {{\n{}\n    }}", fields.join(",\n"))
    }
}

/// The answer, with what nothing produces where that is asked for. A part of `circles` leans on others by their places in it, from 0; `broken_by` has the states that break it alone; null is what was not worked out.
pub fn told(report: &Report<'_>) -> String {
    let (program, explanation, json) = (report.program, report.explanation, Json(report));
    let parts: Vec<String> = explanation
        .parts
        .iter()
        .map(|part| json.part(part))
        .collect();
    let parts = match parts[..] {
        [] => "[]".to_owned(),
        _ => format!("[\n{}\n  ]", parts.join(",\n")),
    };
    let files = program.sources().iter().map(|source| source.name());
    let mut fields = vec![
        ("files", strings(files)),
        ("warnings", strings(program.warning_lines())),
        ("cut", strings(report.cuts.told(program).iter())),
        ("loops", explanation.loops.to_string()),
        ("missing", json.names(&explanation.missing)),
    ];
    if let Some(unproduced) = &report.unproduced {
        fields.push(("unproduced", json.names(unproduced)));
    }
    fields.push(("circles", parts));
    fields.push(("proved", string(&proved(report))));
    let fields: Vec<String> = fields
        .iter()
        .map(|(name, value)| format!("  \"{name}\": {value}"))
        .collect();
    format!("{{\n{}\n}}\n", fields.join(",\n"))
}
