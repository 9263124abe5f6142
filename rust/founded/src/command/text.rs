//! The answer as text.

use std::fmt::Write;

use super::Report;
use crate::explain::Part;

/// The width of the words before what is told of a part.
const LEFT: usize = 15;

/// Which of the first lines are proved.
fn proved(report: &Report<'_>) -> &'static str {
    match report.unproduced {
        None => "The first two lines are proved.",
        Some(_) if report.is_narrow() => "The first three lines are proved.",
        Some(_) => {
            "The first two lines are proved, and the third as the missing list of these rules with `a :- a` added for each state a."
        }
    }
}

/// `a, b or c`.
fn either(names: &[&str]) -> String {
    match names {
        [] => String::new(),
        [one] => (*one).to_owned(),
        [first @ .., last] => format!("{} or {last}", first.join(", ")),
    }
}

struct Text<'a, 'b> {
    report: &'b Report<'a>,
    /// The width of the longest place of a rule.
    places: usize,
    out: String,
}

/// The number of each circle among the circles, from 1; None for a state that is on none.
pub fn circle_numbers(parts: &[Part]) -> Vec<Option<usize>> {
    let mut next = 0;
    let mut number = |part: &Part| {
        next += usize::from(part.is_circle());
        part.is_circle().then_some(next)
    };
    parts.iter().map(&mut number).collect()
}

impl Text<'_, '_> {
    fn names(&self, states: &[usize]) -> Vec<&str> {
        let names = self.report.program.states();
        states.iter().map(|&state| &*names[state]).collect()
    }

    /// How many states there are in a list, and which.
    fn list(&mut self, word: &str, states: &[usize]) {
        let names = self.names(states).join(" ");
        let line = format!("{word} {} {names}", states.len());
        self.out.push_str(line.trim_end());
        self.out.push('\n');
    }

    /// A line of a part, or several under the same words.
    fn told(&mut self, words: &str, lines: &[String]) {
        for (number, line) in lines.iter().enumerate() {
            let words = if number == 0 { words } else { "" };
            let text = format!("  {words:<LEFT$}{line}");
            self.out.push_str(text.trim_end());
            self.out.push('\n');
        }
    }

    /// Rules, each with its place; of one that is ruled out, by what.
    fn rules(&self, rules: &[usize]) -> Vec<String> {
        let program = self.report.program;
        let told = |&number: &usize| {
            let rule = &program.rules()[number];
            let out = self.report.cuts.of_rule(program, number);
            let by = match &out[..] {
                [] => String::new(),
                _ => format!("   (by {})", out.join(", ")),
            };
            let (place, width) = (program.line(rule), self.places);
            format!("{place:<width$}  {}{by}", program.rule_text(rule))
        };
        rules.iter().map(told).collect()
    }

    fn broken_by(&self, part: &Part) -> String {
        let names = self.names(&part.states);
        let more = "a fact or another rule for";
        match &part.breakers {
            None => {
                format!("{more} one of its states (it is large: which of them do was not tried)")
            }
            Some(breakers) if breakers.len() == names.len() => match names.len() {
                ..=4 => format!("{more} {}", either(&names)),
                _ => format!("{more} any one of its states"),
            },
            Some(breakers) if breakers.is_empty() => {
                "facts or other rules for several of its states, none is enough alone".to_owned()
            }
            Some(breakers) => {
                format!(
                    "{more} {} (no other is enough alone)",
                    either(&self.names(breakers))
                )
            }
        }
    }

    /// A circle by its number and its first states.
    fn called(&self, number: usize, circles: &[Option<usize>]) -> String {
        let part = &self.report.explanation.parts[number];
        let shown: Vec<usize> = part.states.iter().take(3).copied().collect();
        let mut names = self.names(&shown).join(", ");
        if part.states.len() > shown.len() {
            names += ", ..";
        }
        match circles[number] {
            Some(circle) => format!("circle {circle} ({names})"),
            None => names,
        }
    }

    fn part(&mut self, number: usize, circles: &[Option<usize>]) {
        let part = &self.report.explanation.parts[number];
        let names = self.names(&part.states).join(", ");
        let title = match circles[number] {
            Some(circle) => format!("\ncircle {circle}: {names}\n"),
            None => format!("\non no circle: {names}\n"),
        };
        self.out.push_str(&title);
        self.told("held up by", &self.rules(&part.rules));
        let leans_on = part
            .leans_on
            .iter()
            .map(|&other| self.called(other, circles));
        let mut leans_on: Vec<String> = leans_on.collect();
        leans_on.extend(self.rules(&part.leaning));
        self.told("leans on", &leans_on);
        self.told("ruled out", &self.rules(&part.ruled_out));
        self.told("broken by", &[self.broken_by(part)]);
        let falls = match &part.falls {
            None => "not worked out: there are too many circles for that".to_owned(),
            Some(falls) if falls.is_empty() => "nothing else".to_owned(),
            Some(falls) => self.names(falls).join(", "),
        };
        self.told("falls with it", &[falls]);
    }
}

/// The answer, the circles and what is proved of them.
pub fn told(report: &Report<'_>) -> String {
    let (program, explanation) = (report.program, report.explanation);
    let told = explanation.parts.iter().flat_map(|part| {
        let leaning = part.leaning.iter().chain(&part.ruled_out);
        part.rules.iter().chain(leaning)
    });
    let places = told.map(|&rule| program.line(&program.rules()[rule]).chars().count());
    let mut text = Text {
        report,
        places: places.max().unwrap_or_default(),
        out: String::new(),
    };
    let loops = if explanation.loops { "yes" } else { "no" };
    text.out = format!("loops {loops}\n");
    text.list("missing", &explanation.missing);
    if let Some(unproduced) = &report.unproduced {
        text.list("unproduced", unproduced);
    }
    if !report.cuts.is_empty() {
        let cuts = report.cuts.told(program).join(", ");
        // A String takes all that is written to it.
        let _ = writeln!(text.out, "ruled out {cuts}");
    }
    let circles = circle_numbers(&explanation.parts);
    for number in 0..explanation.parts.len() {
        text.part(number, &circles);
    }
    text.out.push('\n');
    if let Some(words) = &report.words {
        let _ = writeln!(text.out, "{words}");
    }
    let proved = proved(report);
    text.out += &if !explanation.parts.is_empty() {
        format!(
            "{proved} What is told of the circles is not, but each was checked against the rules.\n"
        )
    } else if explanation.loops {
        format!(
            "Nothing is missing: each state on a loop is ruled out or held up by something besides the loop. {proved}\n"
        )
    } else {
        format!("Nothing is missing: no state is on a loop. {proved}\n")
    };
    text.out
}
