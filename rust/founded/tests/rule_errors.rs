//! What is no rule file is told by its lines, all of it in one run, and never passes as good news.

mod common;

use std::collections::HashSet;

use common::Rng;
use common::command::rule_file;
use founded::command::{Streams, run};
use founded::rules::read;

/// What reading a text says; empty if it is a rule file.
fn said(text: &str) -> String {
    read([("r.lp", text)]).map_or_else(|problems| problems.to_string(), |_| String::new())
}

/// The first line of what it says.
fn first(text: &str) -> String {
    said(text).lines().next().unwrap_or_default().to_owned()
}

#[test]
fn lines_columns_and_carets() {
    let text = "heater :- latch, cold.\n\tlatch  :- heater\nbus.\nlamp :- , bus.\n";
    assert_eq!(
        said(text),
        "\
r.lp:3:1: expected `,` or `.`, found `bus`; line 2 ends without a full stop
    bus.
    ^
r.lp:4:9: expected a condition, found `,`
    lamp :- , bus.
            ^"
    );
    // A letter of two bytes and a tab are one column each.
    assert_eq!(
        first("% ä\n\ta :- \"ä\"."),
        "r.lp:2:7: expected a condition, found the string \"ä\""
    );
    // A long line is told by its surroundings.
    let long = format!("{}b :- .. c.", "a. ".repeat(400));
    let lines: Vec<String> = said(&long).lines().map(str::to_owned).collect();
    assert_eq!(
        lines[0],
        "r.lp:1:1206: expected a condition, found `..`; rule files have no ranges"
    );
    assert_eq!(lines[1].chars().nth(lines[2].len() - 1), Some('.'));
    assert!(lines[1].len() < 130);
}

#[test]
fn names_that_nothing_concludes() {
    assert_eq!(
        said("heater :- lacth, cold.\nlatch :- heater, heatr(1), heater(1).\nheater(2).\n"),
        "\
r.lp:1:11: expected a state that a rule concludes or an #external, found `lacth`; did you mean `latch`?
    heater :- lacth, cold.
              ^
r.lp:1:18: expected a state that a rule concludes or an #external, found `cold`
    heater :- lacth, cold.
                     ^
r.lp:2:18: expected a state that a rule concludes or an #external, found `heatr(1)`; did you mean `heater(2)`?
    latch :- heater, heatr(1), heater(1).
                     ^
r.lp:2:28: expected a state that a rule concludes or an #external, found `heater(1)`; did you mean `heater(2)`?
    latch :- heater, heatr(1), heater(1).
                               ^"
    );
    assert_eq!(
        first("#external cold.\na :- cold.\nb ; cold :- a.\n"),
        "r.lp:1:11: expected an #external that no rule concludes, found `cold`, which the rule at r.lp:3 concludes"
    );
    let warned = read([("r.lp", "a :- not lacth.\nlatch :- not lacth.")]).unwrap();
    let warnings: Vec<String> = warned.warnings().collect();
    assert_eq!(
        warnings,
        ["\
r.lp:1:10: warning: no rule concludes `lacth` and no #external names it, `not lacth` counts as true; did you mean `latch`?
    a :- not lacth.
             ^"]
    );
}

#[test]
fn what_clingo_has_beyond() {
    for (text, expected, found) in [
        (
            "a(X) :- b.",
            "an argument, found the variable `X`",
            "variables (a name begins with a small letter)",
        ),
        (
            "a :- Heater.",
            "a condition, found the variable `Heater`",
            "variables (a name begins with a small letter)",
        ),
        (
            "a :- _.",
            "a condition, found the variable `_`",
            "variables (a name begins with a small letter)",
        ),
        (
            "a :- #sum { 1 : b } > 0.",
            "a condition, found `#sum`",
            "aggregates",
        ),
        (
            "a :- 2 { b; c }.",
            "a condition, found the number `2`",
            "aggregates",
        ),
        (
            "1 { a; b }.",
            "a rule, found the number `1`",
            "choices with bounds",
        ),
        (
            "{ a; b } 1.",
            "`:-` or `.`, found the number `1`",
            "choices with bounds",
        ),
        (
            "{ a; b } = 1.",
            "`:-` or `.`, found `=`",
            "choices with bounds",
        ),
        ("{ a : b }.", "`;` or `}`, found `:`", "conditions on atoms"),
        (
            "a :- b : c.",
            "`,` or `.`, found `:`",
            "conditions on atoms",
        ),
        (
            "a :- not not b.",
            "a condition, found `not`",
            "`not` but once before a condition",
        ),
        (
            "not a :- b.",
            "a rule, found `not`",
            "`not` but once before a condition",
        ),
        (
            "-a :- b.",
            "a rule, found `-`",
            "strong negation and arithmetic",
        ),
        ("a(1..3).", "`,` or `)`, found `..`", "ranges"),
        ("a(1;3).", "`,` or `)`, found `;`", "pools"),
        ("a(1+3).", "`,` or `)`, found `+`", "arithmetic"),
        ("a(-b).", "a number after `-`, found `b`", "arithmetic"),
        ("a :- b < c.", "`,` or `.`, found `<`", "comparisons"),
        (
            "#show a/0.",
            "a rule, found `#show`",
            "directives but #external",
        ),
        (
            "a :- #true.",
            "a condition, found `#true`",
            "constants such as #true",
        ),
        (":~ a. [1]", "a rule, found `:~`", "weak constraints"),
        (
            "a :- &diff { x }.",
            "a condition, found `&`",
            "theory atoms",
        ),
        ("a(@f).", "an argument, found `@`", "functions of scripts"),
        ("#external a : b.", "`.`, found `:`", "conditions on atoms"),
    ] {
        let line = first(text);
        let (_, told) = line.split_once(": ").unwrap();
        assert_eq!(
            told,
            format!("expected {expected}; rule files have no {found}"),
            "{text}"
        );
    }
}

#[test]
fn what_is_no_rule() {
    for (text, told) in [
        ("", "1:1: expected rules, found none"),
        ("% nothing\n", "1:1: expected rules, found none"),
        (
            "#external a.",
            "1:1: expected a rule that concludes a state, found none",
        ),
        (
            ":- not a.",
            "1:1: expected a rule that concludes a state, found none",
        ),
        (
            "a",
            "1:2: expected `;`, `:-` or `.`, found the end of the file",
        ),
        (
            "a :- b",
            "1:7: expected `,` or `.`, found the end of the file",
        ),
        (
            "a.\n%* b",
            "2:1: expected a rule, found a comment that no `*%` ends",
        ),
        (
            "a(\"b).",
            "1:3: expected an argument, found a string that its line does not end (escapes are \\\\, \\\" and \\n)",
        ),
        ("a;.", "1:3: expected a head, found `.`"),
        ("a(1,).", "1:5: expected an argument, found `)`"),
        ("a(007).", "1:4: expected `,` or `)`, found the number `0`"),
        (
            "a(2147483648).",
            "1:3: expected a number up to 2147483647, found the number `2147483648`",
        ),
        ("é.", "1:1: expected a rule, found `é`"),
        (
            "a \u{0} b.",
            "1:3: expected `;`, `:-` or `.`, found a control character",
        ),
        (
            "heater <- latch",
            "1:8: expected `;`, `:-` or `.`, found `<-`",
        ),
    ] {
        assert_eq!(first(text), format!("r.lp:{told}"), "{text}");
    }
    let deep = format!("a{}{}.", "(f".repeat(5_000), ")".repeat(5_000));
    assert!(first(&deep).contains("expected arguments nested at most 100 deep"));
    let many = "a b.\n".repeat(50);
    assert!(said(&many).ends_with("\nand 30 more"));
    let bytes = read([("r.lp", b"a.\nb\xff.")]).unwrap_err().to_string();
    assert!(
        bytes.starts_with("r.lp:2:2: expected text in UTF-8, found the byte 0xff\n"),
        "{bytes}"
    );
}

#[test]
fn what_is_a_rule_file() {
    let names = |text: &str| {
        read([("r.lp", text)])
            .map(|program| program.states().to_vec())
            .unwrap()
    };
    assert_eq!(names("\u{feff}a :- b.\r\nb :- a.\r\n"), ["a", "b"]);
    assert_eq!(names("%* a %* nested *% still *% b."), ["b"]);
    assert_eq!(
        names("p( 2 , x ). p(2,x) :- p( (2) ). p(2). q() :- q."),
        ["p(2,x)", "p(2)", "q"]
    );
    assert_eq!(
        names("p((1,),(),(1,2),f(g),-5,-0,\"a\\\"b\")."),
        ["p((1,),(),(1,2),f(g),-5,0,\"a\\\"b\")"]
    );
    assert_eq!(
        names("_a'B_1. nota :- _a'B_1, not nota. b :- . :-."),
        ["_a'B_1", "nota", "b"]
    );
    assert_eq!(
        names("a | b , c ; d. {e;f} :- a; b. {}."),
        ["a", "b", "c", "d", "e", "f"]
    );
    let program = read([
        ("a.lp", "#external e. a :- e, not e, not e."),
        ("b.lp", "b :- a, e."),
    ])
    .unwrap();
    assert_eq!(program.conditions(), ["e", "not e"]);
    let lines: Vec<String> = program
        .rules()
        .iter()
        .map(|rule| program.line(rule))
        .collect();
    assert_eq!(lines, ["a.lp:1", "b.lp:1"]);
}

/// Runs the command in this process.
fn ran(text: &[u8]) -> (u8, String, String) {
    let (mut stdout, mut stderr) = (Vec::new(), Vec::new());
    let mut stdin = text;
    let streams = Streams {
        stdin: &mut stdin,
        stdout: &mut stdout,
        stderr: &mut stderr,
    };
    let status = run(["check".into()], streams);
    let text = |bytes| String::from_utf8(bytes).expect("text");
    (status, text(stdout), text(stderr))
}

/// Names as letters stand together, of a text in which no string and no comment stands.
fn names(text: &str) -> Vec<(usize, &str)> {
    let within = |c: char| c.is_ascii_alphanumeric() || c == '_';
    let mut found = Vec::new();
    let mut at = 0;
    while let Some(begin) = text[at..].find(within) {
        let begin = at + begin;
        let end = text[begin..]
            .find(|c| !within(c))
            .map_or(text.len(), |length| begin + length);
        found.push((begin, &text[begin..end]));
        at = end;
    }
    found
}

/// A misspelt name in a body is never good news: where a state or an external is asked for, it is refused.
#[test]
fn a_misspelt_name_is_refused() {
    let mut refused = 0;
    for seed in 0..3_000 {
        let mut rng = Rng::new(seed);
        let text = rule_file(&mut rng, 8);
        let all = names(&text);
        let known: HashSet<&str> = all.iter().map(|&(_, name)| name).collect();
        let asked_for = |&&(at, name): &&(usize, &str)| {
            let line = text[..at].rfind('\n').map_or(0, |end| end + 1);
            let before = &text[line..at];
            name.starts_with(['s', 'e'])
                && name != "external"
                && before.contains(":-")
                && !before.ends_with("not ")
        };
        let asked: Vec<&(usize, &str)> = all.iter().filter(asked_for).collect();
        if asked.is_empty() {
            continue;
        }
        let &&(at, name) = &asked[rng.below(asked.len())];
        let misspelt = ["s99", "t0", "ss1", "sO"][rng.below(4)];
        assert!(!known.contains(misspelt));
        let wrong = format!("{}{misspelt}{}", &text[..at], &text[at + name.len()..]);
        let (status, stdout, stderr) = ran(wrong.as_bytes());
        assert_eq!((status, &*stdout), (2, ""), "{wrong}");
        assert!(stderr.contains(&format!("found `{misspelt}`")), "{stderr}");
        refused += 1;
    }
    assert!(refused > 2_000);
}

fn damage(rng: &mut Rng, bytes: &mut Vec<u8>) {
    const PIECES: [&str; 24] = [
        "not ",
        ":-",
        ".",
        ",",
        ";",
        "(",
        ")",
        "{",
        "}",
        "%",
        "%*",
        "*%",
        "\"",
        "#external ",
        "\n",
        "\r\n",
        "-",
        "0",
        "X",
        "\u{feff}",
        "é",
        "\\",
        "asp 1 0 0\n",
        " 99999999999 ",
    ];
    let at = rng.below(bytes.len() + 1);
    match rng.below(5) {
        0 if at < bytes.len() => bytes[at] = rng.next() as u8,
        1 if at < bytes.len() => {
            bytes.remove(at);
        }
        2 => bytes.truncate(at),
        3 => {
            let end = (at + rng.below(12)).min(bytes.len());
            bytes.drain(at..end);
        }
        _ => {
            let piece = PIECES[rng.below(PIECES.len())];
            bytes.splice(at..at, piece.bytes());
        }
    }
}

/// The names of a rule file's bodies that no head and no #external has, by a reader that knows little: statements end at full stops, a head is what stands before `:-`.
fn unknown(text: &str) -> bool {
    let mut plain = String::new();
    let mut rest = text.trim_start_matches('\u{feff}');
    while let Some(c) = rest.chars().next() {
        if rest.starts_with("%*") {
            let mut depth = 0;
            let mut at = 0;
            while at < rest.len() {
                let here = &rest[at..];
                let step = if here.starts_with("%*") {
                    depth += 1;
                    2
                } else if here.starts_with("*%") {
                    depth -= 1;
                    2
                } else {
                    here.chars().next().map_or(1, char::len_utf8)
                };
                at += step;
                if depth == 0 {
                    break;
                }
            }
            rest = &rest[at..];
        } else if c == '%' {
            rest = rest.find('\n').map_or("", |end| &rest[end..]);
        } else {
            plain.push(c);
            rest = &rest[c.len_utf8()..];
        }
    }
    let tight = |text: &str| text.split_whitespace().collect::<String>();
    let parted = |text: &str| -> Vec<String> {
        let mut items = vec![String::new()];
        let mut deep = 0;
        for c in text.chars() {
            deep += i32::from(c == '(') - i32::from(c == ')');
            if deep == 0 && ",;|".contains(c) {
                items.push(String::new());
            } else if let Some(item) = items.last_mut() {
                item.push(c);
            }
        }
        items
    };
    let (mut known, mut asked) = (HashSet::new(), HashSet::new());
    for statement in plain.split('.') {
        let (heads, body) = statement.split_once(":-").unwrap_or((statement, ""));
        let heads = heads.replace(['{', '}'], " ");
        let heads = heads.trim().trim_start_matches("#external");
        known.extend(parted(heads).iter().map(|head| tight(head)));
        let positive = parted(body).into_iter().filter(|leaf| {
            let leaf = leaf.trim_start();
            !leaf
                .strip_prefix("not")
                .is_some_and(|rest| rest.starts_with(|c: char| c.is_whitespace() || c == '_'))
        });
        asked.extend(
            positive
                .map(|leaf| tight(&leaf))
                .filter(|leaf| !leaf.is_empty()),
        );
    }
    !asked.is_subset(&known)
}

#[test]
fn damaged_rule_files() {
    let mut seen = [0; 3];
    for seed in 0..20_000 {
        let mut rng = Rng::new(seed);
        let mut bytes = match seed % 4 {
            0 => include_bytes!("../../../examples/cubesat.lp").to_vec(),
            _ => rule_file(&mut rng, 6).into_bytes(),
        };
        for _ in 0..1 + rng.below(3) {
            damage(&mut rng, &mut bytes);
        }
        let (status, stdout, stderr) = ran(&bytes);
        let text = String::from_utf8_lossy(&bytes).into_owned();
        assert_eq!(status == 2, stdout.is_empty(), "{text}");
        assert_eq!(status == 0, stdout.contains("\nmissing 0\n"), "{text}");
        assert!(status < 2 || stderr.starts_with("-:"), "{text}\n{stderr}");
        // Names in strings and in arguments are another reader's: such texts are left out here.
        if status < 2 && !text.contains('"') {
            assert!(!unknown(&text), "{text}\n{stdout}");
        }
        seen[usize::from(status)] += 1;
    }
    assert!(seen.iter().all(|&count| count > 200), "{seen:?}");
}

#[test]
fn damaged_aspif() {
    let mut seen = [0; 3];
    for seed in 0..20_000 {
        let mut rng = Rng::new(seed);
        let mut bytes = include_bytes!("aspif/cubesat.aspif").to_vec();
        for _ in 0..1 + rng.below(3) {
            damage(&mut rng, &mut bytes);
        }
        let (status, stdout, stderr) = ran(&bytes);
        assert_eq!(status == 2, stdout.is_empty());
        assert!(status < 2 || stderr.starts_with("-:"), "{stderr}");
        seen[usize::from(status)] += 1;
    }
    assert!(seen[1] > 500 && seen[2] > 500, "{seen:?}");
}

#[test]
fn random_bytes() {
    for seed in 0..5_000 {
        let mut rng = Rng::new(seed);
        let letters: Vec<char> = "ab.:-,;(){}%*\"#not \n0".chars().collect();
        let text: String = (0..rng.below(60))
            .map(|_| letters[rng.below(letters.len())])
            .collect();
        let (status, stdout, _) = ran(text.as_bytes());
        assert_eq!(status == 2, stdout.is_empty(), "{text}");
    }
}
