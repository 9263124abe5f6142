//! The program `founded` as a user runs it: what it prints, what it says of errors, how it ends.

mod common;

use std::fs;
use std::io::Write;
use std::process::{Command, Stdio};

use common::Rng;
use common::command::{Ran, made, rule_file, run, run_in, top};
use founded::explain::{Cuts, Explanation};
use founded::rules;

/// A golden file. `GOLDEN=write cargo test` writes them anew.
fn golden(name: &str, printed: &str) {
    let file = top().join("rust/founded/tests/golden").join(name);
    if std::env::var_os("GOLDEN").is_some() {
        fs::write(&file, printed).unwrap();
    }
    let expected = fs::read_to_string(&file).unwrap_or_default();
    assert_eq!(
        printed,
        expected,
        "{} (GOLDEN=write writes it anew)",
        file.display()
    );
}

/// Standard output, and below it standard error, if there is any.
fn all(ran: &Ran) -> String {
    match &*ran.stderr {
        "" => ran.stdout.clone(),
        stderr => format!("{}--- standard error\n{stderr}", ran.stdout),
    }
}

#[test]
fn examples() {
    for (name, arguments, status) in [
        ("heater.txt", &["examples/heater.lp"][..], 1),
        ("cubesat.txt", &["examples/cubesat.lp"], 1),
        (
            "cubesat-command.txt",
            &["examples/cubesat.lp", "examples/command.lp"],
            0,
        ),
        (
            "cubesat-cut.txt",
            &[
                "--cut",
                "command( heater_on )",
                "--cut=payload_bus",
                "examples/cubesat.lp",
                "examples/command.lp",
            ],
            1,
        ),
        (
            "cubesat-unproduced.txt",
            &[
                "--unproduced",
                "examples/cubesat.lp",
                "--cut=payload_bus",
                "--cut=command(heater_on)",
                "examples/command.lp",
            ],
            1,
        ),
        ("passes.txt", &["examples/passes.aspif"], 1),
        ("passes-variables.txt", &["examples/passes.lp"], 2),
        (
            "cubesat.json",
            &["--json", "examples/cubesat.lp", "--cut", "payload_bus"],
            1,
        ),
        (
            "unproduced.json",
            &[
                "--json",
                "--unproduced",
                "examples/cubesat.lp",
                "examples/command.lp",
                "--cut=sunlight",
            ],
            1,
        ),
        (
            "clean.json",
            &["--json", "examples/cubesat.lp", "examples/command.lp"],
            0,
        ),
        (
            "cubesat.dot",
            &["examples/cubesat.lp", "--dot", "--cut", "payload_bus"],
            1,
        ),
    ] {
        let ran = run(&[&["check"], arguments].concat(), "");
        golden(name, &all(&ran));
        assert_eq!(ran.status, status, "{name}");
    }
}

#[test]
fn every_example_has_its_golden_file() {
    let golden = fs::read_dir(top().join("rust/founded/tests/golden")).unwrap();
    let golden: Vec<String> = golden
        .map(|file| file.unwrap().file_name().into_string().unwrap())
        .collect();
    for file in fs::read_dir(top().join("examples")).unwrap() {
        let name = file.unwrap().file_name().into_string().unwrap();
        let stem = name.split('.').next().unwrap();
        let rules = name.ends_with(".lp") || name.ends_with(".aspif");
        assert!(
            !rules || golden.iter().any(|golden| golden.contains(stem)),
            "{name}"
        );
    }
}

/// The aspif that gringo makes of cubesat.lp, with tests/aspif/keep.lp beside it so that it leaves nothing out.
#[test]
fn aspif_of_an_example() {
    let text = fs::read(top().join("examples/cubesat.lp")).unwrap();
    let aspif = fs::read(top().join("rust/founded/tests/aspif/cubesat.aspif")).unwrap();
    let text = rules::read([("cubesat.lp", text)]).unwrap();
    let aspif = rules::read([("cubesat.aspif", aspif)]).unwrap();
    for cuts in [
        &[][..],
        &["cold"],
        &["not sunlight"],
        &["heater"],
        &["thermostat", "pass"],
    ] {
        let circles = |program: &rules::Program| {
            let mut out = Cuts::default();
            for cut in cuts {
                out.rule_out(program, cut).unwrap();
            }
            let explanation = Explanation::of(program, &out).unwrap();
            let names = |states: &[usize]| {
                let mut names: Vec<String> = states
                    .iter()
                    .map(|&state| program.states()[state].clone())
                    .collect();
                names.sort();
                names
            };
            let mut parts: Vec<_> = explanation
                .parts
                .iter()
                .map(|part| {
                    (
                        names(part.states()),
                        part.rules().len(),
                        names(part.breakers().unwrap()),
                        names(part.falls().unwrap()),
                    )
                })
                .collect();
            parts.sort();
            (explanation.loops, names(&explanation.missing), parts)
        };
        assert_eq!(circles(&text), circles(&aspif), "{cuts:?}");
    }
    let mut cuts = Cuts::default();
    assert_eq!(
        cuts.rule_out(&aspif, "deployed").unwrap_err(),
        "gringo has taken `deployed` out of the rules, since it always holds: rule it out in the program that was grounded"
    );
}

#[test]
fn what_aspif_may_hold() {
    let text = "asp 1 0 0\r\n1 0 1 1 0 2 2 -3\r\n1 0 1 2 0 1 1\r\n1 1 2 4 5 1 2 2 1 1 -2 3\r\n1 0 0 0 1 4\r\n5 6 2\r\n\
                1 0 1 4 0 2 6 7\r\n2 0 1 1 1\r\n2 0 0\r\n10 a comment\r\n5 8 3\r\n\
                4 1 a 1 1\r\n4 1 a 1 2\r\n4 3 x y 1 4\r\n4 1 e 1 6\r\n4 1 f 2 1 2\r\n0\r\n";
    let program = rules::read([("x.aspif", text)]).unwrap();
    assert_eq!(program.states(), ["a", "a#2", "x y", "#5", "#7"]);
    assert_eq!(program.conditions(), ["e", "not #3", "weight body 1"]);
    let warnings: Vec<String> = program
        .warnings()
        .map(|warning| warning.lines().next().unwrap().to_owned())
        .collect();
    assert_eq!(
        warnings,
        [
            "x.aspif:1:1: warning: gringo leaves out what it sees can never hold, a circle that nothing enters too; docs/RULES.md says how to keep it",
            "x.aspif:8:1: warning: #minimize statement passed over, and 1 more",
            "x.aspif:11:1: warning: release of an external passed over",
            "x.aspif:7:1: warning: no rule concludes `#7`: what is on no loop counts as true",
        ]
    );
    let texts: Vec<String> = program
        .rules()
        .iter()
        .map(|rule| program.rule_text(rule))
        .collect();
    assert_eq!(
        texts,
        [
            "a :- a#2, not #3.",
            "a#2 :- a.",
            "{ x y; #5 } :- weight body 1.",
            ":- x y.",
            "x y :- e, #7.",
        ]
    );
    for (text, told) in [
        (
            "asp 2 0 0\n0\n",
            "1:1: expected aspif of one step, `asp 1 0 0`, found `asp 2 0 0`",
        ),
        (
            "asp 1 0 0 incremental\n0\n0\n",
            "1:1: expected aspif of one step, `asp 1 0 0`, found `asp 1 0 0 incremental`",
        ),
        (
            "asp 1 0 0\n",
            "2:1: expected the `0` that ends aspif, found the end of the file",
        ),
        (
            "asp 1 0 0\n0\n",
            "1:1: expected aspif with a rule that concludes something, found none",
        ),
        (
            "asp 1 0 0\n1 0 1 1 0 0\n0\n0\n",
            "4:1: expected nothing after the `0` that ends aspif, found `0`",
        ),
        (
            "asp 1 0 0\n1 0 1 0 0 0\n0\n",
            "2:7: expected an atom's number, from 1, found `0`",
        ),
        (
            "asp 1 0 0\n1 0 9 1 0 0\n0\n",
            "2:9: expected an atom's number, from 1, found `0`",
        ),
        (
            "asp 1 0 0\n1 0 1 1 0 2147483647 1\n0\n",
            "2:23: expected a literal, found the end of the line",
        ),
        (
            "asp 1 0 0\n1 0 1 1 0 -1\n0\n",
            "2:11: expected the length of a list, found `-1`",
        ),
        (
            "asp 1 0 0\n1 0 1 1 0 0 0\n0\n",
            "2:13: expected the end of the line, found `0`",
        ),
        (
            "asp 1 0 0\n11 0\n0\n",
            "2:1: expected a statement's number, 0 to 10, found `11`",
        ),
        (
            "asp 1 0 0\n4 9 ab 1 1\n0\n",
            "2:5: expected a string of 9 bytes, found `ab`",
        ),
        (
            "asp 1 0 0\nx\n1 2\n0\n",
            "2:1: expected a statement's number, 0 to 10, found `x`",
        ),
    ] {
        let said = rules::read([("x.aspif", text)]).unwrap_err().to_string();
        assert_eq!(
            said.lines().next().unwrap(),
            format!("x.aspif:{told}"),
            "{text}"
        );
    }
    // Names decide nothing: atoms 1 to 3 are three states, and the fact holds up one of them alone.
    let alike = "asp 1 0 0\n1 0 1 1 0 1 1\n1 0 1 2 0 1 2\n1 0 1 3 0 1 3\n1 0 1 3 0 0\n4 2 #2 1 1\n4 4 #2#3 1 2\n4 2 #2 1 3\n0\n";
    let program = rules::read([("x.aspif", alike)]).unwrap();
    let explanation = Explanation::of(&program, &Cuts::default()).unwrap();
    assert_eq!(program.states(), ["#2", "#2#3", "#2#3"]);
    assert_eq!(explanation.missing, [0, 1]);
    let two = rules::read([("a.lp", "a."), ("x.aspif", text)])
        .unwrap_err()
        .to_string();
    assert!(
        two.starts_with("x.aspif:1:1: expected a rule file, found aspif"),
        "{two}"
    );
}

/// What a run says on standard error, having printed nothing and ended with 2.
fn refused(arguments: &[&str], stdin: &str) -> String {
    let ran = run(arguments, stdin);
    assert_eq!((ran.status, &*ran.stdout), (2, ""), "{}", ran.stderr);
    ran.stderr
}

#[test]
fn what_cannot_be_ruled_out() {
    let rules = "#external cold.\nheater :- latch, cold.\nlatch :-\n  heater. bus.\nlamp :- not dark, bus.\nbeacon.\n";
    for (cut, said) in [
        (
            "heatr",
            "no state, no #external and no `not` is called `heatr`; did you mean `heater`?",
        ),
        (
            "not drak",
            "no state, no #external and no `not` is called `not drak`; did you mean `not dark`?",
        ),
        (
            "dark",
            "no state, no #external and no `not` is called `dark`",
        ),
        ("", "no state, no #external and no `not` is called ``"),
        ("-:7", "no rule stands on line 7 of -"),
        ("-:0", "no rule stands on line 0 of -"),
        (
            "-:6",
            "line 6 of - has no body that can be ruled out, it has the fact `beacon.`; a state is ruled out by its name",
        ),
        ("x.lp:2", "no file `x.lp` was read, and no name is `x.lp:2`"),
    ] {
        let warned = "-:5:13: warning: no rule concludes `dark` and no #external names it, `not dark` counts as true\n    lamp :- not dark, bus.\n                ^\n";
        assert_eq!(
            refused(&["check", "--cut", cut], rules),
            format!("{warned}founded: --cut '{cut}': {said}\n")
        );
    }
    // A rule is ruled out by any of its lines.
    for cut in ["-:3", "-:4", "not  dark", "latch", "cold"] {
        let ran = run(&["check", "--cut", cut], rules);
        assert_eq!(ran.status, 1, "{cut}: {}", ran.stderr);
    }
    let ran = run(&["check", "--cut", "-:3", "-"], rules);
    assert!(
        ran.stdout
            .contains("missing 2 heater latch\nruled out -:3\n"),
        "{}",
        ran.stdout
    );
    assert!(
        ran.stdout
            .contains("on no circle: latch\n  ruled out      -:3  latch :- heater.   (by -:3)\n"),
        "{}",
        ran.stdout
    );
}

#[test]
fn arguments() {
    let help = run(&["--help"], "");
    assert_eq!((help.status, &*help.stderr), (0, ""));
    for option in [
        "--cut NAME",
        "--cut FILE:LINE",
        "--unproduced",
        "--json",
        "--dot",
        "--svg FILE",
        "--words FILE",
        "--help",
        "--version",
    ] {
        assert!(help.stdout.contains(option), "{option}");
    }
    assert_eq!(run(&["check", "--help"], ""), help);
    let version = run(&["--version"], "");
    assert_eq!(
        (version.status, &*version.stdout),
        (0, concat!("founded ", env!("CARGO_PKG_VERSION"), "\n"))
    );
    let more = "; `founded --help` says what there is\n";
    for (arguments, said) in [
        (&[][..], "something to do is asked for"),
        (&["chek"], "there is no `chek` here, only `check`"),
        (&["check", "--jsn"], "there is no option `--jsn`"),
        (
            &["check", "--json", "--dot"],
            "`--json` and `--dot` exclude each other",
        ),
        (&["check", "--cut"], "`--cut` needs a value behind it"),
    ] {
        assert_eq!(refused(arguments, "a."), format!("founded: {said}{more}"));
    }
    assert_eq!(
        refused(&["check", "none.lp"], ""),
        "founded: none.lp: No such file or directory\n"
    );
    assert_eq!(
        refused(&["check", "-", "-"], "a."),
        "founded: standard input is read but once\n"
    );
    assert!(refused(&["check", "examples"], "").starts_with("founded: examples: "));
    assert!(
        refused(&["check", "--svg", "/nowhere/x.svg"], "a.")
            .starts_with("founded: /nowhere/x.svg: ")
    );
    assert_eq!(run(&["check", "--", "examples/heater.lp"], "").status, 1);
    assert_eq!(run(&["check"], "a.").status, 0);
    assert_eq!(
        refused(&["check"], ""),
        "-:1:1: expected rules, found none\n    \n    ^\n"
    );
}

/// Text elements of a class.
fn texts<'a>(svg: &'a str, class: &str) -> Vec<&'a str> {
    let begins = format!("<text class=\"{class}\"");
    let elements = svg.split(&*begins).skip(1);
    elements
        .map(|element| element.split(['>', '<']).nth(1).unwrap())
        .collect()
}

/// Each missing state's name stands once, and each rule of a circle, or by which it leans on another, has an arrow for each missing state that it asks for.
fn drawn_as_told(program: &rules::Program, explanation: &Explanation, svg: &str) {
    let escape = |name: &str| name.replace('"', "&quot;");
    let mut names = texts(svg, "name");
    names.sort_unstable();
    let mut missing: Vec<String> = explanation
        .missing
        .iter()
        .map(|&state| escape(&program.states()[state]))
        .collect();
    missing.sort_unstable();
    assert_eq!(names, missing);
    let is_missing = |leaf: &rules::Literal| match leaf {
        rules::Literal::State(state) => explanation.missing.contains(state),
        rules::Literal::Condition(_) => false,
    };
    let mut arrows = 0;
    for part in &explanation.parts {
        for &rule in part.rules().iter().chain(part.leaning()) {
            let read = &program.rules()[rule];
            let mut needs: Vec<_> = read.body().iter().filter(|leaf| is_missing(leaf)).collect();
            needs.sort_unstable();
            needs.dedup();
            let mut heads: Vec<_> = read
                .heads()
                .iter()
                .filter(|head| part.states().contains(head))
                .collect();
            heads.sort_unstable();
            heads.dedup();
            assert!(!needs.is_empty() && !heads.is_empty());
            assert!(svg.contains(&format!("data-rule=\"{}\"", program.line(read))));
            arrows += needs.len() * heads.len();
        }
    }
    assert_eq!(svg.matches("data-rule=").count(), arrows);
    assert_eq!(texts(svg, "line").len(), arrows);
    let titles = texts(svg, "title");
    assert_eq!(titles.len(), explanation.parts.len());
    // Nothing is drawn at no place.
    assert!(!svg.contains("NaN") && !svg.contains("inf"));
}

#[test]
fn pictures() {
    let file = made("circle.svg");
    let path = file.to_str().unwrap();
    for seed in 0..60 {
        let mut rng = Rng::new(seed);
        let text = match seed {
            0 => fs::read_to_string(top().join("examples/cubesat.lp")).unwrap(),
            1 => "a.".to_owned(),
            2 => "p(\"<&>\") :- p(\"<&>\").".to_owned(),
            _ => rule_file(&mut rng, 14),
        };
        let ran = run(&["check", "--svg", path], &text);
        assert!(ran.status < 2, "{}", ran.stderr);
        let svg = fs::read_to_string(&file).unwrap();
        let program = rules::read([("-", &text)]).unwrap();
        let explanation = Explanation::of(&program, &Cuts::default()).unwrap();
        if seed == 2 {
            assert_eq!(texts(&svg, "name"), ["p(&quot;&lt;&amp;&gt;&quot;)"]);
        } else {
            drawn_as_told(&program, &explanation, &svg);
        }
        let opened = svg.matches("<g ").count()
            + svg.matches("<svg ").count()
            + svg.matches("<text ").count();
        let closed = svg.matches("</g>").count()
            + svg.matches("</svg>").count()
            + svg.matches("</text>").count();
        assert_eq!(opened, closed);
    }
}

/// JSON is JSON and DOT has its quotes, whatever stands in a name.
#[test]
fn names_of_any_letters() {
    let rules = "p(\"a\\\"\\\\ä\\n<&>\t\") :- p(\"a\\\"\\\\ä\\n<&>\t\").";
    let json = run(&["check", "--json"], rules).stdout;
    let mut python = Command::new("python3")
        .args([
            "-c",
            "import json, sys; print(json.load(sys.stdin)['circles'][0]['states'][0])",
        ])
        .stdin(Stdio::piped())
        .stdout(Stdio::piped())
        .spawn()
        .expect("python3 runs");
    python
        .stdin
        .take()
        .unwrap()
        .write_all(json.as_bytes())
        .unwrap();
    let decoded = python.wait_with_output().unwrap().stdout;
    assert_eq!(
        String::from_utf8(decoded).unwrap(),
        "p(\"a\\\"\\\\ä\\n<&>\t\")\n",
        "{json}"
    );
    let dot = run(&["check", "--dot"], rules).stdout;
    assert!(
        dot.contains("\"p(\\\"a\\\\\\\"\\\\\\\\ä\\\\n<&>\t\\\")\""),
        "{dot}"
    );
}

/// What nothing produces is named where it is asked for, and then the program ends with 1 where nothing is missing too. It is in no picture.
#[test]
fn what_nothing_produces() {
    let rules = "#external sun.\nlamp :- sun.\nheater :- lamp.\nbus.\n";
    let told = |arguments: &[&str]| {
        let ran = run(&[&["check"], arguments].concat(), rules);
        assert_eq!(ran.stderr, "");
        (ran.status, ran.stdout)
    };
    let end = |lines| {
        format!(
            "\nNothing is missing: no state is on a loop. The first {lines} lines are proved.\n"
        )
    };
    let cut = "--cut=sun";
    assert_eq!(
        told(&[cut]),
        (
            0,
            format!("loops no\nmissing 0\nruled out sun\n{}", end("two"))
        )
    );
    assert_eq!(
        told(&[cut, "--unproduced"]),
        (
            1,
            format!(
                "loops no\nmissing 0\nunproduced 2 lamp heater\nruled out sun\n{}",
                end("three")
            )
        )
    );
    assert_eq!(
        told(&["--unproduced"]),
        (
            0,
            format!("loops no\nmissing 0\nunproduced 0\n{}", end("three"))
        )
    );
    // A state that is ruled out is in no list, and what hangs on it is.
    let (status, printed) = told(&["--unproduced", "--cut=lamp"]);
    assert_eq!(status, 1);
    assert!(printed.contains("\nunproduced 1 heater\n"), "{printed}");
    let picture = told(&[cut, "--dot"]).1;
    assert_eq!(told(&[cut, "--dot", "--unproduced"]), (1, picture));
}

/// In edition 2 the list is the proved missing list of more rules, and that is what is said of it.
#[test]
fn what_nothing_produces_among_many() {
    let mut rules: String = (0..1_100)
        .map(|n| format!("s({n}) :- s({}).\n", (n + 1) % 1_100))
        .collect();
    rules += "lamp :- s(7).\nbus.\n";
    let ran = run(&["check", "--unproduced"], &rules);
    assert_eq!((ran.status, &*ran.stderr), (1, ""));
    let lines: Vec<&str> = ran.stdout.lines().collect();
    assert!(lines[1].starts_with("missing 1100 s(0) s(1) "));
    assert!(lines[2].starts_with("unproduced 1101 s(0) s(1) "));
    assert!(lines[2].ends_with(" s(1099) lamp"));
    assert_eq!(
        lines[lines.len() - 1],
        "The first two lines are proved, and the third as the missing list of these rules with `a :- a` added for each state a. \
         What is told of the circles is not, but each was checked against the rules."
    );
    let json = run(&["check", "--unproduced", "--json"], &rules).stdout;
    assert!(
        json.contains("  \"proved\": \"loops and missing are proved, and unproduced as the missing list of these rules with `a :- a` added for each state a; "),
        "{json}"
    );

    let facts: String = (0..140_000).map(|n| format!("s({n}).\n")).collect();
    assert_eq!(run(&["check"], &facts).status, 0);
    assert_eq!(
        refused(&["check", "--unproduced"], &facts),
        "founded: --unproduced: with `a :- a` added for each state a: expected at most 262144 rules, found more\n"
    );
}

/// Above edition 1's limits the answer is the wide calls', without a word; the proved program reads edition 1 alone.
#[test]
fn many_states() {
    let ring: String = (0..3_000)
        .map(|n| format!("s({n}) :- s({}).\n", (n + 1) % 3_000))
        .collect();
    let ran = run(&["check"], &ring);
    assert_eq!((ran.status, &*ran.stderr), (1, ""));
    assert!(
        ran.stdout.starts_with("loops yes\nmissing 3000 s(0) s(1) "),
        "{}",
        &ran.stdout[..80]
    );
    let file = made("many.words");
    let said = refused(&["check", "--words", file.to_str().unwrap()], &ring);
    assert!(
        said.starts_with("founded: --words: the proved program reads graphs of edition 1 alone"),
        "{said}"
    );
    let facts: String = (0..262_145).map(|n| format!("s({n}).\n")).collect();
    assert_eq!(
        refused(&["check"], &facts),
        "-:262145:1: expected at most 262144 states, found more\n    s(262144).\n    ^\n"
    );
}

/// The proved program's answer for the words that `--words` writes is the list that the command tells. The gate builds the program before it runs this.
#[test]
fn the_proved_program_confirms() {
    let program = top().join("crates/founded_support/out/founded_support");
    assert!(
        program.exists(),
        "{} is not there: `rt run` in crates/founded_support proves and builds it",
        program.display()
    );
    let file = made("confirm.words");
    let path = file.to_str().unwrap();
    let mut lists = 0;
    for seed in 0..200 {
        let mut rng = Rng::new(seed);
        let text = match seed {
            0 => fs::read_to_string(top().join("examples/cubesat.lp")).unwrap(),
            _ => rule_file(&mut rng, 30),
        };
        let cut = ["e0", "not e0", "-:5"][rng.below(3)];
        let mut ran = run(&["check", "--words", path, "--cut", cut], &text);
        if ran.status == 2 {
            ran = run(&["check", "--words", path], &text);
        }
        let output = Command::new(&program)
            .stdin(fs::File::open(&file).unwrap())
            .output()
            .unwrap();
        let printed = String::from_utf8(output.stdout).unwrap();
        let (loops, missing) = printed.trim_end().split_once('\n').unwrap();
        assert_eq!(ran.stdout.lines().next(), Some(loops));
        assert!(
            ran.stdout
                .contains(&format!("founded_support is to say `{missing}`")),
            "{printed}\n{}",
            ran.stdout
        );
        // The names of the numbers are those of the second line.
        let second = ran.stdout.lines().nth(1).unwrap();
        assert_eq!(second.split(' ').count(), missing.split(' ').count());
        lists += usize::from(missing != "missing 0");
    }
    assert!(lists > 50, "{lists}");
}

/// Files beside each other are one program; a line is told by its own file.
#[test]
fn several_files() {
    let directory = made("several");
    fs::create_dir_all(&directory).unwrap();
    fs::write(directory.join("one.lp"), "a :- b.\n").unwrap();
    fs::write(directory.join("two.lp"), "b :- a.\n").unwrap();
    let ran = run_in(
        &directory,
        &[
            "check", "one.lp", "two.lp", "--svg", "both.svg", "--cut", "two.lp:1",
        ],
        "",
    );
    assert!(
        ran.stdout.contains("missing 2 a b\nruled out two.lp:1\n"),
        "{}",
        ran.stdout
    );
    let svg = fs::read_to_string(directory.join("both.svg")).unwrap();
    assert_eq!(texts(&svg, "line"), ["one.lp:1"]);
    let ran = run_in(&directory, &["check", "one.lp"], "");
    assert_eq!(ran.status, 2);
    assert_eq!(
        ran.stderr,
        "one.lp:1:6: expected a state that a rule concludes or an #external, found `b`\n    a :- b.\n         ^\n"
    );
}
