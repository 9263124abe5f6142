//! Random rule files: the list and what is told of its circles, held to the rules by plain code of its own.

mod common;

use std::collections::BTreeSet;

use common::Rng;
use common::command::rule_file;
use founded::explain::{Cuts, Explanation, unproduced};
use founded::rules::{self, Literal, Program};

/// What is cut in a run, as the test has it.
#[derive(Default)]
struct Cut {
    leaves: BTreeSet<Literal>,
    rules: BTreeSet<usize>,
}

type States = BTreeSet<usize>;

/// Whether a rule's body holds if exactly these states do.
fn holds(program: &Program, cut: &Cut, rule: usize, states: &States) -> bool {
    let leaf = |leaf: &Literal| {
        !cut.leaves.contains(leaf)
            && match leaf {
                Literal::State(state) => states.contains(state),
                Literal::Condition(_) => true,
            }
    };
    !cut.rules.contains(&rule) && program.rules()[rule].body().iter().all(leaf)
}

/// The states on a loop, cuts ignored.
fn cyclic(program: &Program) -> States {
    let count = program.states().len();
    let mut reach = vec![States::new(); count];
    for rule in program.rules() {
        for leaf in rule.body() {
            if let Literal::State(state) = *leaf {
                reach[state].extend(rule.heads());
            }
        }
    }
    for through in 0..count {
        for from in 0..count {
            if reach[from].contains(&through) {
                let further = reach[through].clone();
                reach[from].extend(further);
            }
        }
    }
    (0..count)
        .filter(|&state| reach[state].contains(&state))
        .collect()
}

fn uncut(program: &Program, cut: &Cut) -> States {
    let states = 0..program.states().len();
    states
        .filter(|&state| !cut.leaves.contains(&Literal::State(state)))
        .collect()
}

/// The states of `among` that are held up, if these facts are given and the uncut states besides `among` hold.
fn held_up(program: &Program, cut: &Cut, among: &States, facts: &States) -> States {
    let uncut = uncut(program, cut);
    let mut held: States = facts.intersection(among).copied().collect();
    loop {
        let true_now: States = uncut.difference(among).chain(&held).copied().collect();
        let mut more = held.clone();
        for (rule, read) in program.rules().iter().enumerate() {
            if holds(program, cut, rule, &true_now) {
                more.extend(read.heads().iter().filter(|head| among.contains(head)));
            }
        }
        if more == held {
            return held;
        }
        held = more;
    }
}

fn missing(program: &Program, cut: &Cut, among: &States, facts: &States) -> States {
    let among: States = uncut(program, cut).intersection(among).copied().collect();
    let held = held_up(program, cut, &among, facts);
    among.difference(&held).copied().collect()
}

/// Demand 3's unfounded set.
fn unfounded(program: &Program, cut: &Cut, set: &States) -> bool {
    let uncut = uncut(program, cut);
    let outside: States = uncut.difference(set).copied().collect();
    let concludes = |rule: usize| {
        program.rules()[rule]
            .heads()
            .iter()
            .any(|head| set.contains(head))
    };
    set.is_subset(&uncut)
        && set.is_subset(&cyclic(program))
        && (0..program.rules().len())
            .all(|rule| !concludes(rule) || !holds(program, cut, rule, &outside))
}

/// Cuts some of what there is, for the program and for the test.
fn random_cuts(rng: &mut Rng, program: &Program) -> (Cuts, Cut) {
    let (mut cuts, mut cut) = (Cuts::default(), Cut::default());
    for _ in 0..rng.below(4) {
        let conditions = program.conditions().len();
        let leaf = match rng.below(2) {
            0 if conditions > 0 => Literal::Condition(rng.below(conditions)),
            _ => Literal::State(rng.below(program.states().len())),
        };
        let spread = program.text(leaf).replace('(', " ( ");
        cuts.rule_out(program, &spread).unwrap();
        cut.leaves.insert(leaf);
    }
    for _ in 0..rng.below(2) * rng.below(3) {
        let rule = rng.below(program.rules().len());
        let line = program.line(&program.rules()[rule]);
        // A fact has no body to cut.
        let fact = program.rules()[rule].body().is_empty();
        assert_eq!(cuts.rule_out(program, &line).is_err(), fact);
        if !fact {
            cut.rules.insert(rule);
        }
    }
    (cuts, cut)
}

/// A part's states and those of the parts below it.
fn with_below(explanation: &Explanation, number: usize) -> States {
    let part = &explanation.parts[number];
    let mut states: States = part.states().iter().copied().collect();
    for &other in part.leans_on() {
        assert!(other < number);
        states.extend(with_below(explanation, other));
    }
    states
}

fn set(states: &[usize]) -> States {
    states.iter().copied().collect()
}

#[derive(Default, Debug)]
struct Seen {
    circles: usize,
    alone: usize,
    leaning: usize,
    not_all_break: usize,
    fallen: usize,
}

fn try_part(
    program: &Program,
    cut: &Cut,
    explanation: &Explanation,
    number: usize,
    seen: &mut Seen,
) {
    let part = &explanation.parts[number];
    let own = set(part.states());
    let all = with_below(explanation, number);
    assert!(unfounded(program, cut, &all));

    // What it leans on is what one of its rules needs, and no rule is left out.
    let missing_states = set(&explanation.missing);
    let nothing_cut = |rule: usize| holds(program, cut, rule, &uncut(program, cut));
    let concluding = (0..program.rules().len()).filter(|&rule| {
        program.rules()[rule]
            .heads()
            .iter()
            .any(|head| own.contains(head))
    });
    let (alive, dead): (Vec<usize>, Vec<usize>) = concluding.partition(|&rule| nothing_cut(rule));
    let needs = |rule: usize| -> States {
        let leaves = program.rules()[rule].body().iter();
        let states = leaves.filter_map(|leaf| match *leaf {
            Literal::State(state) => Some(state),
            Literal::Condition(_) => None,
        });
        states
            .filter(|state| missing_states.contains(state))
            .collect()
    };
    let (within, leaning): (Vec<usize>, Vec<usize>) = alive
        .iter()
        .partition(|&&rule| !needs(rule).is_disjoint(&own));
    assert_eq!(part.rules(), within);
    assert_eq!(part.leaning(), leaning);
    assert_eq!(part.ruled_out(), dead);
    let needed: States = alive.iter().flat_map(|&rule| needs(rule)).collect();
    let below: States = part
        .leans_on()
        .iter()
        .flat_map(|&other| set(explanation.parts[other].states()))
        .collect();
    assert!(
        needed
            .iter()
            .all(|state| own.contains(state) || below.contains(state))
    );
    for &other in part.leans_on() {
        assert!(!needed.is_disjoint(&set(explanation.parts[other].states())));
    }

    // Strongly connected: from each state of a circle each other is reached.
    if part.is_circle() {
        for &from in &own {
            let mut reached = States::from([from]);
            let mut before = 0;
            while before < reached.len() {
                before = reached.len();
                for &rule in &within {
                    if !needs(rule).is_disjoint(&reached) {
                        reached.extend(
                            program.rules()[rule]
                                .heads()
                                .iter()
                                .filter(|head| own.contains(head)),
                        );
                    }
                }
            }
            assert_eq!(reached, own);
        }
    } else {
        assert_eq!(own.len(), 1);
    }

    // What breaks it: the fact alone, while the parts that it leans on stay missing.
    let breaks = |&&state: &&usize| {
        let held = held_up(program, cut, &all, &States::from([state]));
        own.is_subset(&held)
    };
    let breakers: Vec<usize> = own.iter().filter(breaks).copied().collect();
    assert_eq!(part.breakers(), Some(&breakers[..]));

    // What falls with it: what leaves the list of what nothing produces.
    let every: States = (0..program.states().len()).collect();
    let before = missing(program, cut, &every, &States::new());
    let after = missing(program, cut, &every, &own);
    let fallen: Vec<usize> = before
        .difference(&after)
        .filter(|state| !own.contains(state))
        .copied()
        .collect();
    assert_eq!(part.falls(), Some(&fallen[..]));

    seen.circles += usize::from(part.is_circle());
    seen.alone += usize::from(!part.is_circle());
    seen.leaning += usize::from(!part.leans_on().is_empty());
    seen.not_all_break += usize::from(breakers.len() < own.len());
    seen.fallen += usize::from(!fallen.is_empty());
}

#[test]
fn random_rule_files() {
    let mut seen = Seen::default();
    for seed in 0..3_000 {
        let mut rng = Rng::new(seed);
        let text = rule_file(&mut rng, if seed % 10 == 0 { 30 } else { 8 });
        let program = rules::read([("random.lp", &text)])
            .unwrap_or_else(|problems| panic!("{text}\n{problems}"));
        let (cuts, cut) = random_cuts(&mut rng, &program);
        let explanation =
            Explanation::of(&program, &cuts).unwrap_or_else(|failure| panic!("{text}\n{failure}"));
        let cyclic = cyclic(&program);
        assert_eq!(explanation.loops, !cyclic.is_empty());
        let missing = missing(&program, &cut, &cyclic, &States::new());
        assert_eq!(set(&explanation.missing), missing, "{text}");
        let parted: Vec<usize> = explanation
            .parts
            .iter()
            .flat_map(|part| part.states().to_vec())
            .collect();
        assert_eq!(parted.len(), missing.len());
        assert_eq!(set(&parted), missing);
        for number in 0..explanation.parts.len() {
            try_part(&program, &cut, &explanation, number, &mut seen);
        }
    }
    let Seen {
        circles,
        alone,
        leaning,
        not_all_break,
        fallen,
    } = seen;
    let least = [circles, alone, leaning, not_all_break, fallen]
        .into_iter()
        .min();
    assert!(least > Some(100), "{seen:?}");
}

/// The list of what nothing produces, as plain code has it, and in both ways that the crate has: by the call, and by the missing list of the rules with `a :- a` for each state. The second
/// is taken in either edition: on rules to which these are added, and where so many facts are added that edition 1 has no room, for them or for what falls with a circle.
#[test]
fn what_nothing_produces() {
    let facts: String = (0..1_025).map(|n| format!("fact({n}).\n")).collect();
    let (mut some, mut more, mut falling) = (0, 0, 0);
    for seed in 0..600 {
        let mut rng = Rng::new(seed);
        let text = rule_file(&mut rng, if seed % 10 == 0 { 30 } else { 8 });
        let read = |text: &str| rules::read([("random.lp", text)]).unwrap();
        let program = read(&text);
        let (cuts, cut) = random_cuts(&mut rng, &program);
        let list = unproduced(&program, &cuts).unwrap();
        let explanation = Explanation::of(&program, &cuts).unwrap();

        let every: States = (0..program.states().len()).collect();
        let left = missing(&program, &cut, &every, &States::new());
        assert_eq!(set(&list), left, "{text}");
        assert!(set(&explanation.missing).is_subset(&left));

        // Numbers stay as they are, since what is added comes last.
        let names = program.states().iter();
        let loops: String = names.map(|name| format!("{name} :- {name}.\n")).collect();
        let with_loops = read(&format!("{text}{loops}"));
        let explained = Explanation::of(&with_loops, &cuts).unwrap();
        assert_eq!(explained.missing, list, "{text}");

        // More than edition 1 has room for, and just so many rules that one more has no room.
        let one = "fact(0).\n".repeat(1_024 - program.rules().len());
        for facts in [&facts, &one] {
            let more = read(&format!("{text}{facts}"));
            assert_eq!(unproduced(&more, &cuts).unwrap(), list, "{text}");
            let explained = Explanation::of(&more, &cuts).unwrap();
            assert_eq!(explained.parts, explanation.parts);
        }

        some += usize::from(!list.is_empty());
        more += usize::from(list.len() > explanation.missing.len());
        let mut falls = explanation.parts.iter().filter_map(|part| part.falls());
        falling += usize::from(falls.any(|falls| !falls.is_empty()));
    }
    assert!(
        some > 100 && more > 100 && falling > 50,
        "{some} {more} {falling}"
    );
}

#[test]
fn the_circle_that_leans_on_another() {
    let program = rules::read([("two.lp", "a :- a.\nb :- b.\nb :- a.\n")]).unwrap();
    let explanation = Explanation::of(&program, &Cuts::default()).unwrap();
    let [a, b] = &explanation.parts[..] else {
        panic!()
    };
    assert_eq!((a.states(), a.leans_on()), (&[0][..], &[][..]));
    assert_eq!((b.states(), b.leans_on()), (&[1][..], &[0][..]));
    assert_eq!((a.falls(), b.falls()), (Some(&[1][..]), Some(&[][..])));
    // b alone is no unfounded set: a counts as true outside it.
    let cut = Cut::default();
    assert!(unfounded(&program, &cut, &set(&[0])) && unfounded(&program, &cut, &set(&[0, 1])));
    assert!(!unfounded(&program, &cut, &set(&[1])));
}
