//! The program's text, by hand and against the calls.

use compare::agree::Masks;
use compare::calls::widened;
use compare::cases;
use compare::random::{self, SCALES};
use compare::record::input;
use compare::rng::Rng;
use paper::WORK_WORDS;
use paper::program::{self, Report, run};

fn text(bytes: &[u8]) -> String {
    String::from_utf8(program::text(&run(bytes))).expect("text")
}

/// C2 with both masks zero, as document 01 prints it.
const C2: [u16; 19] = [1, 2, 2, 2, 2, 1, 0, 0, 1, 1, 0, 2, 1, 1, 2, 0, 0, 1, 0];

#[test]
fn texts_by_hand() {
    let c2 = input(&C2, &(vec![0], vec![0]));
    assert_eq!(c2.len(), 54);
    assert_eq!(text(&c2), "loops yes\nmissing 2 0 1\n");
    assert_eq!(text(b""), "refused 1 0\n");
    assert_eq!(text(&[1, 0, 0, 0, 0, 0, 0, 0, 0]), "refused 1 0\n");
    assert_eq!(
        text(&[1, 0, 0, 0, 0, 0, 0, 0, 0, 0]),
        "loops no\nmissing 0\n"
    );
    assert_eq!(text(&[1, 0, 0, 0, 0, 0, 0, 0, 0, 0, 7]), "refused 10 0\n");
    assert_eq!(text(&[2, 0, 0, 0, 0, 0, 0, 0, 0, 0, 7]), "refused 1 0\n");
    assert_eq!(text(&[1, 0, 1, 4, 0, 0, 0, 0, 0, 0, 7]), "refused 2 0\n");
    assert_eq!(text(&c2[..37]), "refused 3 0\n");
    assert_eq!(text(&c2[..36]), "refused 3 0\n");
    assert_eq!(text(&c2[..38]), "refused 10 0\n");
    assert_eq!(text(&c2[..46]), "refused 10 0\n");
    assert_eq!(text(&c2[..53]), "refused 10 0\n");
    assert_eq!(text(&[&c2[..], &[0]].concat()), "refused 10 0\n");
    let mut bad = c2.clone();
    bad[34] = 2; // The second link's value: a head equal to A.
    assert_eq!(text(&bad), "refused 8 1\n");
    assert_eq!(text(&bad[..38]), "refused 8 1\n");
}

/// The words are of 16 bits: edition 2 is refused in them, and a file of 32-bit
/// words is read as they are.
#[test]
fn texts_of_edition_2() {
    let clear: Masks = (vec![0], vec![0]);
    let mut narrow = C2;
    narrow[0] = 2;
    assert_eq!(text(&input(&narrow, &clear)), "refused 1 0\n");
    let mut wide = widened(&C2);
    let bytes = input(&wide, &clear);
    assert_eq!(bytes.len(), 4 * 19 + 16);
    assert_eq!(text(&bytes), "refused 1 0\n");
    // Counts above edition 1's, or cut short: still 1.
    wide[1] = 2_000;
    assert_eq!(text(&input(&wide, &clear)), "refused 1 0\n");
    assert_eq!(text(&bytes[..10]), "refused 1 0\n");
    // With 1 before it: no atoms, 2 nodes, no rules, 2 links, and 8 bytes after 30.
    let mut one = widened(&C2);
    one[0] = 1;
    assert_eq!(text(&input(&one, &clear)), "refused 4 0\n");
}

#[test]
fn masks_are_read_atoms_first() {
    for (name, expected) in [
        ("C4", "loops yes\nmissing 1 1\n"),
        ("C5", "loops yes\nmissing 1 1\n"),
    ] {
        let case = cases::all()
            .into_iter()
            .find(|case| case.name == name)
            .expect(name);
        assert_eq!(text(&input(&case.content.words(), &case.masks())), expected);
    }
    let case = cases::all()
        .into_iter()
        .find(|case| case.name == "C11 cut")
        .expect("C11");
    let words = case.content.words();
    assert_eq!(
        text(&input(&words, &(vec![0], vec![2]))),
        "loops yes\nmissing 1 0\n"
    );
    assert_eq!(
        text(&input(&words, &(vec![2], vec![0]))),
        "loops yes\nmissing 1 0\n"
    );
    assert_eq!(
        text(&input(&words, &(vec![1], vec![0]))),
        "loops yes\nmissing 0\n"
    );
    assert_eq!(
        text(&input(&words, &(vec![0], vec![1]))),
        "loops yes\nmissing 0\n"
    );
}

/// On whole inputs the program says what the calls say.
#[test]
fn program_agrees_with_the_calls() {
    let mut rng = Rng::new(7);
    for i in 0..4_000 {
        let scale = if i % 50 == 0 { 3 } else { i % 3 };
        let words: Vec<u16> = random::graph(&mut rng, SCALES[scale]);
        let masks = random::masks(&mut rng, &words, 2).swap_remove(1);
        assert_eq!(run(&input(&words, &masks)), by_calls(&words, &masks));
    }
}

fn by_calls(words: &[u16], (never, atom_never): &Masks) -> Result<Report, paper::Refusal> {
    let output = atom_never.len();
    let missing = paper::complete(words, never, atom_never, output, WORK_WORDS)?;
    Ok(Report {
        loops: paper::needed(words, WORK_WORDS)?,
        missing: (0..64 * output)
            .filter(|&atom| paper::is_cut(&missing, atom))
            .collect(),
    })
}
