//! Programs with one fault each: the gate's run must find it.

use std::io::ErrorKind;
use std::process::Command;
use std::time::Duration;

use compare::programs::{COUNT, Difference, Ended, MOST, SEED, Tally, compare, process};
use paper::program::{self, run};

/// The papers' text for these bytes.
fn text(bytes: &[u8]) -> Vec<u8> {
    program::text(&run(bytes))
}

type Program = Box<dyn Fn(&[&[u8]]) -> Ended>;
type Reading = fn(&[&[u8]]) -> Vec<u8>;
type Printing = fn(Vec<u8>) -> Vec<u8>;

fn found(program: &Program) -> Result<Tally, Box<Difference>> {
    compare(SEED, COUNT, |pieces| Ok(program(pieces)))
}

/// Each fault is found, as a difference in this.
fn seen(faults: Vec<(String, Program)>, what: &str) {
    for (name, program) in faults {
        let difference = found(&program).expect_err(&name);
        let said = difference.to_string();
        assert!(difference.what.starts_with(what), "{name}: {said}");
        println!("{name}: {said}\n");
    }
}

/// Nor is it that of the first 26,891 bytes: more changes nothing, by `enough` of
/// the crate `report`.
#[test]
fn the_papers_own_text_is_no_difference() {
    let right: Program = Box::new(|pieces| {
        let bytes = pieces.concat();
        Ended::printing(text(&bytes[..bytes.len().min(MOST)]))
    });
    let tally = found(&right).unwrap_or_else(|difference| panic!("{difference}"));
    println!("{tally}");
    assert!(tally.slow > 80 && tally.long > 25 && tally.with_missing > 100);
    // Each number but 11, since the work area is the program's own, and 13, which no call has yet.
    for number in (1..=14).filter(|number| ![11, 13].contains(number)) {
        assert!(tally.refused[number] > 5, "{number}");
    }
}

/// What a program reads of the pieces, and takes for its input.
mod read {
    use super::MOST;

    /// The 16-bit word at that place, 0 past the end.
    fn word(bytes: &[u8], at: usize) -> usize {
        match bytes.get(2 * at..2 * at + 2) {
            Some(pair) => usize::from(u16::from_le_bytes([pair[0], pair[1]])),
            None => 0,
        }
    }

    /// Bytes of the graph, of the atom mask and of the node mask.
    fn lengths(bytes: &[u8]) -> [usize; 3] {
        let [atoms, nodes, rules, links] = [1, 2, 3, 4].map(|at| word(bytes, at));
        let mask = |count: usize| 8 * count.div_ceil(64);
        let graph = 2 * (5 + 3 * nodes + 2 * rules + 2 * links);
        [graph, mask(atoms), mask(nodes)]
    }

    pub fn at_most(pieces: &[&[u8]], most: usize) -> Vec<u8> {
        let mut bytes = pieces.concat();
        bytes.truncate(most);
        bytes
    }

    /// As long as it is, but nothing kept of what comes after this.
    pub fn zeros_from(pieces: &[&[u8]], kept: usize) -> Vec<u8> {
        let mut bytes = pieces.concat();
        bytes.iter_mut().skip(kept).for_each(|byte| *byte = 0);
        bytes
    }

    pub fn one_piece(pieces: &[&[u8]]) -> Vec<u8> {
        pieces[0].to_vec()
    }

    /// As one would that reads once more after a short read.
    pub fn two_pieces(pieces: &[&[u8]]) -> Vec<u8> {
        pieces[..pieces.len().min(2)].concat()
    }

    /// As one would with a buffer that is filled anew.
    pub fn up_to_a_short_piece(pieces: &[&[u8]]) -> Vec<u8> {
        let full = pieces.iter().take_while(|piece| piece.len() >= 4_096);
        pieces[..pieces.len().min(full.count() + 1)].concat()
    }

    pub fn last_piece(pieces: &[&[u8]]) -> Vec<u8> {
        pieces[pieces.len() - 1].to_vec()
    }

    pub fn last_byte_dropped(pieces: &[&[u8]]) -> Vec<u8> {
        at_most(pieces, pieces.concat().len().saturating_sub(1))
    }

    pub fn odd_byte_dropped(pieces: &[&[u8]]) -> Vec<u8> {
        at_most(pieces, pieces.concat().len() / 2 * 2)
    }

    pub fn odd_byte_as_a_word(pieces: &[&[u8]]) -> Vec<u8> {
        let mut bytes = pieces.concat();
        bytes.resize(bytes.len().next_multiple_of(2), 0);
        bytes
    }

    pub fn length_in_16_bits(pieces: &[&[u8]]) -> Vec<u8> {
        at_most(pieces, pieces.concat().len() % 65_536)
    }

    /// The buffer is written over from its start.
    pub fn over_again(pieces: &[&[u8]]) -> Vec<u8> {
        let bytes = pieces.concat();
        let mut buffer = at_most(pieces, MOST);
        for (at, &byte) in bytes.iter().enumerate() {
            buffer[at % MOST] = byte;
        }
        buffer
    }

    pub fn up_to_a_newline(pieces: &[&[u8]]) -> Vec<u8> {
        let bytes = pieces.concat();
        let line = bytes.iter().take_while(|&&byte| byte != b'\n');
        line.copied().collect()
    }

    /// As one would that takes 255 for the end.
    pub fn up_to_255(pieces: &[&[u8]]) -> Vec<u8> {
        let bytes = pieces.concat();
        let kept = bytes.iter().take_while(|&&byte| byte != 255);
        kept.copied().collect()
    }

    /// Until the graph and its masks are there: more is not seen.
    pub fn as_sized(pieces: &[&[u8]]) -> Vec<u8> {
        let bytes = pieces.concat();
        let most = lengths(&bytes).iter().sum();
        at_most(pieces, most)
    }

    /// The graph, and masks that are clear.
    pub fn graph_alone(pieces: &[&[u8]]) -> Vec<u8> {
        let [graph, atoms, nodes] = lengths(&pieces.concat());
        let mut bytes = at_most(pieces, graph);
        if bytes.len() == graph {
            bytes.resize(graph + atoms + nodes, 0);
        }
        bytes
    }

    /// The masks' lengths alone.
    pub fn masks_cleared(pieces: &[&[u8]]) -> Vec<u8> {
        let mut bytes = pieces.concat();
        let [graph, ..] = lengths(&bytes);
        bytes.iter_mut().skip(graph).for_each(|byte| *byte = 0);
        bytes
    }

    pub fn node_mask_first(pieces: &[&[u8]]) -> Vec<u8> {
        let mut bytes = pieces.concat();
        let [graph, atoms, nodes] = lengths(&bytes);
        if bytes.len() == graph + atoms + nodes {
            bytes[graph..].rotate_left(atoms);
        }
        bytes
    }

    pub fn edition_2_as_1(pieces: &[&[u8]]) -> Vec<u8> {
        let mut bytes = pieces.concat();
        if word(&bytes, 0) == 2 {
            bytes[0] = 1;
        }
        bytes
    }

    /// A graph of edition 2 in 32-bit words is taken too.
    pub fn edition_2_in_32_bits(pieces: &[&[u8]]) -> Vec<u8> {
        let bytes = pieces.concat();
        let (words, _) = bytes.as_chunks::<4>();
        let numbers: Option<Vec<u16>> = words
            .iter()
            .map(|&four| u16::try_from(u32::from_le_bytes(four)).ok())
            .collect();
        // Masks of small numbers alone: enough for the cases.
        match numbers.as_deref() {
            Some([2, rest @ ..]) => {
                let narrow: Vec<u8> = [&[1], rest]
                    .concat()
                    .iter()
                    .flat_map(|word| word.to_le_bytes())
                    .collect();
                let [graph, ..] = lengths(&narrow);
                let graph = graph.min(narrow.len());
                [&narrow[..graph], &bytes[2 * graph..]].concat()
            }
            _ => bytes,
        }
    }
}

#[test]
fn faults_in_reading_are_found() {
    let reading: [(&str, Reading); 18] = [
        ("the first piece alone", read::one_piece),
        ("the first two pieces", read::two_pieces),
        ("up to a short piece", read::up_to_a_short_piece),
        ("the last piece alone", read::last_piece),
        ("without the last byte", read::last_byte_dropped),
        ("without an odd last byte", read::odd_byte_dropped),
        ("an odd last byte as a word", read::odd_byte_as_a_word),
        ("its length in 16 bits", read::length_in_16_bits),
        ("into the buffer over again", read::over_again),
        ("up to a newline", read::up_to_a_newline),
        ("up to a byte of 255", read::up_to_255),
        ("as much as the header sizes", read::as_sized),
        ("the graph alone", read::graph_alone),
        ("the masks' lengths alone", read::masks_cleared),
        ("the node mask first", read::node_mask_first),
        ("edition 2 as 1", read::edition_2_as_1),
        ("edition 2 in 32-bit words", read::edition_2_in_32_bits),
        ("a byte more", |pieces| {
            [&pieces.concat()[..], &[0]].concat()
        }),
    ];
    let mut faults: Vec<(String, Program)> = vec![];
    for (name, read) in reading {
        let program: Program = Box::new(move |pieces| Ended::printing(text(&read(pieces))));
        faults.push((name.into(), program));
    }
    // The last is as many as are not refused: one byte more is not seen.
    for most in [0, 1, 53, 54, 64, 1_024, 4_096, 8_192, 26_889, 26_890] {
        let program: Program =
            Box::new(move |pieces| Ended::printing(text(&read::at_most(pieces, most))));
        faults.push((format!("at most {most} bytes"), program));
    }
    // The end of the longest graph, of its atom mask and of its node mask.
    for kept in [64, 4_096, 16_384, 26_628, 26_634, 26_762, 26_889] {
        let program: Program =
            Box::new(move |pieces| Ended::printing(text(&read::zeros_from(pieces, kept))));
        faults.push((format!("zeros from byte {kept} on"), program));
    }
    seen(faults, "printed ");
}

/// What is made of a text. Each but the first few changes only some.
mod print {
    fn string(text: Vec<u8>) -> String {
        String::from_utf8(text).expect("text")
    }

    /// The text with the numbers of its last line changed.
    fn numbers(text: Vec<u8>, word: &str, change: impl FnOnce(&mut Vec<u32>)) -> Vec<u8> {
        let text = string(text);
        let Some((before, line)) = text.split_once(word) else {
            return text.into_bytes();
        };
        let mut numbers: Vec<u32> = line
            .split_whitespace()
            .map(|number| number.parse().expect("a number"))
            .collect();
        change(&mut numbers);
        let line: String = numbers.iter().map(|number| format!(" {number}")).collect();
        format!("{before}{word}{line}\n").into_bytes()
    }

    pub fn missing(text: Vec<u8>, change: impl FnOnce(&mut Vec<u32>)) -> Vec<u8> {
        numbers(text, "missing", change)
    }

    /// A refusal with this number, changed.
    pub fn refusal(text: Vec<u8>, number: u32, change: impl FnOnce(&mut [u32])) -> Vec<u8> {
        numbers(text, "refused", |numbers| {
            if numbers[0] == number {
                change(numbers);
            }
        })
    }

    pub fn replaced(text: Vec<u8>, from: &str, to: &str) -> Vec<u8> {
        string(text).replace(from, to).into_bytes()
    }
}

#[test]
fn faults_in_printing_are_found() {
    let printing: [(&str, Printing); 15] = [
        ("nothing", |_| vec![]),
        ("the text twice", |text| text.repeat(2)),
        ("no final newline", |text| text[..text.len() - 1].to_vec()),
        ("a newline more", |text| [&text[..], b"\n"].concat()),
        ("a byte of 0 behind", |text| [&text[..], &[0]].concat()),
        ("no first line", |text| {
            text.split_inclusive(|&byte| byte == b'\n')
                .next_back()
                .map_or(vec![], <[u8]>::to_vec)
        }),
        ("yes for no", |text| print::replaced(text, "no", "yes")),
        ("no for yes", |text| print::replaced(text, "yes", "no")),
        ("the count one more", |text| {
            print::missing(text, |numbers| numbers[0] += 1)
        }),
        ("the count of a long list", |text| {
            print::missing(text, |numbers| numbers[0] = numbers[0].min(1_023))
        }),
        ("the list from its end", |text| {
            print::missing(text, |numbers| numbers[1..].reverse())
        }),
        ("the list without its first", |text| {
            print::missing(text, |numbers| drop(numbers.drain(1..2.min(numbers.len()))))
        }),
        ("a state of the list one more", |text| {
            print::missing(text, |numbers| {
                if let [_, .., last] = &mut numbers[..] {
                    *last += 1;
                }
            })
        }),
        ("at most 1,024 bytes", |mut text| {
            text.truncate(1_024);
            text
        }),
        // The longest text has one byte more.
        ("at most 4,032 bytes", |mut text| {
            text.truncate(4_032);
            text
        }),
    ];
    let mut faults: Vec<(String, Program)> = vec![];
    for (name, print) in printing {
        let program: Program = Box::new(move |p| Ended::printing(print(text(&p.concat()))));
        faults.push((name.into(), program));
    }
    for number in (1..=14).filter(|number| ![11, 13].contains(number)) {
        let program: Program = Box::new(move |pieces| {
            let text = text(&pieces.concat());
            Ended::printing(print::refusal(text, number, |numbers| numbers[0] += 1))
        });
        faults.push((format!("another number for {number}"), program));
        let program: Program = Box::new(move |pieces| {
            let text = text(&pieces.concat());
            Ended::printing(print::refusal(text, number, |numbers| numbers[1] += 1))
        });
        faults.push((format!("the place of {number} one more"), program));
    }
    let program: Program = Box::new(|pieces| {
        let bytes = pieces.concat();
        let kept = bytes.len() <= MOST;
        Ended::printing(if kept { text(&bytes) } else { vec![] })
    });
    faults.push(("nothing of a long input".into(), program));
    seen(faults, "printed ");
}

/// A run that prints the right text and ends otherwise.
fn ending(name: &str, change: fn(&[u8], &mut Ended)) -> (String, Program) {
    let program: Program = Box::new(move |pieces| {
        let bytes = pieces.concat();
        let mut ended = Ended::printing(text(&bytes));
        change(&bytes, &mut ended);
        ended
    });
    (name.into(), program)
}

#[test]
fn faults_in_ending_are_found() {
    let refused = ending("status 1 of a refusal", |_, ended| {
        let refused = ended.printed.starts_with(b"refused");
        ended.status = Some(i32::from(refused));
    });
    seen(vec![refused], "it ended with 1");
    let signal = ending("a signal after a long input", |bytes, ended| {
        if bytes.len() > MOST {
            ended.status = None;
        }
    });
    seen(vec![signal], "a signal ended it");
    let errors = ending("a refusal on standard error too", |_, ended| {
        if ended.printed.starts_with(b"refused") {
            ended.errors = ended.printed.clone();
        }
    });
    seen(vec![errors], "on standard error");
    let unread = ending("the rest of a long input unread", |bytes, ended| {
        ended.read = bytes.len() <= MOST;
    });
    seen(vec![unread], "it did not read its input to the end");
}

/// A process is fed and heard whole, and does not run on.
#[test]
fn a_process_ends_as_it_does() {
    let bytes: Vec<u8> = (0..1 << 20).map(|i: u32| (i / 3) as u8).collect();
    let (first, rest) = bytes.split_at(7);
    let pieces = [first, &rest[..65_536], &rest[65_536..]];
    let shell = |script: &str, seconds: u64| {
        let mut command = Command::new("sh");
        let limit = Duration::from_secs(seconds);
        process(command.args(["-c", script]), limit, &pieces)
    };
    let run = |script: &str| shell(script, 60).expect("a run");
    assert_eq!(run("cat"), Ended::printing(bytes.clone()));
    let ended = run("cat >/dev/null; echo no >&2; exit 3");
    assert_eq!((ended.printed, ended.errors), (vec![], b"no\n".to_vec()));
    assert_eq!((ended.status, ended.read), (Some(3), true));
    let ended = run("kill -9 $$");
    assert_eq!((ended.status, ended.read), (None, false));
    let endless = shell("exec sleep 600", 1).expect_err("it sleeps");
    assert_eq!(endless.kind(), ErrorKind::TimedOut);
    let nothing = &mut Command::new("/no/such/program");
    assert!(process(nothing, Duration::from_secs(1), &pieces).is_err());
}
