//! `encode`, `message` and `verify`, line by line against the model.

use crate::elimination;
use crate::generate;
use crate::lines::{bits, damaged, digits, spaced};
use crate::model::{house, Matrix};
use crate::random::Random;
use crate::support::{alist, examples, folder, golden, record, run, runs_on, Run};
use std::fs;
use std::path::Path;

const MATRICES: usize = 60;
const LINES: usize = 50;
const DAMAGED: usize = 10_000;

/// Pieces that a damaged line may hold.
const PIECES: [&str; 11] = ["0", "1", "?", ".", " ", ",", "\t", "2", "\u{e9}", "\u{feff}", "\0"];

/// A matrix in a file; every third one is a record that carries splits.
fn matrix(r: &mut Random, here: &Path, number: usize) -> (Matrix, &'static str) {
    let given = match number {
        0 => house(0).expect("case L"),
        1 => generate::sparse(r),
        2 => generate::given(r, 120, 120, 400),
        3 => Matrix::zero(3, 0, 0),
        _ => generate::small_given(r),
    };
    if number % 3 != 0 {
        fs::write(here.join("matrix.alist"), alist(&given, r.chance(500))).expect("a file");
        return (given, "matrix.alist");
    }
    let (mut carried, most) = (given.clone(), r.below(4));
    generate::split_some(r, &mut carried, most);
    fs::write(here.join("matrix.rec"), record(&carried)).expect("a file");
    (given, "matrix.rec")
}

/// The message that a word holds, by the model's parity bits.
fn held(given: &Matrix, word: &[u8]) -> Vec<u8> {
    given.parity_bits().iter().zip(word).filter(|(parity, _)| !**parity).map(|(_, &bit)| bit).collect()
}

/// The program answers every line as `due` says, and a line for which that is `None` as it was. Answers how many those are.
fn answers(run: &Run, lines: &[Vec<u8>], due: impl Fn(&[u8]) -> Option<String>) -> usize {
    let mut found: Vec<&[u8]> = run.out.split(|&byte| byte == b'\n').collect();
    assert_eq!((found.pop(), found.len()), (Some(&b""[..]), lines.len()), "as many lines");
    let (mut bad, mut messages) = (0, run.err.lines());
    for (number, (line, found)) in (1..).zip(lines.iter().zip(found)) {
        let line = line.strip_suffix(b"\r").unwrap_or(line);
        let found = found.strip_suffix(b"\r").unwrap_or(found);
        match due(line) {
            Some(due) => assert_eq!(String::from_utf8_lossy(found), due, "{:?}", String::from_utf8_lossy(line)),
            None => {
                assert_eq!(found, line, "as it was");
                bad += 1;
                if bad <= 10 {
                    let message = messages.next().expect("a message");
                    assert!(message.starts_with(&format!("parity: standard input:{number}: ")), "{message}");
                    assert!(message.len() < 160 && !message.chars().any(char::is_control), "{message:?}");
                }
            }
        }
    }
    assert_eq!(messages.count(), usize::from(bad > 10));
    bad
}

/// Every line with its newline.
fn input(lines: &[Vec<u8>]) -> Vec<u8> {
    lines.iter().flat_map(|line| line.iter().chain(b"\n")).copied().collect()
}

/// Encodes random messages, takes them back and verifies their codewords.
fn there_and_back(r: &mut Random, here: &Path, file: &str, given: &Matrix) {
    let length = given.n - given.rank();
    let messages: Vec<Vec<u8>> = (0..LINES).map(|_| r.bits(length)).chain([vec![1; length]]).collect();
    let lines: Vec<Vec<u8>> = messages.iter().map(|message| spaced(r, message)).collect();
    let encoded = run(here, &["encode", file], &input(&lines));
    let due = |line: &[u8]| bits(line, length, 1).map(|message| digits(&given.encode(&message)));
    assert_eq!((answers(&encoded, &lines, due), encoded.status), (0, 0));
    let back = run(here, &["message", file], &encoded.out);
    let sent: String = messages.iter().map(|message| digits(message) + "\n").collect();
    assert_eq!((back.status, back.text().replace('\r', ""), back.err.as_str()), (0, sent, ""));
    let verified = run(here, &["verify", file], &encoded.out);
    assert!(verified.status == 0 && verified.text().lines().all(|line| line == "yes"), "{}", verified.text());
}

/// Takes the messages of words with erased bits; answers how many of these no codeword agrees with.
fn taken(r: &mut Random, here: &Path, file: &str, given: &Matrix, words: &[Vec<u8>]) -> usize {
    let (n, part) = (given.n, r.pick(&[0, 100, 300, 1000]));
    let lost = |word: &Vec<u8>| {
        let word: Vec<u8> = word.iter().map(|&bit| if r.chance(part) { 2 } else { bit }).collect();
        spaced(r, &word)
    };
    let lines: Vec<Vec<u8>> = words.iter().map(lost).collect();
    let agrees = |line: &[u8]| elimination::decode(given, &bits(line, n, 2).expect("a word")).is_some();
    let due = |line: &[u8]| {
        let message = held(given, &bits(line, n, 2).expect("a word"));
        Some(if agrees(line) { digits(&message) } else { "?".repeat(message.len()) })
    };
    let run = run(here, &["message", file], &input(&lines));
    assert_eq!(answers(&run, &lines, due), 0);
    let against = lines.iter().filter(|line| !agrees(line)).count();
    assert_eq!(run.status, if against > 0 { 3 } else { 0 });
    against
}

/// Verifies words; answers how many of them are codewords.
fn verified(r: &mut Random, here: &Path, file: &str, given: &Matrix, words: &[Vec<u8>]) -> usize {
    let lines: Vec<Vec<u8>> = words.iter().map(|word| spaced(r, word)).collect();
    let yes = |line: &[u8]| given.is_codeword(&bits(line, given.n, 1).expect("a word"));
    let due = |line: &[u8]| Some(if yes(line) { "yes" } else { "no" }.to_string());
    let run = run(here, &["verify", file], &input(&lines));
    assert_eq!(answers(&run, &lines, due), 0);
    let codewords = lines.iter().filter(|line| yes(line)).count();
    assert_eq!(run.status, if codewords < lines.len() { 3 } else { 0 });
    codewords
}

/// Messages, words with and without erased bits, and codewords of random matrices.
#[test]
fn against_the_model() {
    let (r, here) = (&mut Random::new(1430), folder("coding"));
    let (mut contradictions, mut codewords) = (0, 0);
    for number in 0..MATRICES {
        let (given, file) = matrix(r, &here, number);
        let basis = elimination::basis(&given);
        there_and_back(r, &here, file, &given);
        let word = |_| match r.below(3) {
            0 => r.bits(given.n),
            _ => elimination::combine(&basis, given.n, || r.chance(500)),
        };
        let words: Vec<Vec<u8>> = (0..LINES).map(word).collect();
        contradictions += taken(r, &here, file, &given, &words);
        codewords += verified(r, &here, file, &given, &words);
    }
    assert!(contradictions > 300 && codewords > 1000, "{contradictions} and {codewords}");
}

/// Damaged lines in one run: an answer, or the line as it was; ten of those are named.
#[test]
fn damaged_lines() {
    let r = &mut Random::new(1431);
    let given = house(0).expect("case L");
    for (command, length, most) in [("encode", 12, 1), ("message", 23, 2), ("verify", 23, 1)] {
        let lines: Vec<Vec<u8>> = (0..DAMAGED)
            .map(|_| {
                let word: Vec<u8> = if command == "encode" { r.bits(12) } else { given.encode(&r.bits(12)) };
                damaged(r, digits(&word).into_bytes(), &PIECES)
            })
            .collect();
        let run = run(&examples(), &[command, "case-l.alist"], &input(&lines));
        let due = |line: &[u8]| {
            let word = bits(line, length, most)?;
            Some(match command {
                "encode" => digits(&given.encode(&word)),
                "verify" => if given.is_codeword(&word) { "yes" } else { "no" }.to_string(),
                _ if elimination::decode(&given, &word).is_none() => "?".repeat(12),
                _ => digits(&held(&given, &word)),
            })
        };
        let bad = answers(&run, &lines, due);
        assert!((DAMAGED / 4..DAMAGED).contains(&bad) && run.status == 4, "{command}: {bad}");
    }
}

/// Files that were computed apart, from the papers' rules.
#[test]
fn golden_files() {
    let file = |name: &str| fs::read(golden().join(name)).expect("a file");
    for (folder, name) in [(golden(), "case-c"), (examples(), "case-l"), (examples(), "hamming-31")] {
        let matrix = format!("{name}.alist");
        let (messages, codewords) = (file(&format!("{name}.messages")), file(&format!("{name}.codewords")));
        assert_eq!(runs_on(&folder, &["encode", &matrix], &messages), codewords, "{name}");
        assert_eq!(runs_on(&folder, &["message", &matrix], &codewords), messages, "{name}");
        let yes = runs_on(&folder, &["verify", &matrix], &codewords);
        assert_eq!(yes, "yes\n".repeat(codewords.split(|&byte| byte == b'\n').count() - 1).into_bytes());
    }
}

/// Each error of a line, in the words of the program.
#[test]
fn errors() {
    for (command, line, due) in [
        ("encode", &b"011"[..], "3 bits, and a message has 4"),
        ("encode", b"01101", "5 bits, and a message has 4"),
        ("encode", b"", "0 bits, and a message has 4"),
        ("encode", b"01?1", "'?' at character 3 is neither 0 nor 1"),
        ("encode", b"0 1x1", "'x' at character 4 is neither 0 nor 1"),
        ("encode", b"01\xc3\xa91", "'\u{e9}' at character 3 is neither 0 nor 1"),
        ("encode", b"01\xff1", "'\u{fffd}' at character 3 is neither 0 nor 1"),
        ("encode", b"01\x1b1", "'\\u{1b}' at character 3 is neither 0 nor 1"),
        ("message", b"001111", "6 bits, and a word has 7"),
        ("message", b"001111-", "'-' at character 7 is none of 0, 1, ? and ."),
        ("verify", b"00111111", "8 bits, and a word has 7"),
        ("verify", b"0011?11", "'?' at character 5 is neither 0 nor 1"),
    ] {
        let run = run(&golden(), &[command, "case-c.alist"], &[line, b"\n"].concat());
        assert_eq!((run.status, run.out), (4, [line, b"\n"].concat()), "{command}");
        assert_eq!(run.err, format!("parity: standard input:1: {due}\n"));
    }
    let against = run(&golden(), &["message", "case-c.alist"], b"0011111\n0011110\n?011110\n0?1?1?1\n");
    assert_eq!((against.status, against.text(), against.err.as_str()), (3, "1111\n????\n????\n?1?1\n", ""));
    let verified = run(&golden(), &["verify", "case-c.alist"], b"0011111\n0011110\r\n0 0 1,1111");
    assert_eq!((verified.status, verified.text(), verified.err.as_str()), (3, "yes\nno\r\nyes\n", ""));
}

/// Rate 0: the message has no bit, and an empty line is one.
#[test]
fn empty_messages() {
    let here = folder("empty-messages");
    fs::write(here.join("m.txt"), "100\n110\n111\n").expect("a file");
    assert_eq!(runs_on(&here, &["encode", "m.txt"], b"\n\r\n\n"), b"000\n000\r\n000\n");
    assert_eq!(runs_on(&here, &["message", "m.txt"], b"000\n000\r\n?00\n"), b"\n\r\n\n");
}
