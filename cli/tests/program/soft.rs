//! `soft` line by line against the model, by the bits of every float; its errors; and floats that read back.

use crate::cases;
use crate::elimination;
use crate::generate;
use crate::lines::damaged;
use crate::min_sum::{self, LIMIT};
use crate::model::{house, Kind, Matrix};
use crate::random::Random;
use crate::support::{alist, examples, folder, golden, run, runs_on};
use cli::soft::{hard, read, shown};
use parity::Bit;
use std::fs;
use std::path::Path;

const MATRICES: usize = 40;
const LINES: usize = 40;
const DAMAGED: usize = 10_000;
const FLOATS: usize = 200_000;

/// Pieces that a damaged line may hold.
const PIECES: [&str; 16] =
    ["0", "1", "?", " ", ",", "-", ".", "e", "5", "+2.5", "1e39", "nan", "\u{e9}", "\u{feff}", "\0", "2000000"];

/// A bit by its byte and the bits of its float.
type Part = (u8, u32);

/// A soft float that is taken.
fn float(r: &mut Random) -> f32 {
    let sign = if r.chance(500) { -1.0 } else { 1.0 };
    sign * match r.below(8) {
        0 => 0.0,
        1 => LIMIT,
        2 => f32::from_bits(r.below(1 << 23) as u32),
        3 => f32::from_bits(r.below(LIMIT.to_bits() as usize + 1) as u32),
        4 => r.below(10) as f32,
        _ => r.below(4096) as f32 / 512.0,
    }
}

/// A value of a word, in one of the ways in which it may be written.
fn value(r: &mut Random, bit: u8, soft: usize) -> String {
    if r.chance(100) {
        return r.pick(&["?", "."]).to_string();
    }
    if !r.chance(soft) {
        return bit.to_string();
    }
    let float = float(r).abs() * if bit == 1 { -1.0 } else { 1.0 };
    match r.below(3) {
        0 => format!("{float:?}"),
        1 => format!("{float:e}"),
        _ => format!("{float:+.1}"),
    }
}

/// The parts of a piece, if it is a value: read here apart from the program.
fn part(piece: &str) -> Option<Part> {
    match piece {
        "0" => Some((0, 0)),
        "1" => Some((1, 0)),
        "?" | "." => Some((2, 0)),
        number => number.parse().ok().map(|float: f32| (3, float.to_bits())),
    }
}

/// The word of a line, if it is one of n bits that are taken.
fn word(line: &[u8], n: usize) -> Option<Vec<Part>> {
    let line = std::str::from_utf8(line).ok()?;
    let pieces: Vec<&str> = line.split([' ', '\t', ',']).filter(|piece| !piece.is_empty()).collect();
    let apart = |digits: &str| digits.chars().map(|c| "01?".contains(c).then(|| part(&c.to_string()))?).collect();
    let word: Option<Vec<Part>> = match pieces[..] {
        [digits] if n > 1 => apart(digits),
        _ => pieces.iter().map(|piece| part(piece)).collect(),
    };
    let fits = |&(byte, float): &Part| byte < 3 || f32::from_bits(float).abs() <= LIMIT;
    word.filter(|word| word.len() == n && word.iter().all(fits))
}

/// What the model makes of a word: its sent bits.
fn decoded(matrix: &Matrix, rounds: usize, word: &[Part]) -> Vec<Part> {
    let mut lent = cases::lend(Kind::MinSum, matrix);
    lent.rounds = rounds;
    lent.word = word.iter().map(|part| part.0).collect();
    lent.floats = word.iter().map(|part| part.1).collect();
    lent.word.resize(matrix.bits(), 2);
    lent.floats.resize(matrix.bits(), 0);
    min_sum::write(matrix, &mut lent);
    lent.word.into_iter().zip(lent.floats).take(matrix.n).collect()
}

fn digit((byte, float): Part) -> char {
    match (byte, f32::from_bits(float)) {
        (0, _) => '0',
        (1, _) => '1',
        (3, float) if float > 0.0 => '0',
        (3, float) if float < 0.0 => '1',
        _ => '?',
    }
}

/// A line of the output has these results, in its own form.
fn compare(found: &str, due: &[Part], as_digits: bool) {
    if as_digits {
        assert_eq!(found, due.iter().map(|&part| digit(part)).collect::<String>());
        return;
    }
    let found: Vec<&str> = found.split(' ').collect();
    let parts: Option<Vec<Part>> = found.iter().map(|piece| part(piece)).collect();
    assert_eq!(parts.as_deref(), Some(due), "{found:?}");
}

/// Runs the program in one way, and compares its results, in both forms; answers how many are soft, sure and erased.
fn one_way(here: &Path, given: &Matrix, extended: bool, rounds: usize, lines: &[String]) -> [usize; 3] {
    let (mut matrix, way) = (given.clone(), if extended { "extended" } else { "given" });
    extended.then(|| matrix.orthogonalise());
    let due = |line: &String| decoded(&matrix, rounds, &word(line.as_bytes(), given.n).expect("a word"));
    let due: Vec<Vec<Part>> = lines.iter().map(due).collect();
    for as_digits in [false, true] {
        let rounds = format!("--rounds={rounds}");
        let mut args = vec!["soft", "m.alist", "--by", way, &rounds];
        args.extend(as_digits.then_some("--hard"));
        let out = runs_on(here, &args, (lines.join("\n") + "\n").as_bytes());
        let found: Vec<&str> = std::str::from_utf8(&out).expect("text").lines().collect();
        assert_eq!(found.len(), lines.len());
        found.iter().zip(&due).for_each(|(found, due)| compare(found, due, as_digits));
    }
    let count = |bytes: &[u8]| due.iter().flatten().filter(|part| bytes.contains(&part.0)).count();
    [count(&[3]), count(&[0, 1]), count(&[2])]
}

#[test]
fn against_the_model() {
    let (r, here) = (&mut Random::new(1440), folder("soft"));
    let mut met = [0; 3];
    for number in 0..MATRICES {
        let given = match number {
            0 => house(0).expect("case L"),
            1 => house(4).expect("Hamming 31"),
            2 => generate::given(r, 60, 30, 80),
            _ => generate::small_given(r),
        };
        fs::write(here.join("m.alist"), alist(&given, true)).expect("a file");
        let basis = elimination::basis(&given);
        let (rounds, part) = (r.pick(&[1, 2, 3, 7, 50]), r.pick(&[0, 500, 900, 1000]));
        let line = |_| {
            let word = elimination::combine(&basis, given.n, || r.chance(500));
            let values: Vec<String> = word.iter().map(|&bit| value(r, bit, part)).collect();
            values.join(r.pick(&[" ", "\t", ", ", "  "]))
        };
        let lines: Vec<String> = (0..LINES).map(line).collect();
        for extended in [false, true] {
            let more = one_way(&here, &given, extended, rounds, &lines);
            (0..3).for_each(|kind| met[kind] += more[kind]);
        }
    }
    assert!(met[0] > 5_000 && met[1] > 5_000 && met[2] > 500, "{met:?}");
}

/// Damaged words in one run: results, or the line as it was; ten of those are named.
#[test]
fn damaged_lines() {
    let (r, given) = (&mut Random::new(1441), cases::c());
    let line = |_| {
        let values: Vec<String> = given.encode(&r.bits(4)).iter().map(|&bit| value(r, bit, 700)).collect();
        damaged(r, values.join(" ").into_bytes(), &PIECES)
    };
    let lines: Vec<Vec<u8>> = (0..DAMAGED).map(line).collect();
    let input: Vec<u8> = lines.iter().flat_map(|line| line.iter().chain(b"\n")).copied().collect();
    let run = run(&golden(), &["soft", "case-c.alist", "--rounds", "3"], &input);
    let mut found: Vec<&[u8]> = run.out.split(|&byte| byte == b'\n').collect();
    assert_eq!((found.pop(), found.len(), run.status), (Some(&b""[..]), DAMAGED, 4));
    let (mut bad, mut messages) = (0, run.err.lines());
    for (number, (line, found)) in (1..).zip(lines.iter().zip(found)) {
        let (line, found) = (line.strip_suffix(b"\r").unwrap_or(line), found.strip_suffix(b"\r").unwrap_or(found));
        match word(line, 7) {
            Some(word) => compare(std::str::from_utf8(found).expect("text"), &decoded(&given, 3, &word), false),
            None => {
                assert_eq!(found, line, "as it was");
                bad += 1;
                let message = if bad <= 10 { messages.next().expect("a message") } else { continue };
                assert!(message.starts_with(&format!("parity: standard input:{number}: ")), "{message}");
                assert!(message.len() < 160 && !message.chars().any(char::is_control), "{message:?}");
            }
        }
    }
    let due = format!("parity: standard input: {} more lines like these", bad - 10);
    assert_eq!((messages.next(), messages.next()), (Some(due.as_str()), None));
    assert!((DAMAGED / 4..DAMAGED * 3 / 4).contains(&bad), "{bad}");
}

/// Files that were computed apart, from document 02's M-112.
#[test]
fn golden_files() {
    let file = |name: &str| fs::read(golden().join(name)).expect("a file");
    let input = file("case-c.soft");
    for way in ["given", "extended"] {
        let out = runs_on(&golden(), &["soft", "case-c.alist", "--by", way], &input);
        assert_eq!(String::from_utf8_lossy(&out), String::from_utf8_lossy(&file(&format!("case-c.soft-{way}"))));
        let out = runs_on(&golden(), &["soft", "--hard", "case-c.alist", "--by", way], &input);
        assert_eq!(out, file(&format!("case-c.hard-{way}")));
    }
    let out = runs_on(&examples(), &["soft", "hamming-31.alist", "--rounds", "5"], &file("hamming-31.soft"));
    assert_eq!(String::from_utf8_lossy(&out), String::from_utf8_lossy(&file("hamming-31.soft-given")));
}

/// Each error of a line, in the words of the program.
#[test]
fn errors() {
    let float = "refusal 23: a soft float that is not finite or too large at place";
    for (line, due) in [
        ("0 1 1.5", "3 values, and a word has 7".to_string()),
        ("", "0 values, and a word has 7".to_string()),
        ("0 1 1.5 0 0 0 0 0", "8 values, and a word has 7".to_string()),
        ("0 1 x 0 0 0 0", "'x' at place 2 is none of 0, 1, ? and a decimal number".to_string()),
        ("0,1,1;5,0,0,0,0", "'1;5' at place 2 is none of 0, 1, ? and a decimal number".to_string()),
        ("0 1 0x1 0 0 0 0", "'0x1' at place 2 is none of 0, 1, ? and a decimal number".to_string()),
        (
            "\u{feff}0 1 1 0 0 0 0",
            "a byte order mark (UTF-8) at place 0 is none of 0, 1, ? and a decimal number".to_string(),
        ),
        ("0 1 1048576.1 0 0 0 0", format!("{float} 2")),
        ("0 1 1 0 0 0 -1048577", format!("{float} 6")),
        ("0 nan 1 inf 0 0 0", format!("{float} 1")),
        ("-inf 1 1 0 0 0 0", format!("{float} 0")),
        ("0 1 1 0 1e39 0 0", format!("{float} 4")),
    ] {
        let run = run(&golden(), &["soft", "case-c.alist"], format!("{line}\n").as_bytes());
        assert_eq!((run.status, run.text()), (4, &*format!("{line}\n")));
        assert_eq!(run.err, format!("parity: standard input:1: {due}\n"));
    }
    for (options, due) in [
        ("--rounds 0", "--rounds takes a number from 1 to 512, and not '0'"),
        ("--rounds 513", "--rounds takes a number from 1 to 512, and not '513'"),
        ("--by determine", "--by takes given or extended, and not 'determine'"),
        ("--round 5", "'--round' is no option here; did you mean --rounds? see --help"),
    ] {
        let args: Vec<&str> = ["soft", "case-c.alist"].into_iter().chain(options.split(' ')).collect();
        let run = run(&golden(), &args, b"");
        assert_eq!((run.status, run.text(), run.err.as_str()), (2, "", &*format!("parity: {due}\n")));
    }
}

/// Sure and erased bits alone end as peeling does.
#[test]
fn as_peeling() {
    let input = b"??10?01\n? ? 1 0 ? 0 1\n0?1111?\n???????\n";
    let peeled = run(&golden(), &["mend", "case-c.alist", "--by", "given"], input);
    assert_eq!(
        runs_on(&golden(), &["soft", "case-c.alist", "--hard"], input),
        peeled.text().replace(' ', "").into_bytes()
    );
}

/// Every float that is written reads back to its own bits, and as a soft bit.
#[test]
fn floats() {
    let r = &mut Random::new(1442);
    for number in 0..FLOATS {
        let bits = if number < 3000 { number as u32 } else { r.next() as u32 };
        let float = f32::from_bits(bits);
        if float.is_finite() {
            let text = shown(Bit::Soft(float));
            match read(text.as_bytes(), 1).as_deref() {
                Ok([Bit::Soft(back)]) => assert_eq!(back.to_bits(), bits, "{text}"),
                other => panic!("{text}: {other:?}"),
            }
            assert_eq!(hard(Bit::Soft(float)), digit((3, bits)));
        }
    }
}
