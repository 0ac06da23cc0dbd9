//! Damaged alist and text files: an answer, which then is sound, or one error line; never a panic.

use crate::generate;
use crate::random::Random;
use crate::support::{alist, folder, is_one_line, run, text};
use cli::files::{give, take, Format};
use std::fs;
use std::path::Path;

const FILES: usize = 10_000;
const BY_THE_PROGRAM: usize = 150;

/// Pieces that a damaged file may hold.
const PIECES: [&str; 16] = [
    "0",
    "1",
    "7",
    " ",
    "\n",
    "\r\n",
    "120",
    "121",
    "-1",
    "\t",
    "#",
    "99999999999999999999",
    "\u{0}",
    "\u{e9}",
    "1 1",
    ",",
];

/// Whole lines taken out, doubled or exchanged.
fn damage_lines(r: &mut Random, bytes: &mut Vec<u8>) {
    let mut lines: Vec<Vec<u8>> = bytes.split(|&byte| byte == b'\n').map(<[u8]>::to_vec).collect();
    let (from, to) = (r.below(lines.len()), r.below(lines.len()));
    match r.below(4) {
        0 => drop(lines.remove(from)),
        1 => lines.insert(to, lines[from].clone()),
        2 => lines.swap(from, to),
        _ => lines.truncate(from),
    }
    *bytes = lines.join(&b'\n');
}

fn damage(r: &mut Random, bytes: &mut Vec<u8>) {
    let place = r.below(bytes.len() + 1);
    let end = (place + r.below(4)).min(bytes.len());
    match r.below(6) {
        0 => drop(bytes.drain(place..end)),
        1 => drop(bytes.splice(place..place, r.pick(&PIECES).bytes())),
        2 => drop(bytes.splice(place..end, r.pick(&PIECES).bytes())),
        3 => bytes.truncate(place),
        4 => bytes.iter_mut().skip(place).take(1).for_each(|byte| *byte = r.next() as u8),
        _ => damage_lines(r, bytes),
    }
}

/// A file of a small matrix, damaged in one to three places.
fn damaged(r: &mut Random, format: Format) -> Vec<u8> {
    let mut matrix = generate::small_given(r);
    if r.chance(20) {
        matrix = generate::sparse(r);
    }
    let filled = r.chance(500);
    let mut bytes = if format == Format::Alist { alist(&matrix, filled) } else { text(&matrix) }.into_bytes();
    for _ in 0..r.between(1, 3) {
        damage(r, &mut bytes);
    }
    bytes
}

/// What is taken loads again as itself, and no line of an alist contradicts another.
fn sound(path: &Path, format: Format, bytes: &[u8]) -> Result<(), String> {
    let matrix = take(path, format, bytes).map_err(|fault| fault.to_string())?;
    assert!((1..=120).contains(&matrix.n) && matrix.m <= 120 && matrix.k == 0);
    for format in [Format::Alist, Format::Record] {
        let written = give(&matrix, format).expect("written");
        assert_eq!(take(path, format, &written), Ok(matrix.clone()));
    }
    Ok(())
}

fn format(number: usize) -> (Format, &'static str) {
    if number % 2 == 0 {
        (Format::Alist, "damaged.alist")
    } else {
        (Format::Text, "damaged.txt")
    }
}

#[test]
fn taken_or_refused() {
    let r = &mut Random::new(1287);
    let mut taken = [0; 2];
    for number in 0..FILES {
        let (format, name) = format(number);
        let bytes = damaged(r, format);
        match sound(Path::new(name), format, &bytes) {
            Ok(()) => taken[number % 2] += 1,
            Err(line) => {
                let start = format!("parity: {name}:");
                let rest = line.strip_prefix(&start).unwrap_or_else(|| panic!("{line}"));
                let lines = bytes.split(|&byte| byte == b'\n').count();
                let number: usize = rest.split(':').next().and_then(|number| number.parse().ok()).expect("a number");
                assert!((1..=lines + 1).contains(&number), "{line}");
                assert!(is_one_line(&(line.clone() + "\n")) && line.len() < 160, "{line}");
            }
        }
    }
    // Neither all of them nor none.
    assert!(taken.iter().all(|number| (200..4800).contains(number)), "{taken:?}");
}

#[test]
fn by_the_program() {
    let r = &mut Random::new(1288);
    let folder = folder("mutations");
    let mut taken = 0;
    for number in 0..BY_THE_PROGRAM {
        let (format, name) = format(number);
        let bytes = damaged(r, format);
        fs::write(folder.join(name), &bytes).expect("a file");
        let run = run(&folder, &["inspect", name], b"");
        match take(Path::new(name), format, &bytes) {
            Ok(_) => {
                assert_eq!((run.status, run.err.as_str()), (0, ""));
                taken += 1;
            }
            Err(fault) => assert_eq!((run.status, run.err, run.out.len()), (1, format!("{fault}\n"), 0)),
        }
    }
    assert!((10..140).contains(&taken), "{taken}");
}
