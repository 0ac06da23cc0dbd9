//! `same`: two matrices with one code or two, against the ranks of each and of both joined.

use crate::elimination;
use crate::generate;
use crate::model::{house, Matrix};
use crate::random::Random;
use crate::support::{alist, examples, folder, golden, record, run, runs, text};
use std::fs;
use std::path::Path;

/// Another matrix with the same code: checks added to each other, exchanged, doubled, or an empty one put in.
fn mixed(r: &mut Random, given: &Matrix) -> Matrix {
    let mut other = given.clone();
    for _ in 0..if given.m > 1 { r.below(12) } else { 0 } {
        let (from, to) = (r.below(other.m), r.below(other.m));
        let row = other.rows[from].clone();
        match r.below(4) {
            0 => other.rows.swap(from, to),
            1 if other.m < 120 => {
                other.rows.push(if r.chance(500) { row } else { vec![false; given.n] });
                other.m += 1;
            }
            _ if from != to => (0..given.n).for_each(|bit| other.rows[to][bit] ^= row[bit]),
            _ => {}
        }
    }
    other
}

/// Whether the codes are the same, by the ranks of each and of all checks together.
fn due(a: &Matrix, b: &Matrix) -> bool {
    if a.n != b.n {
        return false;
    }
    let mut both = a.clone();
    both.rows.extend(b.rows.iter().cloned());
    both.m += b.m;
    let rank = elimination::rank(&both);
    rank == elimination::rank(a) && rank == elimination::rank(b)
}

/// The same by the library's own calls, where the checks of both have room in one matrix.
fn due_by_join(a: &Matrix, b: &Matrix) -> Option<bool> {
    let mut words = vec![0; parity::WORDS];
    let m = parity::join(&a.pack(), a.n, a.m, 0, &b.pack(), b.n, b.m, 0, &mut words).ok()?;
    let rank = |matrix: &Matrix| parity::rank(&matrix.pack(), matrix.n, matrix.m, 0).expect("a rank");
    let both = parity::rank(&words, a.n, m, 0).expect("a rank");
    Some(both == rank(a) && both == rank(b))
}

/// Runs the program on `a` and `b`, and holds the word that it shows to both matrices.
fn compare(here: &Path, files: [&str; 2], a: &Matrix, b: &Matrix) -> bool {
    let run = run(here, &["same", files[0], files[1]], b"");
    let same = due(a, b);
    assert!(due_by_join(a, b).is_none_or(|by_join| by_join == same), "{a:?} {b:?}");
    assert_eq!((run.status, run.err.as_str()), (if same { 0 } else { 3 }, ""), "{a:?} {b:?}");
    if same {
        assert_eq!(run.text(), "the same code\n");
        return true;
    }
    let why = run.text().strip_prefix("not the same code: ").expect("a reason").trim_end().to_string();
    if a.n != b.n {
        assert_eq!(why, format!("words of {} bits, and of {}", a.n, b.n));
        return false;
    }
    let (word, rest) = why.split_once(" is a codeword of ").expect("a word");
    let word: Vec<u8> = word.bytes().map(|digit| digit - b'0').collect();
    let (first, second) = if rest == format!("{} and none of {}", files[0], files[1]) { (a, b) } else { (b, a) };
    assert!(first.is_codeword(&word) && !second.is_codeword(&word), "{why}");
    false
}

#[test]
fn against_the_ranks() {
    let (r, here) = (&mut Random::new(1460), folder("same"));
    let mut same = 0;
    for number in 0..200 {
        let a = match number {
            0 => generate::sparse(r),
            1 => generate::given(r, 120, 120, 500),
            _ => generate::small_given(r),
        };
        let mut b = mixed(r, &a);
        match r.below(4) {
            0 => b = generate::small_given(r),
            1 if b.m > 0 => {
                let (check, bit) = (r.below(b.m), r.below(b.n));
                b.rows[check][bit] ^= true;
            }
            2 if b.m > 0 => {
                b.rows.pop();
                b.m -= 1;
            }
            _ => {}
        }
        let (mut carried, most) = (b.clone(), r.below(3));
        generate::split_some(r, &mut carried, most);
        fs::write(here.join("a.alist"), alist(&a, true)).expect("a file");
        fs::write(here.join("b.rec"), record(&carried)).expect("a file");
        let found = compare(&here, ["a.alist", "b.rec"], &a, &b);
        assert_eq!(compare(&here, ["b.rec", "a.alist"], &b, &a), found);
        same += usize::from(found);
    }
    assert!((40..160).contains(&same), "{same}");
}

/// Joined, the two have 240 checks, more than a matrix can have.
#[test]
fn more_checks_than_fit() {
    let (r, here) = (&mut Random::new(1461), folder("same-full"));
    let mut a = generate::given(r, 120, 60, 500);
    let sums: Vec<Vec<bool>> =
        (0..60).map(|c| (0..120).map(|b| a.rows[c][b] ^ a.rows[(c + 1) % 60][b]).collect()).collect();
    a.rows.extend(sums);
    a.m = 120;
    let mut b = a.clone();
    (0..119).for_each(|c| (0..120).for_each(|bit| b.rows[c][bit] ^= a.rows[c + 1][bit]));
    fs::write(here.join("a.txt"), text(&a)).expect("a file");
    fs::write(here.join("b.txt"), text(&b)).expect("a file");
    compare(&here, ["a.txt", "b.txt"], &a, &b);
    b.rows.swap(0, 119);
    fs::write(here.join("b.txt"), text(&b)).expect("a file");
    compare(&here, ["b.txt", "a.txt"], &b, &a);
}

#[test]
fn known() {
    let here = folder("same-known");
    fs::write(here.join("l.alist"), alist(&house(0).expect("case L"), true)).expect("a file");
    fs::write(here.join("eleven.alist"), alist(&crate::cases::l(11), true)).expect("a file");
    fs::write(here.join("ten.alist"), alist(&crate::cases::l(10), true)).expect("a file");
    assert_eq!(runs(&here, &["same", "l.alist", "eleven.alist"]).text(), "the same code\n");
    let ten = run(&here, &["same", "l.alist", "ten.alist"], b"");
    assert!(
        ten.status == 3 && ten.text().ends_with(" is a codeword of ten.alist and none of l.alist\n"),
        "{}",
        ten.text()
    );
    let whole = fs::read(here.join("l.alist")).expect("a file");
    let streamed = run(&here, &["same", "-", "eleven.alist", "--from", "alist"], &whole);
    assert_eq!((streamed.status, streamed.text()), (0, "the same code\n"));
    let lengths = run(&examples(), &["same", "case-l.alist", "hamming-31.alist"], b"");
    assert_eq!((lengths.status, lengths.text()), (3, "not the same code: words of 23 bits, and of 31\n"));
    for (args, status, due) in [
        (vec!["same", "case-c.alist"], 2, "1 files are named, and 2 needed: A B; see --help"),
        (vec!["same", "-", "-"], 2, "A and B are both standard input, and one of them needs a file of its own"),
        (vec!["same", "case-c.alist", "missing.rec"], 1, "missing.rec: No such file or directory (os error 2)"),
        (vec!["same", "missing.rec", "case-c.alist"], 1, "missing.rec: No such file or directory (os error 2)"),
    ] {
        let run = run(&golden(), &args, b"");
        assert_eq!((run.status, run.text(), run.err.as_str()), (status, "", &*format!("parity: {due}\n")));
    }
}
