//! Every format into every other, on random matrices.

use crate::generate;
use crate::model::{Form, Matrix};
use crate::random::Random;
use crate::support;
use cli::files::{give, take, Format};
use std::fs;
use std::path::Path;

const MATRICES: usize = 1500;

fn matrix(r: &mut Random, number: usize) -> Matrix {
    match number {
        0 => generate::given(r, 120, 120, 1000),
        1 => generate::given(r, 120, 120, 500),
        2 => Matrix::zero(120, 120, 0),
        3 => Matrix::zero(1, 1, 0),
        4 => Matrix::zero(1, 0, 0),
        5 => generate::sparse(r),
        _ if r.chance(100) => {
            let (n, m, part) = (r.between(1, 120), r.below(121), r.pick(&[10, 50, 300]));
            generate::given(r, n, m, part)
        }
        _ => generate::small_given(r),
    }
}

/// An alist that is not filled up, with the members of every list in falling order.
fn falling(alist: &str) -> String {
    let turned = |line: &str| line.split(' ').rev().collect::<Vec<_>>().join(" ");
    let lines = alist.lines().enumerate();
    lines.map(|(place, line)| if place < 4 { line.to_string() } else { turned(line) } + "\n").collect()
}

/// What a sender writes of a matrix in a format, in each way that is taken, the program's own first.
fn written(matrix: &Matrix, format: Format) -> Vec<Vec<u8>> {
    let spaced = |digits: &str| digits.replace('0', " 0 ").replace('1', "1,\t") + "\n# a remark\n\n";
    match format {
        Format::Alist => {
            let filled = support::alist(matrix, true);
            let returns = filled.replace('\n', " \r\n") + "\n \n";
            let bare = support::alist(matrix, false);
            let falling = falling(&bare);
            [filled, bare, returns, falling].map(String::into_bytes).to_vec()
        }
        Format::Text if matrix.m == 0 => Vec::new(),
        Format::Text => {
            let text = support::text(matrix);
            [text.clone(), text.replace('\n', "\r\n"), text.trim_end().to_string(), spaced(&text)]
                .map(String::into_bytes)
                .to_vec()
        }
        Format::Record => {
            [Form::Second, Form::First, Form::Third].map(|form| support::record_of(matrix, form)).to_vec()
        }
    }
}

#[test]
fn round_trips() {
    let r = &mut Random::new(1280);
    let path = Path::new("matrix");
    let all = [Format::Alist, Format::Text, Format::Record];
    let mut trips = 0;
    for number in 0..MATRICES {
        let matrix = matrix(r, number);
        for from in all {
            for bytes in written(&matrix, from) {
                let taken = take(path, from, &bytes).unwrap_or_else(|fault| panic!("{fault}: {matrix:?}"));
                assert_eq!((taken.n, taken.m, taken.k), (matrix.n, matrix.m, 0));
                assert_eq!(taken.words, matrix.pack());
                for to in all {
                    let due = written(&matrix, to).into_iter().next();
                    assert_eq!(give(&taken, to).ok(), due, "{from:?} to {to:?}");
                    trips += 1;
                }
            }
        }
    }
    assert!(trips > 20 * MATRICES, "{trips}");
}

/// A record with splits: itself as a record, refused in the other formats, and with `--given` the checks before its
/// splits.
#[test]
fn splits() {
    let r = &mut Random::new(1281);
    let mut met = 0;
    for _ in 0..300 {
        let given = generate::small_given(r);
        let mut split = given.clone();
        let most = r.between(1, 6);
        generate::split_some(r, &mut split, most);
        let record = support::record(&split);
        let taken = take(Path::new("matrix"), Format::Record, &record).expect("a record");
        assert_eq!((&taken.words, taken.k), (&split.pack(), split.k));
        assert_eq!(give(&taken, Format::Record), Ok(record));
        assert_eq!(give(&taken, Format::Alist).is_err(), split.k > 0);
        assert_eq!(give(&taken, Format::Text).is_err(), split.k > 0 || split.m == 0);
        let back = taken.given().expect("taken back");
        assert_eq!((back.words, back.k), (given.pack(), 0));
        met += usize::from(split.k > 0);
    }
    assert!(met > 100, "{met}");
}

/// The program itself: all nine directions, by extension and by name.
#[test]
fn by_the_program() {
    let folder = support::folder("formats");
    let matrix = generate::sparse(&mut Random::new(1282));
    let formats = [(Format::Alist, "alist", "alist"), (Format::Text, "txt", "text"), (Format::Record, "rec", "record")];
    for (from, extension, name) in formats {
        let bytes = written(&matrix, from).remove(0);
        fs::write(folder.join(format!("in.{extension}")), &bytes).expect("a file");
        fs::write(folder.join(format!("in-{name}")), &bytes).expect("a file");
        for (to, other, target) in formats {
            let due = written(&matrix, to).remove(0);
            support::runs(&folder, &["convert", &format!("in.{extension}"), &format!("{extension}.{other}")]);
            assert_eq!(fs::read(folder.join(format!("{extension}.{other}"))).expect("a file"), due);
            support::runs(
                &folder,
                &["convert", &format!("in-{name}"), "out", "--from", name, &format!("--to={target}")],
            );
            assert_eq!(fs::read(folder.join("out")).expect("a file"), due);
        }
    }
}
