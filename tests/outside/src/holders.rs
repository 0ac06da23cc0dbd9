//! The lowest and the highest check that hold a pair (document 02, M-106), at the edges of words, with `values` of 0 to 6 words.

use crate::cases;
use crate::compare::{compare, compare_with, describe};
use crate::generate;
use crate::model::{Kind, Lent, Matrix, Reply, ADDED_MOST};
use crate::random::Random;

const EDGES: [usize; 9] = [0, 1, 62, 63, 64, 65, 90, 118, 119];

fn fail<T>(what: &str, lent: &Lent, reply: &Reply) -> Result<T, String> {
    Err(format!("HOLDERS: {what}; number {}, values {:?}\n{}", reply.number, reply.values, describe(lent)))
}

/// One call with `values` of each length from 0 to 6.
fn each_length(lent: &Lent) -> Result<usize, String> {
    for length in 0..7 {
        compare_with(lent, (0..length).map(|i| 1000 + i).collect())?;
    }
    Ok(7)
}

/// The share call, a split and an orthogonalise of a matrix and its bits 0 and 1.
fn three_calls(matrix: &Matrix) -> Result<usize, String> {
    let mut number = 0;
    for kind in [Kind::Share, Kind::Split, Kind::Orthogonalise] {
        let mut lent = cases::lend(kind, matrix);
        (lent.u, lent.v) = (1, 0);
        number += each_length(&lent)?;
    }
    Ok(number)
}

/// Bits 0 and 1 in no check, in one, in two and in three of the checks at the edges of words, of 120.
fn given_checks() -> Result<usize, String> {
    let mut number = three_calls(&Matrix::zero(3, 120, 0))?;
    for a in EDGES {
        for b in EDGES {
            for c in [a, 64] {
                let mut checks = vec![vec![2]; 120];
                for check in [a, b, c] {
                    checks[check] = vec![0, 1];
                }
                number += three_calls(&Matrix::given(3, &checks))?;
            }
        }
    }
    Ok(number)
}

/// Given checks 0 and 119 contain bits 64 to 119; each added check holds a pair of lower bits and a bit of its own.
fn full(k: usize) -> Matrix {
    let mut matrix = Matrix::zero(120, 120, k);
    for b in 64..120 {
        matrix.rows[0][b] = true;
        matrix.rows[119][b] = true;
    }
    for j in 0..k {
        for b in [j % 20, 20 + j / 20, 120 + j] {
            matrix.rows[120 + j][b] = true;
        }
    }
    matrix
}

/// The three pairs of each added check, which it alone holds, 127 and 128 and the last one among them; refused 9 at once, and after one and
/// two splits.
fn added_checks(r: &mut Random) -> Result<usize, String> {
    let mut number = 0;
    let matrix = full(391);
    for j in 0..391 {
        let (a, b, z) = (j % 20, 20 + j / 20, 120 + j);
        for (u, v) in [(a, b), (z, a), (b, z)] {
            let mut lent = cases::lend(Kind::Share, &matrix);
            (lent.u, lent.v) = (u, v);
            let (reply, lent) = compare(&lent, r)?;
            let own = 120 + j as u64;
            if reply.values != [1, own, own] {
                return fail("not the added check alone", &lent, &reply);
            }
            number += 1;
        }
    }
    for k in [390, 391, ADDED_MOST] {
        let lent = cases::lend(Kind::Orthogonalise, &full(k));
        let (reply, _) = compare(&lent, r)?;
        let splits = (ADDED_MOST - k) as u64;
        let due = if splits == 0 { vec![0, 0, 392] } else { vec![splits, splits, 392, 0, 119] };
        if reply.number != 9 || reply.values != due {
            return fail("not refused 9 with the checks of the final split", &lent, &reply);
        }
        number += each_length(&lent)?;
    }
    Ok(number)
}

/// The lowest and the highest check, other than its own, that contain the newest added bit of the words.
fn newest(lent: &Lent, k: usize) -> Vec<u64> {
    let matrix = Matrix::read(&lent.words, lent.n, lent.m, k);
    let column: Vec<usize> = (0..lent.m + k - 1).filter(|&c| matrix.rows[c][lent.n + k - 1]).collect();
    vec![column[0] as u64, column[column.len() - 1] as u64]
}

/// After a made split, and after an orthogonalise that made one, the checks carried are those that contain the newest added bit.
fn afterwards(r: &mut Random) -> Result<usize, String> {
    let mut number = 0;
    while number < 4000 {
        let matrix = generate::small(r);
        let Some((u, v, _)) = matrix.next_pair() else {
            continue;
        };
        let mut lent = cases::lend(Kind::Split, &matrix);
        (lent.u, lent.v) = (u, v);
        let (made, left) = compare(&lent, r)?;
        if made.number != 0 || made.values[2..] != newest(&left, matrix.k + 1) {
            return fail("not the checks that contain the new bit", &lent, &made);
        }
        let lent = cases::lend(Kind::Orthogonalise, &matrix);
        let (done, left) = compare(&lent, r)?;
        if done.values[3..] != newest(&left, done.values[2] as usize) {
            return fail("not the checks that contain the newest added bit", &lent, &done);
        }
        number += 2;
    }
    Ok(number)
}

pub fn run() -> Result<usize, String> {
    let mut r = Random::new(106);
    Ok(given_checks()? + added_checks(&mut r)? + afterwards(&mut r)?)
}
