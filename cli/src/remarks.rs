//! What in a matrix is likely a mistake of its author.

use crate::matrix::Matrix;

/// How many bits or checks a remark names.
const FIRST: usize = 5;

/// Remarks on a matrix with k = 0 and this rank.
pub fn of(given: &Matrix, rank: usize) -> Vec<String> {
    let (n, m, rows) = (given.n, given.m, given.rows());
    let without = (0..n).filter(|bit| !rows.iter().any(|row| row.contains(bit)));
    let empty = (0..m).filter(|&check| rows[check].is_empty());
    let repeated = (0..m).filter(|&check| !rows[check].is_empty() && rows[..check].contains(&rows[check]));
    let mut remarks = Vec::new();
    if rank == n {
        remarks.push("rate 0: the zero word is the only codeword; is the matrix transposed?".to_string());
    }
    if rank < m {
        remarks.push(format!("more checks than rank: {} of {m} follow from the others", m - rank));
    }
    remarks.extend(some("bits in no check, which nothing recovers", without.collect()));
    remarks.extend(some("checks without a bit", empty.collect()));
    remarks.extend(some("checks that repeat an earlier one", repeated.collect()));
    remarks
}

/// A remark on these bits or checks, if there are any.
fn some(what: &str, found: Vec<usize>) -> Option<String> {
    let first: Vec<String> = found.iter().take(FIRST).map(usize::to_string).collect();
    let more = if found.len() > FIRST { " .." } else { "" };
    (!found.is_empty()).then(|| format!("{what}: {}{more}", first.join(" ")))
}
