//! Random matrices that document 01 accepts.

use crate::model::{Matrix, ADDED_MOST};
use crate::random::Random;

/// A matrix with k = 0 and about `part` of 1,000 places one.
pub fn given(r: &mut Random, n: usize, m: usize, part: usize) -> Matrix {
    let mut matrix = Matrix::zero(n, m, 0);
    for row in &mut matrix.rows {
        for place in row {
            *place = r.chance(part);
        }
    }
    matrix
}

const PARTS: [usize; 9] = [0, 60, 120, 200, 300, 500, 700, 900, 1000];

/// A matrix with k = 0 of at most 12 x 12.
pub fn small_given(r: &mut Random) -> Matrix {
    let (n, m, part) = (r.between(1, 12), r.below(13), r.pick(&PARTS));
    let mut matrix = given(r, n, m, part);
    // Now and then checks twice.
    if m >= 2 && r.chance(150) {
        let (from, to) = (r.below(m), r.below(m));
        matrix.rows[to] = matrix.rows[from].clone();
    }
    matrix
}

/// Adds a check of two lower bits that share none, and puts the new bit into some given checks without them.
/// Such a matrix meets rule A, though no split may have made it.
pub fn add_triple(r: &mut Random, matrix: &mut Matrix, part: usize) -> bool {
    let z = matrix.bits();
    if z < 2 || matrix.k == ADDED_MOST {
        return false;
    }
    for _ in 0..40 {
        let (a, b) = (r.below(z), r.below(z));
        if a == b || matrix.share(a, b) > 0 {
            continue;
        }
        let m = matrix.m;
        for (c, row) in matrix.rows.iter_mut().enumerate() {
            row.push(c < m && !row[a] && !row[b] && r.chance(part));
        }
        let mut own = vec![false; z + 1];
        own[a] = true;
        own[b] = true;
        own[z] = true;
        matrix.rows.push(own);
        matrix.k += 1;
        return true;
    }
    false
}

/// Makes up to `most` splits of random pairs.
pub fn split_some(r: &mut Random, matrix: &mut Matrix, most: usize) {
    for _ in 0..most {
        let pairs = matrix.pairs();
        if pairs.is_empty() || matrix.k == ADDED_MOST {
            return;
        }
        let (u, v) = r.pick(&pairs);
        matrix.split(u, v);
    }
}

/// A small matrix with any k: given, split, orthogonalised or with added checks that no split made.
pub fn small(r: &mut Random) -> Matrix {
    let mut matrix = small_given(r);
    match r.below(8) {
        0..=2 => {}
        3..=4 => {
            let most = r.between(1, 6);
            split_some(r, &mut matrix, most);
        }
        5 => {
            matrix.orthogonalise();
        }
        _ => {
            let part = r.pick(&PARTS);
            for _ in 0..r.between(1, 6) {
                add_triple(r, &mut matrix, part);
            }
            let most = r.below(3);
            split_some(r, &mut matrix, most);
        }
    }
    matrix
}

/// A matrix with few sent bits and this k, and pairs with share two or more left among the given checks.
pub fn triples(r: &mut Random, n: usize, m: usize, k: usize) -> Matrix {
    let mut matrix = Matrix::zero(n, m, 0);
    for row in &mut matrix.rows {
        for place in &mut row[3..] {
            *place = r.chance(600);
        }
    }
    for c in 0..2 {
        matrix.rows[c][n - 2] = true;
        matrix.rows[c][n - 1] = true;
    }
    while matrix.k < k {
        let part = if r.chance(30) { 300 } else { 0 };
        add_triple(r, &mut matrix, part);
    }
    matrix
}

/// Whether rule A would break with the newest added bit taken back: then no splits made the matrix.
fn stuck(matrix: &Matrix) -> bool {
    let mut back = matrix.clone();
    back.take_back();
    !back.rule_a()
}

/// A matrix with at most these n, m and k whose newest added bit cannot be taken back.
pub fn not_back(r: &mut Random, n: usize, m: usize, k: usize) -> Matrix {
    loop {
        let (n, m, part) = (r.between(3, n), r.between(1, m), r.pick(&PARTS));
        let mut matrix = given(r, n, m, part / 4);
        for _ in 0..r.between(2, k) {
            let part = r.pick(&PARTS);
            add_triple(r, &mut matrix, part);
        }
        if matrix.k > 0 && stuck(&matrix) {
            return matrix;
        }
    }
}

/// The accepted matrix with the most ones: the pairs of 29 bits have the added checks, and each given check contains
/// all the other bits.
pub fn most_ones() -> Matrix {
    let mut matrix = Matrix::zero(120, 120, 392);
    let mut pairs = (0..29).flat_map(|a| (a + 1..29).map(move |b| (a, b)));
    for c in 0..120 {
        for b in 29..512 {
            matrix.rows[c][b] = true;
        }
    }
    for j in 0..392 {
        let (a, b) = pairs.next().unwrap();
        matrix.rows[120 + j][a] = true;
        matrix.rows[120 + j][b] = true;
        matrix.rows[120 + j][120 + j] = true;
    }
    matrix
}

/// A matrix of 60 x 120 with 3 ones in each column and 6 in each check.
pub fn sparse(r: &mut Random) -> Matrix {
    loop {
        let mut matrix = Matrix::zero(120, 60, 0);
        for layer in 0..3 {
            let mut order: Vec<usize> = (0..120).collect();
            for i in (1..120).rev() {
                order.swap(i, r.below(i + 1));
            }
            for (i, b) in order.into_iter().enumerate() {
                matrix.rows[20 * layer + i / 6][b] = true;
            }
        }
        if (0..60).all(|c| matrix.ones_of(c).len() == 6) {
            return matrix;
        }
    }
}
