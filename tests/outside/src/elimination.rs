//! A separate decoder: document 004's equations for the erased bits, solved by elimination.

use crate::model::Matrix;

/// Equations over some unknowns: the coefficients, and the sum that they must give.
struct Equations {
    rows: Vec<(Vec<bool>, bool)>,
    /// For each reduced row in order, the unknown that no other row contains.
    pivots: Vec<usize>,
}

impl Equations {
    /// Gauss and Jordan: afterwards row i has pivot i, no other row contains it, and rows past the pivots are zero.
    fn reduce(&mut self, unknowns: usize) {
        for unknown in 0..unknowns {
            let done = self.pivots.len();
            let Some(found) = (done..self.rows.len()).find(|&i| self.rows[i].0[unknown]) else { continue };
            self.rows.swap(done, found);
            let (pivot, sum) = self.rows[done].clone();
            for (i, row) in self.rows.iter_mut().enumerate() {
                if i != done && row.0[unknown] {
                    for (x, y) in row.0.iter_mut().zip(&pivot) {
                        *x ^= *y;
                    }
                    row.1 ^= sum;
                }
            }
            self.pivots.push(unknown);
        }
    }
}

/// The equations for the erased bits of a word: each check's erased bits sum to the sum of its known ones.
fn equations(matrix: &Matrix, word: &[u8]) -> (Vec<usize>, Equations) {
    let erased: Vec<usize> = (0..word.len()).filter(|&b| word[b] == 2).collect();
    let mut rows = Vec::new();
    for check in &matrix.rows {
        let coefficients = erased.iter().map(|&b| check[b]).collect();
        let syndrome = (0..word.len()).filter(|&b| check[b] && word[b] == 1).count() % 2 == 1;
        rows.push((coefficients, syndrome));
    }
    let mut equations = Equations { rows, pivots: Vec::new() };
    equations.reduce(erased.len());
    (erased, equations)
}

/// The word with each erased bit written that has one value in all codewords that agree with it; `None` if none agrees.
pub fn decode(matrix: &Matrix, word: &[u8]) -> Option<Vec<u8>> {
    let (erased, equations) = equations(matrix, word);
    let rank = equations.pivots.len();
    if equations.rows[rank..].iter().any(|row| row.1) {
        return None;
    }
    let mut decoded = word.to_vec();
    for (row, &pivot) in equations.rows.iter().zip(&equations.pivots) {
        if row.0.iter().filter(|&&one| one).count() == 1 {
            decoded[erased[pivot]] = row.1 as u8;
        }
    }
    Some(decoded)
}

/// The rank of the checks.
pub fn rank(matrix: &Matrix) -> usize {
    let word = vec![2; matrix.n + matrix.k];
    equations(matrix, &word).1.pivots.len()
}

/// Codewords that span the code.
pub fn basis(matrix: &Matrix) -> Vec<Vec<u8>> {
    let bits = matrix.n + matrix.k;
    let (_, equations) = equations(matrix, &vec![2; bits]);
    let mut all = Vec::new();
    for free in (0..bits).filter(|b| !equations.pivots.contains(b)) {
        let mut word = vec![0; bits];
        word[free] = 1;
        for (row, &pivot) in equations.rows.iter().zip(&equations.pivots) {
            word[pivot] = row.0[free] as u8;
        }
        all.push(word);
    }
    all
}

/// A sum of some of these words.
pub fn combine(basis: &[Vec<u8>], length: usize, mut take: impl FnMut() -> bool) -> Vec<u8> {
    let mut word = vec![0; length];
    for row in basis {
        if take() {
            for (x, y) in word.iter_mut().zip(row) {
                *x ^= *y;
            }
        }
    }
    word
}
