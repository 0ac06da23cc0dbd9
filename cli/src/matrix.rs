//! A matrix that the library loaded, in words of its own.

use parity::{Loaded, Orthogonalised, Refusal, RECORD_MOST, WORDS};

/// The most sent bits, and the most given checks.
pub const MOST: usize = 120;

/// The two matrices that a command may work with, as `--by` names them, and whether it is the extended one.
pub const EITHER: [(&str, bool); 2] = [("given", false), ("extended", true)];

/// The bits of each check, rising, of n bits: what a file of text says.
#[derive(Clone, PartialEq, Eq, Debug)]
pub struct Checks {
    pub n: usize,
    pub checks: Vec<Vec<usize>>,
}

#[derive(Clone, PartialEq, Eq, Debug)]
pub struct Matrix {
    pub words: Vec<u64>,
    pub n: usize,
    pub m: usize,
    pub k: usize,
}

/// An orthogonalised matrix, and what that took. Where k came to 392 with a pair left it stands after the splits
/// that were made, and is not complete.
pub struct Extended {
    pub matrix: Matrix,
    pub splits: u64,
    pub sum: u64,
    pub complete: bool,
}

impl Matrix {
    /// Loads a record of any form.
    pub fn load(record: &[u32]) -> Result<Matrix, Refusal> {
        let mut words = vec![0; WORDS];
        let Loaded { n, m, k } = parity::load(record, &mut words)?;
        Ok(Matrix { words, n, m, k })
    }

    /// Loads the checks, at most 120 of at most 120 bits, as a record of the first form.
    pub fn of(checks: &Checks) -> Result<Matrix, Refusal> {
        let mut record = vec![0x1000_0000 | (checks.checks.len() << 8 | checks.n) as u32];
        for bits in &checks.checks {
            record.push(0x2000_0000 | bits.len() as u32);
            record.extend(bits.iter().map(|&bit| 0x3000_0000 | bit as u32));
        }
        record.push(0xF000_0000);
        Matrix::load(&record)
    }

    /// The record of the matrix: the second form where k = 0, and else the third.
    pub fn record(&self) -> Result<Vec<u32>, Refusal> {
        let mut record = vec![0; RECORD_MOST];
        let used = parity::write(&self.words, self.n, self.m, self.k, &mut record)?;
        record.truncate(used);
        Ok(record)
    }

    /// The pairs that were split, in order, each with the lower bit first, as the record has them.
    pub fn splits(&self) -> Result<Vec<(usize, usize)>, Refusal> {
        let words = self.record()?.into_iter().filter(|word| word >> 28 == 6);
        Ok(words.map(|word| ((word & 0x1FF) as usize, (word >> 9 & 0x1FF) as usize)).collect())
    }

    /// The words of a check.
    pub fn row(&self, check: usize) -> [u64; 8] {
        std::array::from_fn(|word| self.words[8 * check + word])
    }

    /// The bits that a check contains, rising.
    pub fn bits_of(&self, check: usize) -> Vec<usize> {
        let row = self.row(check);
        (0..self.n + self.k).filter(|bit| row[bit / 64] >> (bit % 64) & 1 == 1).collect()
    }

    /// The bits of all checks, the added ones last.
    pub fn rows(&self) -> Vec<Vec<usize>> {
        (0..self.m + self.k).map(|check| self.bits_of(check)).collect()
    }

    pub fn ones(&self) -> u64 {
        self.words.iter().map(|word| u64::from(word.count_ones())).sum()
    }

    /// The matrix with all its splits taken back. Taking back is never refused for a matrix that was loaded.
    pub fn given(&self) -> Result<Matrix, Refusal> {
        let mut given = self.clone();
        while given.k > 0 {
            given.k = parity::take_back(&mut given.words, given.n, given.m, given.k)?.k;
        }
        Ok(given)
    }

    /// The matrix with the splits that orthogonalising makes from here.
    pub fn extended(&self) -> Result<Extended, Refusal> {
        let mut matrix = self.clone();
        let (splits, sum, k, complete) = match parity::orthogonalise(&mut matrix.words, self.n, self.m, self.k) {
            Ok(Orthogonalised { splits, sum, k, .. }) => (splits, sum, k, true),
            Err(Refusal::FullAfter { splits, sum, k, .. }) => (splits, sum, k, false),
            Err(refusal) => return Err(refusal),
        };
        matrix.k = k;
        Ok(Extended { matrix, splits, sum, complete })
    }

    /// The rank of a matrix with k = 0.
    pub fn rank(&self) -> Result<usize, Refusal> {
        parity::rank(&self.words, self.n, self.m, self.k)
    }

    /// The bits of a matrix with k = 0 that hold the message, rising.
    pub fn message_bits(&self) -> Result<Vec<usize>, Refusal> {
        let mut marks = vec![0; self.n];
        parity::message_bits(&self.words, self.n, self.m, self.k, &mut marks)?;
        Ok((0..self.n).filter(|&bit| marks[bit] == 1).collect())
    }

    /// The given matrix, or the extended one.
    pub fn either(&self, extended: bool) -> Result<Matrix, Refusal> {
        if extended {
            Ok(self.extended()?.matrix)
        } else {
            self.given()
        }
    }

    pub fn count(&self) -> Result<u64, Refusal> {
        parity::count(&self.words, self.n, self.m, self.k)
    }
}
