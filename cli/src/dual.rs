//! The best decision on each bit of a soft word, from the words of the dual code: the sums of the checks (Hartmann
//! and Rudolph's rule).

use crate::matrix::Matrix;
use parity::Bit;

/// The largest rank of which all sums are taken.
pub const RANK_MOST: usize = 11;

/// The ones of each word of the dual code.
pub struct Dual {
    words: Vec<Vec<usize>>,
    n: usize,
}

impl Dual {
    /// The dual code of a given matrix of this rank; none where the rank is too large.
    pub fn new(given: &Matrix, rank: usize) -> Option<Dual> {
        if rank > RANK_MOST {
            return None;
        }
        let mut sums = vec![0u128];
        for check in 0..given.m {
            let row = given.row(check);
            let row = u128::from(row[0]) | u128::from(row[1]) << 64;
            if !sums.contains(&row) {
                sums.extend(sums.clone().iter().map(|sum| sum ^ row));
            }
        }
        let ones = |sum: u128| (0..given.n).filter(|bit| sum >> bit & 1 == 1).collect();
        (sums.len() == 1 << rank).then(|| Dual { words: sums.into_iter().map(ones).collect(), n: given.n })
    }

    /// The decision on each bit, as a soft bit of its sign, from how much likelier each received bit is 0 than 1.
    pub fn decide(&self, received: &[f32]) -> Vec<Bit> {
        let means: Vec<f64> = received.iter().map(|&value| (f64::from(value) / 2.0).tanh()).collect();
        let mut sums = vec![0.0; self.n];
        for word in &self.words {
            add(&mut sums, &means, word);
        }
        sums.into_iter().map(|sum| Bit::Soft(if sum == 0.0 { 0.0 } else { sum.signum() as f32 })).collect()
    }
}

/// Adds what a word of the dual code says of each bit: the product of the means of its ones, with the bit's own put
/// to them, or taken from them where it is one.
fn add(sums: &mut [f64], means: &[f64], ones: &[usize]) {
    let whole: f64 = ones.iter().map(|&bit| means[bit]).product();
    let before: Vec<f64> = sums.to_vec();
    sums.iter_mut().zip(means).for_each(|(sum, mean)| *sum += whole * mean);
    let mut front = 1.0;
    for (place, &bit) in ones.iter().enumerate() {
        let back: f64 = ones[place + 1..].iter().map(|&later| means[later]).product();
        sums[bit] = before[bit] + front * back;
        front *= means[bit];
    }
}
