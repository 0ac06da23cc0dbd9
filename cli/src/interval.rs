//! Intervals of 95 % confidence (Wilson's) for shares that were counted.

/// The normal distribution has 95 % within so many deviations of its middle.
const DEVIATIONS: f64 = 1.959963984540054;

/// A share as counted, and the ends of its interval.
#[derive(Clone, Copy, PartialEq, Debug)]
pub struct Interval {
    pub share: f64,
    pub low: f64,
    pub high: f64,
}

/// What was counted on words: bits, the squares of each word's bits, and words with any.
#[derive(Clone, Copy, Default, PartialEq, Eq, Debug)]
pub struct Count {
    pub bits: u64,
    pub squares: u64,
    pub words: u64,
}

impl Count {
    /// Counts a word with so many bits.
    pub fn word(&mut self, bits: usize) {
        let bits = bits as u64;
        self.bits += bits;
        self.squares += bits * bits;
        self.words += u64::from(bits > 0);
    }

    pub fn add(&mut self, other: &Count) {
        self.bits += other.bits;
        self.squares += other.squares;
        self.words += other.words;
    }

    /// The share of the words, which are independent.
    pub fn of_words(&self, words: u64) -> Interval {
        wilson(self.words as f64 / words as f64, words as f64)
    }

    /// The share of the bits. Those of a word are not independent: the interval is that of as many independent ones
    /// as vary alike, and where none was counted, or all were, of one for each word.
    pub fn of_bits(&self, words: u64, n: usize) -> Interval {
        let (words, n) = (words as f64, n as f64);
        let share = self.bits as f64 / (words * n);
        let variance = self.squares as f64 / (words * n * n) - share * share;
        let alike = share * (1.0 - share) / variance;
        wilson(share, if alike.is_finite() { words * alike.max(1.0) } else { words })
    }
}

/// Wilson's interval for a share of so many independent trials.
fn wilson(share: f64, trials: f64) -> Interval {
    let square = DEVIATIONS * DEVIATIONS / trials;
    let middle = (share + square / 2.0) / (1.0 + square);
    let half = (share * (1.0 - share) * square + square * square / 4.0).sqrt() / (1.0 + square);
    Interval { share, low: (middle - half).clamp(0.0, share), high: (middle + half).clamp(share, 1.0) }
}
