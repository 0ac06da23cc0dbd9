//! Codewords over a channel that erases bits, mended in three ways.

use crate::matrix::Matrix;
use crate::measure::{Channel, Point};
use crate::random::Random;
use parity::Refusal;

/// The erasure rates are the parts 1 to 50 of 50.
pub const RATES: u64 = 50;

/// The given matrix, the extended one and the rank.
pub struct Setup {
    pub given: Matrix,
    pub extended: Matrix,
    pub rank: usize,
}

impl Setup {
    pub fn new(matrix: &Matrix) -> Result<Setup, Refusal> {
        let given = matrix.given()?;
        let rank = given.rank()?;
        Ok(Setup { given, extended: matrix.extended()?.matrix, rank })
    }

    /// The rate of the code.
    pub fn rate(&self) -> f64 {
        (self.given.n - self.rank) as f64 / self.given.n as f64
    }
}

/// The codewords of a chunk, with bits erased.
pub struct Draw<'a> {
    given: &'a Matrix,
    random: Random,
    rate: u64,
    message: Vec<u8>,
    pub sent: Vec<u8>,
    pub received: Vec<u8>,
}

impl Draw<'_> {
    /// A chunk of words at erasure rate `rate` of [`RATES`].
    pub fn new(setup: &Setup, seed: u64, rate: u64, chunk: u64) -> Draw<'_> {
        let (given, n) = (&setup.given, setup.given.n);
        let random = Random::of(&[seed, rate, chunk]);
        Draw { given, random, rate, message: vec![0; n - setup.rank], sent: vec![0; n], received: vec![0; n] }
    }

    /// Draws the next word, `sent` and `received`.
    pub fn word(&mut self) -> Result<(), Refusal> {
        let Draw { given, random, rate, message, sent, received } = self;
        message.iter_mut().for_each(|bit| *bit = (random.number() >> 63) as u8);
        parity::encode(&given.words, given.n, given.m, 0, message, sent)?;
        for (received, &sent) in received.iter_mut().zip(&*sent) {
            *received = if random.chance(*rate, RATES) { 2 } else { sent };
        }
        Ok(())
    }
}

/// By peeling with the given matrix, by peeling with the extended one, and by all that the checks determine.
impl Channel for Setup {
    fn points(&self) -> u64 {
        RATES
    }

    fn ways(&self) -> usize {
        3
    }

    fn chunk(&self, seed: u64, point: u64, chunk: u64, words: u64) -> Result<Point, Refusal> {
        let Setup { given, extended, .. } = self;
        let mut draw = Draw::new(self, seed, point + 1, chunk);
        let mut point = Point { words, ..Point::default() };
        let mut word = vec![2; given.n];
        let mut longer = vec![2; given.n + extended.k];
        for _ in 0..words {
            draw.word()?;
            point.hit += draw.received.iter().filter(|&&byte| byte == 2).count() as u64;
            word.copy_from_slice(&draw.received);
            let peeled = parity::peel(&given.words, given.n, given.m, 0, &mut word)?;
            longer[..given.n].copy_from_slice(&draw.received);
            longer[given.n..].fill(2);
            let better = parity::peel(&extended.words, extended.n, extended.m, extended.k, &mut longer)?;
            word.copy_from_slice(&draw.received);
            let determined = parity::determine(&given.words, given.n, given.m, 0, &mut word)?;
            let left = [peeled.left_sent, better.left_sent, determined.left_sent];
            point.left.iter_mut().zip(left).for_each(|(count, left)| count.word(left));
        }
        Ok(point)
    }
}
