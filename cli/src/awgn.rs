//! Codewords over a channel that adds white Gaussian noise, decoded by min-sum rounds.

use crate::dual::Dual;
use crate::erasures::Setup;
use crate::measure::{Channel, Point};
use crate::random::Random;
use crate::soft::{hard, Decoder};
use parity::{Bit, Refusal};

/// Eb/N0 goes from 0 to so many dB, in steps of a half.
pub const DECIBELS: u32 = 8;
pub const POINTS: u64 = 2 * DECIBELS as u64 + 1;

/// A soft bit may be no larger.
const LARGEST: f64 = 1_048_576.0;

/// Random numbers of this channel are no other channel's.
const NOISE: u64 = 0x6177_676E;

/// A matrix, the rounds, and the words of its dual code where these are few.
pub struct Noisy<'a> {
    setup: &'a Setup,
    rounds: usize,
    dual: Option<Dual>,
}

impl Noisy<'_> {
    pub fn new(setup: &Setup, rounds: usize) -> Noisy<'_> {
        Noisy { setup, rounds, dual: Dual::new(&setup.given, setup.rank) }
    }
}

/// Eb/N0 at a point, in dB.
pub fn decibels(point: u64) -> f64 {
    point as f64 / 2.0
}

/// The variance of the noise at a point, for bits sent as 1 and -1 with a code of this rate.
pub fn variance(point: u64, rate: f64) -> f64 {
    0.5 / (rate * 10f64.powf(decibels(point) / 10.0))
}

/// Codewords, and for each bit the logarithm of how much likelier it is 0 than 1.
pub struct Draw<'a> {
    setup: &'a Setup,
    random: Random,
    variance: f64,
    message: Vec<u8>,
    pub sent: Vec<u8>,
    pub received: Vec<f32>,
}

impl Draw<'_> {
    pub fn new(setup: &Setup, seed: u64, point: u64, chunk: u64) -> Draw<'_> {
        let n = setup.given.n;
        let (random, variance) = (Random::of(&[NOISE, seed, point, chunk]), variance(point, setup.rate()));
        Draw { setup, random, variance, message: vec![0; n - setup.rank], sent: vec![0; n], received: vec![0.0; n] }
    }

    pub fn word(&mut self) -> Result<(), Refusal> {
        let Draw { setup, random, variance, message, sent, received } = self;
        let given = &setup.given;
        message.iter_mut().for_each(|bit| *bit = (random.number() >> 63) as u8);
        parity::encode(&given.words, given.n, given.m, 0, message, sent)?;
        for (received, &sent) in received.iter_mut().zip(&*sent) {
            let found = 1.0 - 2.0 * f64::from(sent) + variance.sqrt() * random.normal();
            *received = (2.0 * found / *variance).clamp(-LARGEST, LARGEST) as f32;
        }
        Ok(())
    }
}

/// How many bits are not decided as they were sent. A soft zero decides nothing, and counts as wrong.
pub fn wrong(bits: &[Bit], sent: &[u8]) -> usize {
    let is_right = |(&bit, &sent): (&Bit, &u8)| hard(bit) == if sent == 1 { '1' } else { '0' };
    sent.len() - bits.iter().zip(sent).filter(|&pair| is_right(pair)).count()
}

/// By min-sum with the given matrix, with the extended one, and by the best decision on each bit.
impl Channel for Noisy<'_> {
    fn points(&self) -> u64 {
        POINTS
    }

    fn ways(&self) -> usize {
        if self.dual.is_some() {
            3
        } else {
            2
        }
    }

    fn chunk(&self, seed: u64, point: u64, chunk: u64, words: u64) -> Result<Point, Refusal> {
        let mut draw = Draw::new(self.setup, seed, point, chunk);
        let mut point = Point { words, ..Point::default() };
        let matrices = [&self.setup.given, &self.setup.extended];
        let mut decoders = matrices.map(|matrix| Decoder::new(matrix.clone(), self.rounds));
        for _ in 0..words {
            draw.word()?;
            let soft: Vec<Bit> = draw.received.iter().map(|&value| Bit::Soft(value)).collect();
            point.hit += wrong(&soft, &draw.sent) as u64;
            for (decoder, left) in decoders.iter_mut().zip(&mut point.left) {
                let mut bits = soft.clone();
                decoder.decode(&mut bits)?;
                left.word(wrong(&bits, &draw.sent));
            }
            if let Some(dual) = &self.dual {
                point.left[2].word(wrong(&dual.decide(&draw.received), &draw.sent));
            }
        }
        Ok(point)
    }
}
