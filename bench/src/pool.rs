//! The pools of inputs that rows go over, in an order that changes from pass to pass, and the times of both sides.

use crate::{in_library, in_plain, plain, processor, Call, Case, Job, Random, RUNS, RUN_LENGTH};
use parity::VALUES_MOST;
use std::f64::consts::PI;
use std::hint::black_box;
use std::ops::Range;
use std::time::Instant;

/// How many inputs a row has: less for soft words, which take long.
pub const POOL: usize = 256;
pub const SOFT_POOL: usize = 64;
/// How many orders there are, one after the other.
const ORDERS: usize = 16;
/// A row takes about so many nanoseconds on each side at most, where three runs do not take more.
const MOST: u64 = 1_500_000_000;

/// What changes from call to call.
#[derive(Clone, Copy, Default, PartialEq)]
pub struct Input {
    pub pair: (usize, usize),
    pub read: &'static [u8],
    pub word: &'static [u8],
    pub floats: &'static [f32],
}

impl Input {
    pub fn read(bytes: Vec<u8>) -> Input {
        Input { read: bytes.leak(), ..Input::default() }
    }

    pub fn word(bytes: Vec<u8>) -> Input {
        Input { word: bytes.leak(), ..Input::default() }
    }
}

/// A call, and the inputs that it goes over; one that is empty where the call takes a matrix alone.
#[derive(Clone)]
pub struct Row {
    pub name: String,
    pub job: Job,
    pub pool: Vec<Input>,
}

impl Row {
    pub fn new(name: &str, mut job: Job, pool: Vec<Input>) -> Row {
        let first = pool[0];
        job.word.resize(job.word.len().max(first.word.len()), 0);
        job.floats.resize(first.floats.len(), 0.0);
        Row { name: name.to_string(), job, pool }
    }

    pub fn alone(name: &str, job: Job) -> Row {
        Row::new(name, job, vec![Input::default()])
    }

    /// The same inputs for another call.
    pub fn with(&self, name: &str, call: Call) -> Row {
        let mut row = self.clone();
        (row.name, row.job.call) = (name.to_string(), call);
        row
    }
}

/// Lends the call its next input. What a call changes is copied, and what it only reads is not.
#[inline(always)]
pub fn lend(job: &mut Job, next: &Input) {
    match job.call {
        Call::Share | Call::Split => (job.u, job.v) = next.pair,
        Call::Verify | Call::Extend | Call::IsStopping | Call::Encode => job.input = next.read,
        Call::Peel | Call::Determine | Call::MendBlock => job.word.copy_from_slice(next.word),
        Call::MinSum => {
            job.word.copy_from_slice(next.word);
            job.floats.copy_from_slice(next.floats);
        }
        _ => {}
    }
}

// The time

/// The orders of a pool: random, and the same in each run of the program.
pub fn orders(size: usize) -> Vec<Vec<usize>> {
    let r = &mut Random(0xD1B5_4A32_D192_ED03);
    let mut order: Vec<usize> = (0..size).collect();
    let mut shuffled = || {
        (1..size).rev().for_each(|i| order.swap(i, r.below(i + 1)));
        order.clone()
    };
    (0..ORDERS).map(|_| shuffled()).collect()
}

/// How many passes over the pool a run has, and how many runs there are.
#[derive(Clone, Copy)]
pub struct Pace {
    pub passes: usize,
    pub runs: usize,
}

/// By what one pass takes, the best of a few tries where they are short.
pub fn pace(mut pass: impl FnMut() -> u64) -> Pace {
    let mut once = pass();
    for _ in 0..if once < RUN_LENGTH { 5 } else { 0 } {
        once = once.min(pass());
    }
    let once = once.max(1);
    let passes = (RUN_LENGTH / once).clamp(1, 10_000);
    Pace { passes: passes as usize, runs: (MOST / (passes * once)).clamp(3, RUNS as u64) as usize }
}

/// What reading the clock twice takes.
pub fn clock() -> u64 {
    (0..1000).map(|_| Instant::now().elapsed().as_nanos() as u64).min().unwrap()
}

/// A row that is being timed.
pub struct Course<'a> {
    row: &'a Row,
    scratch: Job,
    orders: Vec<Vec<usize>>,
    clock: u64,
}

impl Course<'_> {
    pub fn of(row: &Row) -> Course<'_> {
        Course { row, scratch: row.job.clone(), orders: orders(row.pool.len()), clock: clock() }
    }

    /// The nanoseconds of these passes by the clock, each call on words that were just copied, outside the time.
    pub fn on_copies(&mut self, run: fn(&mut Job) -> u32, passes: Range<usize>) -> u64 {
        let mut sum = 0;
        for pass in passes {
            for &i in &self.orders[pass % ORDERS] {
                self.scratch.words.copy_from_slice(&self.row.job.words);
                lend(&mut self.scratch, &self.row.pool[i]);
                let start = Instant::now();
                black_box(run(black_box(&mut self.scratch)));
                sum += (start.elapsed().as_nanos() as u64).saturating_sub(self.clock);
            }
        }
        sum
    }

    /// The nanoseconds of these passes. A matrix that a call changes is put back outside the time, a word of at most 512 bytes inside it.
    pub fn time(&mut self, run: fn(&mut Job) -> u32, passes: Range<usize>) -> u64 {
        if matches!(self.row.job.call, Call::Split | Call::TakeBack | Call::Orthogonalise) {
            return self.on_copies(run, passes);
        }
        let start = processor();
        for pass in passes {
            for &i in &self.orders[pass % ORDERS] {
                lend(&mut self.scratch, &self.row.pool[i]);
                black_box(run(black_box(&mut self.scratch)));
            }
        }
        processor() - start
    }
}

/// The nanoseconds of passes over a pool.
pub type Side<'a> = &'a mut dyn FnMut(Range<usize>) -> u64;

/// The best nanoseconds of one call of each side, the mean over pools of as many inputs, which they go over in turn.
pub fn best_of_all<const SIDES: usize>(size: usize, pace: Pace, mut sides: [Side; SIDES]) -> [u64; SIDES] {
    let mut best = [u64::MAX; SIDES];
    for run in 0..pace.runs {
        for (best, side) in best.iter_mut().zip(&mut sides) {
            *best = side(run * pace.passes..(run + 1) * pace.passes).min(*best);
        }
    }
    best.map(|best| best / (size * pace.passes) as u64)
}

/// The same for two sides.
pub fn best_of(
    size: usize,
    pace: Pace,
    mut one: impl FnMut(Range<usize>) -> u64,
    mut other: impl FnMut(Range<usize>) -> u64,
) -> (u64, u64) {
    let [one, other] = best_of_all(size, pace, [&mut one, &mut other]);
    (one, other)
}

fn bits(floats: &[f32]) -> Vec<u32> {
    floats.iter().map(|x| x.to_bits()).collect()
}

/// Both sides answer alike, bit for bit.
pub fn alike(job: &Job, input: &Input) -> Result<(), String> {
    let mut expected = job.clone();
    lend(&mut expected, input);
    let mut found = expected.clone();
    let (number, got) = (in_plain(&mut expected), in_library(&mut found));
    if got != number || found != expected || bits(&found.floats) != bits(&expected.floats) {
        return Err(format!(
            "{:?} with n {} m {} k {} differs: library {got} {:?}, plain {number} {:?}",
            job.call, job.n, job.m, job.k, found.values, expected.values
        ));
    }
    Ok(())
}

/// The best nanoseconds of one call: the library's and plain Rust's.
pub fn measure(row: &Row) -> Result<(u64, u64), String> {
    row.pool.iter().try_for_each(|input| alike(&row.job, input))?;
    let (mut library, mut plain) = (Course::of(row), Course::of(row));
    let pace = pace(|| plain.time(in_plain, 0..1));
    Ok(best_of(row.pool.len(), pace, |p| library.time(in_library, p), |p| plain.time(in_plain, p)))
}

// The inputs

/// So many inputs.
pub fn pool(size: usize, input: impl FnMut() -> Input) -> Vec<Input> {
    let mut input = input;
    (0..size).map(|_| input()).collect()
}

/// A message and its codeword of the given matrix, the codeword extended.
pub fn codeword(r: &mut Random, given: &Case, extended: &Case) -> (Vec<u8>, Vec<u8>) {
    let mut values = [0; VALUES_MOST];
    let message: Vec<u8> = (0..given.n - rank(given)).map(|_| r.below(2) as u8).collect();
    let mut sent = vec![0; given.n];
    plain::encode(&given.words, given.n, given.m, 0, &message, &mut sent, &mut values);
    let mut word = vec![0; extended.n + extended.k];
    plain::extend(&extended.words, extended.n, extended.m, extended.k, &sent, &mut word, &mut values);
    (message, word)
}

pub fn rank(given: &Case) -> usize {
    let mut values = [0; VALUES_MOST];
    plain::rank(&given.words, given.n, given.m, 0, &mut values);
    values[0] as usize
}

/// A codeword of which so many of 100 sent bits are erased, and all added ones.
pub fn received(r: &mut Random, given: &Case, case: &Case, part: usize) -> Vec<u8> {
    let mut word = codeword(r, given, case).1;
    word[case.n..].fill(2);
    for _ in 0..case.n * part / 100 {
        let mut b = r.below(case.n);
        while word[b] == 2 {
            b = r.below(case.n);
        }
        word[b] = 2;
    }
    word
}

/// What peeling leaves of a received word, which is a stopping set.
fn residue(r: &mut Random, given: &Case, case: &Case) -> Vec<u8> {
    let part = 45 + r.below(50);
    let mut word = received(r, given, case, part);
    plain::peel(&case.words, case.n, case.m, case.k, &mut word, &mut [0; VALUES_MOST]);
    word.iter().map(|&byte| (byte == 2) as u8).collect()
}

/// A stopping set or a random set, which seldom is one.
pub fn set(r: &mut Random, given: &Case, case: &Case) -> Vec<u8> {
    if r.below(2) == 0 {
        return residue(r, given, case);
    }
    let part = 1 + r.below(99);
    (0..case.n + case.k).map(|_| (r.below(100) < part) as u8).collect()
}

/// A codeword or, as often, the same with a few bits turned.
pub fn doubtful(r: &mut Random, given: &Case, case: &Case) -> Vec<u8> {
    let mut word = codeword(r, given, case).1;
    for _ in 0..r.below(2) * (1 + r.below(5)) {
        let b = r.below(word.len());
        word[b] ^= 1;
    }
    word
}

/// A random number between 0 and 1, neither of them.
fn fraction(r: &mut Random) -> f64 {
    (r.below(1 << 31) as f64 + 0.5) / (1u64 << 31) as f64
}

/// Soft sent bits, and erased added ones.
fn soft(case: &Case, sent: Vec<f32>) -> Input {
    let mut word = vec![3; case.n + case.k];
    word[case.n..].fill(2);
    let mut floats = sent;
    floats.resize(case.n + case.k, 0.0);
    Input { word: word.leak(), floats: floats.leak(), ..Input::default() }
}

/// Soft sent bits of the zero codeword, one in ten of them false.
pub fn one_in_ten_false(r: &mut Random, case: &Case) -> Input {
    soft(case, (0..case.n).map(|_| r.below(4000) as f32 / 1000.0 - 0.4).collect())
}

/// The logarithms of likelihoods of a codeword's bits, sent as 1 and -1 over a channel that adds Gaussian noise, at so many dB of Eb/N0. A code with no message counts as one of one bit.
pub fn noisy(r: &mut Random, given: &Case, case: &Case, decibels: usize) -> Input {
    let rate = (given.n - rank(given)).max(1) as f64 / given.n as f64;
    let variance = 1.0 / (2.0 * rate * 10f64.powf(decibels as f64 / 10.0));
    let word = codeword(r, given, case).1;
    let mut received = |&bit: &u8| {
        let noise = (-2.0 * fraction(r).ln()).sqrt() * (2.0 * PI * fraction(r)).cos();
        let y = 1.0 - 2.0 * bit as f64 + variance.sqrt() * noise;
        (2.0 * y / variance) as f32
    };
    let sent = word[..case.n].iter().map(&mut received).collect();
    soft(case, sent)
}
