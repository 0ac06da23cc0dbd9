//! Beside what others would use: it++ for soft words and M4RI for elimination, on the same words in the same run.

use crate::pool::{self, best_of_all, orders, pace, Course, Input, Row, POOL};
use crate::print::{head, thousands};
use crate::shims::{Itpp, M4ri, Way};
use crate::{in_library, in_plain, plain, processor, Call, Case, Job, Random};
use std::hint::black_box;
use std::ops::Range;

const ROUNDS: usize = 50;

/// The nanoseconds of these passes over as many inputs as the orders have.
fn timed(orders: &[Vec<usize>], passes: Range<usize>, mut call: impl FnMut(usize)) -> u64 {
    let start = processor();
    for pass in passes {
        orders[pass % orders.len()].iter().for_each(|&i| call(i));
    }
    processor() - start
}

// Soft words

fn is_codeword(case: &Case, bits: &[u8]) -> bool {
    let even = |c: usize| {
        (0..case.n).filter(|b| case.words[8 * c + b / 64] >> (b % 64) & 1 == 1 && bits[*b] == 1).count() % 2 == 0
    };
    (0..case.m).all(even)
}

/// The library's results for a word as bits, a codeword if they are one. An erased or zero result is a 0, as it is for it++.
fn hard(case: &Case, job: &Job, input: &Input) -> Option<Vec<u8>> {
    let mut job = job.clone();
    pool::lend(&mut job, input);
    in_library(&mut job);
    let results = job.word.iter().zip(&job.floats);
    let bits: Vec<u8> = results.map(|(&byte, &float)| (byte == 1 || byte == 3 && float < 0.0) as u8).collect();
    Some(bits).filter(|bits| is_codeword(case, bits))
}

fn decoded(case: &Case, peer: &mut Itpp, input: &Input) -> Option<Vec<u8>> {
    let mut bits = vec![0; case.n];
    peer.decode(input.floats, &mut bits);
    Some(bits).filter(|bits| is_codeword(case, bits))
}

/// How many words end in a codeword, and in how many of these it is the other's, of those where the other ends in one too.
fn counts(own: &[Option<Vec<u8>>], other: &[Option<Vec<u8>>]) -> (usize, usize, usize) {
    let both = own.iter().zip(other).filter(|(x, y)| x.is_some() && y.is_some());
    (own.iter().flatten().count(), both.clone().filter(|(x, y)| x == y).count(), both.count())
}

fn soft_row(r: &mut Random, case: &Case, decibels: usize) -> Result<(), String> {
    let mut job = case.job(Call::MinSum);
    (job.rounds, job.message_bytes, job.message_floats) =
        (ROUNDS, vec![0; plain::MESSAGES], vec![0.0; plain::MESSAGES]);
    let inputs = pool::pool(POOL, || pool::noisy(r, case, case, decibels));
    let row = Row::new("min_sum", job, inputs);
    row.pool.iter().try_for_each(|input| pool::alike(&row.job, input))?;
    let way = |stops, sum_product| Itpp::new(case, ROUNDS, Way { stops, sum_product });
    let mut peers = [way(false, false)?, way(true, false)?, way(true, true)?];
    let ours: Vec<Option<Vec<u8>>> = row.pool.iter().map(|input| hard(case, &row.job, input)).collect();
    let mut line = format!("| {}, {decibels} dB |", case.name);
    let mut answers = format!(" {} |", ours.iter().flatten().count());
    for peer in &mut peers {
        let theirs: Vec<Option<Vec<u8>>> = row.pool.iter().map(|input| decoded(case, peer, input)).collect();
        let (codewords, same, both) = counts(&theirs, &ours);
        if 100 * same < 95 * both {
            return Err(format!("it++, {}, {decibels} dB: {same} codewords of {both} are the library's", case.name));
        }
        answers += &format!(" {codewords} ({same} of {both}) |");
    }
    for time in soft_times(&row, &mut peers) {
        line += &format!(" {:.1} |", time as f64 / 1000.0);
    }
    println!("{line}{answers}");
    Ok(())
}

/// The best nanoseconds of a word: the library, plain Rust, and it++ in its three ways.
fn soft_times(row: &Row, peers: &mut [Itpp; 3]) -> [u64; 5] {
    let orders = orders(POOL);
    let [one, two, three] = peers;
    let (mut library, mut plain) = (Course::of(row), Course::of(row));
    let pace = pace(|| plain.time(in_plain, 0..1));
    let theirs = |peer: &mut Itpp, passes| {
        let mut bits = vec![0; row.job.n];
        timed(&orders, passes, |i| peer.decode(black_box(row.pool[i].floats), &mut bits))
    };
    best_of_all(
        POOL,
        pace,
        [
            &mut |passes| library.time(in_library, passes),
            &mut |passes| plain.time(in_plain, passes),
            &mut |passes| theirs(one, passes),
            &mut |passes| theirs(two, passes),
            &mut |passes| theirs(three, passes),
        ],
    )
}

pub fn soft(r: &mut Random, cases: &[Case]) -> Result<(), String> {
    let way = Way { stops: false, sum_product: false };
    if let Err(why) = Itpp::new(&cases[0], ROUNDS, way) {
        println!("it++ is left out: {why}.\n");
        return Ok(());
    }
    let names = ["it++", "it++, stops at a codeword", "it++, sum-product, stops"];
    let mut heads = vec!["library".to_string(), "plain Rust".to_string()];
    heads.extend(names.map(str::to_string));
    heads.push(format!("codewords of {POOL} words: library"));
    heads.extend(names.map(|name| format!("{name} (the library's)")));
    head("matrix", &heads);
    for case in cases {
        for decibels in [1, 3, 5] {
            soft_row(r, case, decibels)?;
        }
    }
    println!();
    Ok(())
}

// Elimination

/// What M4RI makes of the call that the job is for, in place of the library.
fn in_m4ri(peer: &mut M4ri, job: &mut Job) -> u32 {
    match job.call {
        Call::Rank => {
            job.values[0] = peer.rank(&job.words) as u64;
            0
        }
        Call::Encode => {
            peer.encode(&job.words, job.input, &mut job.word);
            0
        }
        _ => peer.determine(&job.words, &mut job.word),
    }
}

/// Both sides answer alike and M4RI with them: the number, the word, and the rank.
fn agree(row: &Row, peer: &mut M4ri, input: &Input) -> Result<(), String> {
    pool::alike(&row.job, input)?;
    let mut expected = row.job.clone();
    pool::lend(&mut expected, input);
    let mut found = expected.clone();
    let numbers = (in_m4ri(peer, &mut found), in_plain(&mut expected));
    let rank = row.job.call != Call::Rank || found.values[0] == expected.values[0];
    if numbers.0 != numbers.1 || found.word != expected.word || !rank {
        return Err(format!("M4RI, {} with n {} m {}: {numbers:?}", row.name, row.job.n, row.job.m));
    }
    Ok(())
}

/// The nanoseconds of these passes by M4RI.
fn theirs(peer: &mut M4ri, row: &Row, scratch: &mut Job, orders: &[Vec<usize>], passes: Range<usize>) -> u64 {
    timed(orders, passes, |i| {
        pool::lend(scratch, &row.pool[i]);
        black_box(in_m4ri(peer, black_box(scratch)));
    })
}

fn elimination_row(case: &Case, row: &Row) -> Result<(), String> {
    let mut peers = [M4ri::new(case, 0)?, M4ri::new(case, 1)?, M4ri::new(case, 2)?];
    for peer in &mut peers {
        row.pool.iter().try_for_each(|input| agree(row, peer, input))?;
    }
    let orders = orders(row.pool.len());
    let [mut x, mut y, mut z] = [(); 3].map(|_| row.job.clone());
    let [one, two, three] = &mut peers;
    let (mut library, mut plain) = (Course::of(row), Course::of(row));
    let pace = pace(|| plain.time(in_plain, 0..1));
    let times = best_of_all(
        row.pool.len(),
        pace,
        [
            &mut |passes| library.time(in_library, passes),
            &mut |passes| plain.time(in_plain, passes),
            &mut |passes| theirs(one, row, &mut x, &orders, passes),
            &mut |passes| theirs(two, row, &mut y, &orders, passes),
            &mut |passes| theirs(three, row, &mut z, &orders, passes),
        ],
    );
    println!("| {}, {} | {} |", case.name, row.name, times.map(thousands).join(" | "));
    Ok(())
}

/// Rank, encoding and determining.
pub fn elimination(r: &mut Random, cases: &[Case]) -> Result<(), String> {
    if let Err(why) = M4ri::new(&cases[0], 0) {
        println!("M4RI is left out: {why}.\n");
        return Ok(());
    }
    head(
        "matrix and call",
        &["library", "plain Rust", "M4RI", "M4RI, Four Russians", "M4RI, Gauss"].map(str::to_string),
    );
    for case in cases {
        elimination_row(case, &Row::alone("rank", case.job(Call::Rank)))?;
        let mut job = case.job(Call::Encode);
        job.word = vec![0; case.n];
        let messages = pool::pool(POOL, || Input::read(pool::codeword(r, case, case).0));
        elimination_row(case, &Row::new("encode", job, messages))?;
        for part in [10, 30, 45] {
            let words = pool::pool(POOL, || Input::word(pool::received(r, case, case, part)));
            elimination_row(case, &Row::new(&format!("determine {part} %"), case.job(Call::Determine), words))?;
        }
    }
    println!();
    Ok(())
}
