//! Times each call of the library through the C interface against plain Rust of the same call, in the same run and on the same inputs, and
//! prints tables in Markdown. A row that takes a word, a set or a pair goes over a pool of them, in an order that changes. Both sides are compared on
//! every input before they are timed. Words of the command line are the starts of the rows' names that are wanted; without any, all rows are. With
//! `--markdown` the tables alone are printed, each under the mark that it has in docs/SPEED.md.

mod beside;
mod lanes;
mod packets;
mod peers;
mod plain;
mod planes;
mod pool;
mod print;
mod program;
mod ranges;
mod shims;

use parity::{ffi, VALUES_MOST};
use pool::{Course, Input, Row};
use print::{cell, head, note, thousands, wanted, Summary};
use std::hint::black_box;
use std::ops::Range;
use std::process::ExitCode;
use std::time::Instant;

const WORDS: usize = 4096;
/// Each time is the best of so many runs, or of fewer where a run takes long; a run takes about so many nanoseconds, and a pass over the pool at least.
const RUNS: usize = 45;
const RUN_LENGTH: u64 = 500_000;

#[derive(Clone, Copy, PartialEq, Debug)]
enum Call {
    Load,
    Write,
    Share,
    Count,
    Split,
    TakeBack,
    Orthogonalise,
    Verify,
    Extend,
    IsStopping,
    Peel,
    Determine,
    MendBlock,
    Rank,
    Encode,
    MessageBits,
    HouseCode,
    StoppingSets,
    Join,
    MinSum,
}

/// All that a call is lent and passed.
#[derive(Clone, PartialEq, Debug)]
struct Job {
    call: Call,
    words: Vec<u64>,
    n: usize,
    m: usize,
    k: usize,
    u: usize,
    v: usize,
    name: usize,
    record: Vec<u32>,
    input: &'static [u8],
    word: Vec<u8>,
    t: usize,
    sets: Vec<u16>,
    /// The second matrix of join, which has the same n and k, and the words of the third.
    words2: Vec<u64>,
    m2: usize,
    words3: Vec<u64>,
    rounds: usize,
    floats: Vec<f32>,
    message_bytes: Vec<u8>,
    message_floats: Vec<f32>,
    values: [u64; VALUES_MOST],
}

fn in_plain(job: &mut Job) -> u32 {
    let (n, m, k, values) = (job.n, job.m, job.k, &mut job.values);
    match job.call {
        Call::Load => plain::load(&job.record, &mut job.words, values),
        Call::Write => plain::write(&job.words, n, m, k, &mut job.record, values),
        Call::Share => plain::share(&job.words, n, m, k, job.u, job.v, values),
        Call::Count => plain::count(&job.words, n, m, k, values),
        Call::Split => plain::split(&mut job.words, n, m, k, job.u, job.v, values),
        Call::TakeBack => plain::take_back(&mut job.words, n, m, k, values),
        Call::Orthogonalise => plain::orthogonalise(&mut job.words, n, m, k, values),
        Call::Verify => plain::verify(&job.words, n, m, k, job.input, values),
        Call::Extend => plain::extend(&job.words, n, m, k, job.input, &mut job.word, values),
        Call::IsStopping => plain::is_stopping(&job.words, n, m, k, job.input, values),
        Call::Peel => plain::peel(&job.words, n, m, k, &mut job.word, values),
        Call::Determine => plain::determine(&job.words, n, m, k, &mut job.word, values),
        Call::MendBlock => plain::mend_block(&job.words, n, m, k, &mut job.word, values),
        Call::Rank => plain::rank(&job.words, n, m, k, values),
        Call::Encode => plain::encode(&job.words, n, m, k, job.input, &mut job.word, values),
        Call::MessageBits => plain::message_bits(&job.words, n, m, k, &mut job.word),
        Call::HouseCode => plain::house_code(job.name, &mut job.words, values),
        Call::StoppingSets => plain::stopping_sets(&job.words, n, m, k, job.t, &mut job.sets, values),
        Call::Join => plain::join(&job.words, n, m, k, &job.words2, n, job.m2, k, &mut job.words3, values),
        Call::MinSum => plain::min_sum(
            &job.words,
            n,
            m,
            k,
            job.rounds,
            &mut job.word,
            &mut job.floats,
            &mut job.message_bytes,
            &mut job.message_floats,
        ),
    }
}

fn in_library(job: &mut Job) -> u32 {
    let (n, m, k, u, v) = (job.n, job.m, job.k, job.u, job.v);
    let (words, words_len) = (job.words.as_mut_ptr(), job.words.len());
    let (record, record_len) = (job.record.as_mut_ptr(), job.record.len());
    let (input, input_len) = (job.input.as_ptr(), job.input.len());
    let (word, word_len) = (job.word.as_mut_ptr(), job.word.len());
    let (sets, sets_len) = (job.sets.as_mut_ptr(), job.sets.len());
    let (words2, words2_len, m2) = (job.words2.as_ptr(), job.words2.len(), job.m2);
    let (words3, words3_len) = (job.words3.as_mut_ptr(), job.words3.len());
    let (floats, floats_len) = (job.floats.as_mut_ptr(), job.floats.len());
    let (bytes, bytes_len) = (job.message_bytes.as_mut_ptr(), job.message_bytes.len());
    let (messages, messages_len) = (job.message_floats.as_mut_ptr(), job.message_floats.len());
    let (values, values_len) = (job.values.as_mut_ptr(), job.values.len());
    // Every pointer and length is that of a live vector, and no two overlap.
    unsafe {
        match job.call {
            Call::Load => ffi::parity_load(record, record_len, words, words_len, values, values_len),
            Call::Write => ffi::parity_write(words, words_len, n, m, k, record, record_len, values, values_len),
            Call::Share => ffi::parity_share(words, words_len, n, m, k, u, v, values, values_len),
            Call::Count => ffi::parity_count(words, words_len, n, m, k, values, values_len),
            Call::Split => ffi::parity_split(words, words_len, n, m, k, u, v, values, values_len),
            Call::TakeBack => ffi::parity_take_back(words, words_len, n, m, k, values, values_len),
            Call::Orthogonalise => ffi::parity_orthogonalise(words, words_len, n, m, k, values, values_len),
            Call::Verify => ffi::parity_verify(words, words_len, n, m, k, input, input_len, values, values_len),
            Call::Extend => {
                ffi::parity_extend(words, words_len, n, m, k, input, input_len, word, word_len, values, values_len)
            }
            Call::IsStopping => {
                ffi::parity_is_stopping(words, words_len, n, m, k, input, input_len, values, values_len)
            }
            Call::Peel => ffi::parity_peel(words, words_len, n, m, k, word, word_len, values, values_len),
            Call::Determine => ffi::parity_determine(words, words_len, n, m, k, word, word_len, values, values_len),
            Call::MendBlock => ffi::parity_mend_block(words, words_len, n, m, k, word, word_len, values, values_len),
            Call::Rank => ffi::parity_rank(words, words_len, n, m, k, values, values_len),
            Call::Encode => {
                ffi::parity_encode(words, words_len, n, m, k, input, input_len, word, word_len, values, values_len)
            }
            Call::MessageBits => {
                ffi::parity_message_bits(words, words_len, n, m, k, word, word_len, values, values_len)
            }
            Call::HouseCode => ffi::parity_house_code(job.name, words, words_len, values, values_len),
            Call::StoppingSets => {
                ffi::parity_stopping_sets(words, words_len, n, m, k, job.t, sets, sets_len, values, values_len)
            }
            Call::Join => ffi::parity_join(
                words, words_len, n, m, k, words2, words2_len, n, m2, k, words3, words3_len, values, values_len,
            ),
            Call::MinSum => ffi::parity_min_sum(
                words,
                words_len,
                n,
                m,
                k,
                job.rounds,
                word,
                word_len,
                floats,
                floats_len,
                bytes,
                bytes_len,
                messages,
                messages_len,
                values,
                values_len,
            ),
        }
    }
}

#[repr(C)]
struct Timespec {
    seconds: i64,
    nanoseconds: i64,
}

extern "C" {
    fn clock_gettime(clock: i32, time: *mut Timespec) -> i32;
}

/// The processor time of this thread, in nanoseconds: what other programs do on the same cores meanwhile is not in it.
fn processor() -> u64 {
    let mut time = Timespec { seconds: 0, nanoseconds: 0 };
    // SAFETY: the time is a live one, of the form that Linux fills. Clock 3 is that of the thread.
    unsafe { clock_gettime(3, &mut time) };
    time.seconds as u64 * 1_000_000_000 + time.nanoseconds as u64
}

/// The best nanoseconds of the program `mend` on two lists of inputs, in turn. Both must mend alike: only the splits made may differ.
fn mends(one: &[&'static [u8]], other: &[&'static [u8]]) -> Result<(u64, u64), String> {
    let mended = |input| {
        program::run(input);
        let text = program::output();
        text.split_once('\n').map_or(text.clone(), |(first, rest)| format!("{} .. {rest}", &first[..6]))
    };
    for (&one, &other) in one.iter().zip(other) {
        let (found, expected) = (mended(one), mended(other));
        if found != expected {
            return Err(format!("mend differs: {found:?}, {expected:?}"));
        }
    }
    let orders = pool::orders(one.len());
    let timed = |inputs: &[&'static [u8]], passes: Range<usize>| {
        let start = Instant::now();
        for pass in passes {
            orders[pass % orders.len()].iter().for_each(|&i| program::run(black_box(inputs[i])));
        }
        start.elapsed().as_nanos() as u64
    };
    // Many runs: they are compared to a hundredth.
    let pace = pool::pace(|| timed(other, 0..1));
    let pace = pool::Pace { passes: 1, runs: 10 * pace.runs };
    Ok(pool::best_of(one.len(), pace, |passes| timed(one, passes), |passes| timed(other, passes)))
}

/// The best nanoseconds of one call of the library for each of two rows, which are timed in turn and on copied words.
fn in_turn(one: &Row, other: &Row) -> (u64, u64) {
    let (mut one, mut other) = (Course::of(one), Course::of(other));
    let pace = pool::pace(|| other.on_copies(in_library, 0..1));
    pool::best_of(1, pace, |passes| one.on_copies(in_library, passes), |passes| other.on_copies(in_library, passes))
}

/// The last stage that mending each block of the pool runs; 0 where it is refused.
fn stages(row: &Row) -> Vec<u64> {
    let stage = |input: &Input| {
        let mut job = row.job.clone();
        pool::lend(&mut job, input);
        if in_plain(&mut job) == 0 {
            job.values[0]
        } else {
            0
        }
    };
    row.pool.iter().map(stage).collect()
}

/// How many of 100 blocks have each stage as their last.
fn shares(row: &Row) -> String {
    let stages = stages(row);
    let share = |stage: u64| 100 * stages.iter().filter(|&&last| last == stage).count() / stages.len();
    match [1, 2, 3].into_iter().find(|&stage| share(stage) == 100) {
        Some(stage) => format!("(stage {stage}) "),
        None => format!("(stages {}/{}/{} %) ", share(1), share(2), share(3)),
    }
}

/// The best nanoseconds of mending the blocks of a pool for which stage 1 suffices, and of peeling them, both of the library, in turn.
fn mend_and_peel(row: &Row) -> Option<(u64, u64)> {
    let stages = stages(row);
    let mut mending = row.clone();
    mending.pool = row.pool.iter().zip(stages).filter(|(_, stage)| *stage == 1).map(|(input, _)| *input).collect();
    if mending.pool.len() < pool::SOFT_POOL {
        return None;
    }
    let peeling = mending.with("peel", Call::Peel);
    let (mut one, mut other) = (Course::of(&mending), Course::of(&peeling));
    let pace = pool::pace(|| other.time(in_library, 0..1));
    let size = mending.pool.len();
    Some(pool::best_of(size, pace, |passes| one.time(in_library, passes), |passes| other.time(in_library, passes)))
}

struct Random(u64);

impl Random {
    fn below(&mut self, end: usize) -> usize {
        self.0 ^= self.0 << 13;
        self.0 ^= self.0 >> 7;
        self.0 ^= self.0 << 17;
        (self.0.wrapping_mul(0x2545_F491_4F6C_DD1D) >> 33) as usize % end
    }
}

/// A matrix with a name.
#[derive(Clone)]
struct Case {
    name: &'static str,
    words: Vec<u64>,
    n: usize,
    m: usize,
    k: usize,
}

impl Case {
    fn given(name: &'static str, n: usize, checks: &[Vec<usize>]) -> Case {
        let mut words = vec![0; WORDS];
        for (c, bits) in checks.iter().enumerate() {
            for b in bits {
                words[8 * c + b / 64] |= 1 << (b % 64);
            }
        }
        Case { name, words, n, m: checks.len(), k: 0 }
    }

    fn orthogonalised(&self) -> Case {
        let mut case = self.clone();
        let mut values = [0; VALUES_MOST];
        plain::orthogonalise(&mut case.words, case.n, case.m, case.k, &mut values);
        case.k = values[2] as usize;
        case
    }

    fn job(&self, call: Call) -> Job {
        Job {
            call,
            words: self.words.clone(),
            n: self.n,
            m: self.m,
            k: self.k,
            u: 0,
            v: 1,
            name: 0,
            record: Vec::new(),
            input: &[],
            word: Vec::new(),
            t: 0,
            sets: Vec::new(),
            words2: Vec::new(),
            m2: 0,
            words3: Vec::new(),
            rounds: 0,
            floats: Vec::new(),
            message_bytes: Vec::new(),
            message_floats: Vec::new(),
            values: [0; VALUES_MOST],
        }
    }

    /// The record that is written of it.
    fn record(&self) -> Vec<u32> {
        let mut values = [0; VALUES_MOST];
        plain::write(&self.words, self.n, self.m, self.k, &mut [], &mut values);
        let mut record = vec![0; values[0] as usize];
        plain::write(&self.words, self.n, self.m, self.k, &mut record, &mut values);
        record
    }

    fn share(&self, (u, v): (usize, usize)) -> u64 {
        let mut share = [0];
        plain::share(&self.words, self.n, self.m, self.k, u, v, &mut share);
        share[0]
    }

    /// Pairs with the largest shares, all different.
    fn pairs(&self) -> Vec<Input> {
        let first = if self.k > 0 { 17 } else { self.n };
        let mut pairs: Vec<(usize, usize)> =
            (0..first).flat_map(|u| (u + 1..self.n + self.k).map(move |v| (u, v))).collect();
        pairs.sort_by_key(|&pair| std::cmp::Reverse(self.share(pair)));
        pairs.into_iter().take(pool::POOL).map(|pair| Input { pair, ..Input::default() }).collect()
    }

    /// Splits of those of the pairs that can be split; of all where there are none.
    fn splits(&self, pairs: &Row) -> Row {
        let mut row = pairs.with("split", Call::Split);
        row.pool.retain(|input| self.share(input.pair) >= 2);
        if row.pool.is_empty() {
            row.pool = pairs.pool.clone();
        }
        row
    }
}

fn cases(r: &mut Random) -> Vec<Case> {
    let dense: Vec<Vec<usize>> = (0..120).map(|_| (0..120).filter(|_| r.below(2) == 0).collect()).collect();
    let l: Vec<Vec<usize>> =
        (0..23).map(|c| [0, 1, 2, 3, 4, 7, 10, 12].iter().map(|e| (c + e) % 23).collect()).collect();
    let hamming: Vec<Vec<usize>> = (0..5).map(|c| (0..31).filter(|b| (b + 1) >> c & 1 == 1).collect()).collect();
    let mut sparse = vec![Vec::new(); 60];
    for layer in 0..3 {
        let mut order: Vec<usize> = (0..120).collect();
        for i in (1..120).rev() {
            order.swap(i, r.below(i + 1));
        }
        for (i, b) in order.into_iter().enumerate() {
            sparse[20 * layer + i / 6].push(b);
        }
    }
    vec![
        Case::given("dense 120 x 120", 120, &dense),
        Case::given("case L", 23, &l),
        Case::given("Hamming 31", 31, &hamming),
        Case::given("sparse 60 x 120", 120, &sparse),
    ]
}

/// 120 empty given checks, and added checks over the pairs of the last 29 bits: most sets are looked at in all eight words.
fn empty_checks() -> Case {
    let mut case = Case::given("120 empty checks", 120, &vec![Vec::new(); 120]);
    let pairs = (91..120).flat_map(|b| (91..b).map(move |a| (a, b)));
    for (j, (a, b)) in pairs.take(392).enumerate() {
        for bit in [a, b, 120 + j] {
            case.words[8 * (120 + j) + bit / 64] |= 1 << (bit % 64);
        }
    }
    case.k = 392;
    case
}

/// The stopping sets of four of 120 bits, counted and listed.
fn small_sets(given: &[Case], extended: &[Case], summary: &mut Summary) -> Result<(), String> {
    head("matrix", &["sets", "stopping_sets"].map(str::to_string));
    let none = Case::given("no check", 120, &[]);
    let one = Case::given("one check of all bits", 120, &[(0..120).collect()]);
    for case in [&given[0], &given[3], &none, &one, &extended[0], &extended[3], &empty_checks()] {
        let mut job = case.job(Call::StoppingSets);
        job.t = 4;
        in_plain(&mut job);
        // Refused 19, if there are any, with the places needed.
        job.sets = vec![0; job.values[0] as usize];
        in_plain(&mut job);
        let sets = job.values[0];
        let (library, plain) = pool::measure(&Row::alone("stopping_sets", job))?;
        let name = format!("{}, m={}, k={}", case.name, case.m, case.k);
        println!("| {name} | {} |{}", thousands(sets), cell(library, plain, 2));
        summary.add("stopping sets of four", &name, library, plain);
    }
    println!();
    Ok(())
}

/// The rows of erased words: so many of 100 sent bits, or none at all.
fn erased_rows(r: &mut Random, given: &Case, case: &Case) -> Vec<Row> {
    let job = case.job(Call::Peel);
    let mut peeled = Vec::new();
    for part in [10, 30, 45] {
        let inputs = pool::pool(pool::POOL, || Input::word(pool::received(r, given, case, part)));
        peeled.push(Row::new(&format!("peel {part} %"), job.clone(), inputs));
    }
    let whole = pool::pool(pool::POOL, || Input::word(pool::codeword(r, given, case).1));
    peeled.push(Row::new("peel, nothing erased", job, whole));
    let mut rows = peeled.clone();
    for row in peeled {
        rows.push(row.with(&row.name.replace("peel", "determine"), Call::Determine));
        if case.k == 0 {
            rows.push(row.with(&row.name.replace("peel", "mend_block"), Call::MendBlock));
        }
    }
    rows
}

fn soft_rows(r: &mut Random, given: &Case, case: &Case) -> Vec<Row> {
    let mut job = case.job(Call::MinSum);
    job.message_bytes = vec![0; plain::MESSAGES];
    job.message_floats = vec![0.0; plain::MESSAGES];
    let mut rows = Vec::new();
    let mut add = |name: &str, inputs: Vec<Input>, rounds: &[usize]| {
        for &rounds in rounds {
            job.rounds = rounds;
            rows.push(Row::new(&format!("min_sum, {name}rounds {rounds}"), job.clone(), inputs.clone()));
        }
    };
    add("", pool::pool(pool::SOFT_POOL, || pool::one_in_ten_false(r, case)), &[1, 50, 512]);
    for decibels in [1, 3, 5] {
        let inputs = pool::pool(pool::SOFT_POOL, || pool::noisy(r, given, case, decibels));
        add(&format!("{decibels} dB, "), inputs, &[10, 50]);
    }
    rows
}

/// The rows of a table for one matrix.
fn rows(r: &mut Random, given: &Case, case: &Case) -> Vec<Row> {
    let mut rows = Vec::new();
    // A bit and itself are refused 7 after acceptance, and nothing else is done.
    rows.push(Row::alone("accept", case.job(Call::Share)));
    let pairs = Row::new("share", case.job(Call::Share), case.pairs());
    rows.push(pairs.clone());
    rows.push(Row::alone("count", case.job(Call::Count)));
    rows.push(case.splits(&pairs));
    if case.k > 0 {
        rows.push(Row::alone("take_back", case.job(Call::TakeBack)));
    }
    rows.push(Row::alone("orthogonalise", case.job(Call::Orthogonalise)));
    let words = pool::pool(pool::POOL, || Input::read(pool::doubtful(r, given, case)));
    rows.push(Row::new("verify", case.job(Call::Verify), words));
    let mut job = case.job(Call::Extend);
    job.word = vec![0; case.n + case.k];
    let bits = |r: &mut Random| (0..case.n).map(|_| r.below(2) as u8).collect();
    rows.push(Row::new("extend", job, pool::pool(pool::POOL, || Input::read(bits(r)))));
    let sets = pool::pool(pool::POOL, || Input::read(pool::set(r, given, case)));
    rows.push(Row::new("is_stopping", case.job(Call::IsStopping), sets));
    rows.extend(erased_rows(r, given, case));
    rows.extend(soft_rows(r, given, case));
    rows.extend(other_rows(r, given, case));
    rows
}

/// The rows of records, and those for matrices without splits alone.
fn other_rows(r: &mut Random, given: &Case, case: &Case) -> Vec<Row> {
    let mut job = case.job(Call::Write);
    job.record = case.record();
    let mut rows = vec![Row::alone("write", job.clone())];
    job.call = Call::Load;
    rows.push(Row::alone("load", job));
    if case.k == 0 {
        rows.push(Row::alone("rank", case.job(Call::Rank)));
        let mut job = case.job(Call::Encode);
        job.word = vec![0; case.n];
        let messages = pool::pool(pool::POOL, || Input::read(pool::codeword(r, given, case).0));
        rows.push(Row::new("encode", job.clone(), messages));
        job.call = Call::MessageBits;
        rows.push(Row::alone("message_bits", job));
        // The circulant over the words of the matrix: what it takes does not depend on these.
        rows.push(Row::alone("house_code", case.job(Call::HouseCode)));
    }
    rows
}

/// `mend` on records of the third form and of the first, words with 10 of 100 bits erased.
fn mend_row(r: &mut Random, given: &[Case], cases: &[Case]) -> Result<(), String> {
    let mut line = "| mend: third form / first form, the program, in turn |".to_string();
    for (given, case) in given.iter().zip(cases) {
        let mut first = given.record();
        first[0] = first[0] & 0x0FFF_FFFF | 0x1000_0000;
        first.iter_mut().filter(|word| **word >> 28 == 2).for_each(|word| *word &= !0xFF00);
        let third = case.record();
        let sent: Vec<Vec<u8>> = (0..pool::SOFT_POOL).map(|_| pool::received(r, given, given, 10)).collect();
        let inputs =
            |record: &[u32]| -> Vec<&'static [u8]> { sent.iter().map(|sent| program::input(record, sent)).collect() };
        let (third, first) = mends(&inputs(&third), &inputs(&first))?;
        line += &cell(third, first, 2);
    }
    println!("{line}");
    Ok(())
}

/// Rows of two calls of the library in turn.
fn rows_in_turn(columns: &[Vec<Row>]) {
    let row = |name: &str| columns[0].iter().position(|row| row.name == name).filter(|_| wanted("take_back / accept"));
    if let (Some(back), Some(accept)) = (row("take_back"), row("accept")) {
        let mut line = "| take_back / accept, both of the library, in turn, on copied words |".to_string();
        for column in columns {
            let (back, accept) = in_turn(&column[back], &column[accept]);
            line += &cell(back, accept, 2);
        }
        println!("{line}");
    }
    let mending = |row: &usize| columns[0][*row].job.call == Call::MendBlock && wanted(&columns[0][*row].name);
    for row in (0..columns[0].len()).filter(mending) {
        let name = &columns[0][row].name;
        let mut line = format!("| {name} / peel where stage 1 suffices, both of the library, in turn |");
        for column in columns {
            line +=
                &mend_and_peel(&column[row]).map_or(" |".to_string(), |(mending, peeling)| cell(mending, peeling, 2));
        }
        println!("{line}");
    }
}

fn table(r: &mut Random, given: &[Case], cases: &[Case], summary: &mut Summary) -> Result<(), String> {
    let heads: Vec<String> = cases.iter().map(|case| format!("{}, k={}", case.name, case.k)).collect();
    head("call", &heads);
    let columns: Vec<Vec<Row>> = given.iter().zip(cases).map(|(given, case)| rows(r, given, case)).collect();
    for row in (0..columns[0].len()).filter(|&row| wanted(&columns[0][row].name)) {
        let mut line = format!("| {} |", columns[0][row].name);
        for (column, head) in columns.iter().zip(&heads) {
            let (library, plain) = pool::measure(&column[row])?;
            line += &cell(library, plain, 1);
            if column[row].job.call == Call::MendBlock {
                line.insert_str(line.len() - 1, &shares(&column[row]));
            }
            summary.add(&column[row].name, head, library, plain);
        }
        println!("{line}");
    }
    rows_in_turn(&columns);
    if cases.iter().all(|case| case.k > 0) && wanted("mend: third form") {
        mend_row(r, given, cases)?;
    }
    println!();
    Ok(())
}

/// Joining: two dense matrices, which come to 120 checks, such a one with itself, and case L with itself.
fn joined(r: &mut Random, l: &Case, summary: &mut Summary) -> Result<(), String> {
    let mut dense = |name| {
        let checks: Vec<Vec<usize>> = (0..60).map(|_| (0..120).filter(|_| r.below(2) == 0).collect()).collect();
        Case::given(name, 120, &checks)
    };
    let (one, other) = (dense("dense 60 x 120"), dense("dense 60 x 120"));
    let heads = ["two dense 60 x 120", "dense 60 x 120 with itself", "case L with itself"].map(str::to_string);
    head("call", &heads);
    let mut line = "| join |".to_string();
    for ((first, second), head) in [(&one, &other), (&one, &one), (l, l)].into_iter().zip(&heads) {
        let mut job = first.job(Call::Join);
        (job.words2, job.m2) = (second.words.clone(), second.m);
        job.words3 = vec![0; WORDS];
        let (library, plain) = pool::measure(&Row::alone("join", job))?;
        line += &cell(library, plain, 1);
        summary.add("join", head, library, plain);
    }
    println!("{line}\n");
    Ok(())
}

/// The parts, one after the other.
fn run() -> Result<(), String> {
    let r = &mut Random(0x9E37_79B9_7F4A_7C15);
    let given = cases(r);
    let extended: Vec<Case> = given.iter().map(Case::orthogonalised).collect();
    let mut summary = Summary::default();
    note(&format!(
        "Nanoseconds of one call, library / plain Rust = ratio; the best of {RUNS} runs (fewer where a run takes long), the mean over the inputs. Acceptance is part of each."
    ));
    print::part("given", "Given matrices:");
    table(r, &given, &given, &mut summary)?;
    print::part("orthogonalised", "Orthogonalised:");
    table(r, &given, &extended, &mut summary)?;
    if wanted("stopping_sets") {
        print::part("stopping sets", "Stopping sets of four sent bits, n = 120:");
        small_sets(&given, &extended, &mut summary)?;
    }
    if wanted("join") {
        print::part("joined", "Joined:");
        joined(r, &given[1], &mut summary)?;
    }
    if wanted("min_sum_range") {
        print::part("ranges", "Ranges:");
        ranges::run(r, &mut summary)?;
    }
    if wanted("packets") {
        print::part("packets", "Packets:");
        packets::run(r, &given)?;
    }
    if wanted("beside") {
        let matrices = [&given[..], &[packets::random_58_100(r)]].concat();
        print::part("beside, soft words", "Soft words beside it++, microseconds a word:");
        beside::soft(r, &matrices[1..])?;
        print::part("beside, elimination", "Elimination beside M4RI, nanoseconds a call:");
        beside::elimination(r, &matrices)?;
    }
    summary.print();
    Ok(())
}

fn main() -> ExitCode {
    match run() {
        Ok(()) => ExitCode::SUCCESS,
        Err(difference) => {
            println!("\nDIFFERENCE: {difference}");
            ExitCode::FAILURE
        }
    }
}
