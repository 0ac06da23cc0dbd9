//! Writes questions and the wrapper's answers, for other bindings to compare theirs with: a line for each call, the same
//! lines in every run.
//!
//!     CALL ARGUMENT .. => ok VALUE .. ; SLICE ..
//!     CALL ARGUMENT .. => no NUMBER VALUE .. ; SLICE ..
//!
//! An argument is `name=number` or a slice `name:type:length:place-value,..`, where a value is hexadecimal (of a float its
//! bits) and places that are not named hold 0. Behind the answer stand the slices that the call may write, as they are then.

use parity::{Held, MESSAGES, Ranged, Refusal, WORDS};

/// Splitmix64.
struct Random(u64);

impl Random {
    fn next(&mut self) -> u64 {
        self.0 = self.0.wrapping_add(0x9E37_79B9_7F4A_7C15);
        let mut x = self.0;
        x = (x ^ (x >> 30)).wrapping_mul(0xBF58_476D_1CE4_E5B9);
        x = (x ^ (x >> 27)).wrapping_mul(0x94D0_49BB_1331_11EB);
        x ^ (x >> 31)
    }

    fn below(&mut self, end: usize) -> usize {
        (self.next() % end as u64) as usize
    }

    /// Once in so many times.
    fn once_in(&mut self, times: usize) -> bool {
        self.below(times) == 0
    }

    fn pick<T: Copy>(&mut self, list: &[T]) -> T {
        list[self.below(list.len())]
    }
}

trait Element: Copy {
    const NAME: &'static str;
    fn bits(self) -> u64;
}

macro_rules! element {
    ($($type:ty, $bits:expr;)*) => {
        $(impl Element for $type {
            const NAME: &'static str = stringify!($type);
            fn bits(self) -> u64 {
                #[allow(clippy::redundant_closure_call)]
                u64::from(($bits)(self))
            }
        })*
    };
}

element! { u8, |x| x; u16, |x| x; u32, |x| x; u64, |x: u64| x; f32, f32::to_bits; }

fn slice<T: Element>(name: &str, elements: &[T]) -> String {
    let places = elements.iter().enumerate().filter(|(_, element)| element.bits() != 0);
    let places: Vec<String> = places.map(|(place, element)| format!("{place}-{:x}", element.bits())).collect();
    format!("{name}:{}:{}:{}", T::NAME, elements.len(), places.join(","))
}

#[derive(Clone)]
struct Matrix {
    words: Vec<u64>,
    n: usize,
    m: usize,
    k: usize,
}

impl Matrix {
    fn shown(&self, suffix: &str) -> String {
        let Matrix { words, n, m, k } = self;
        format!("{} n{suffix}={n} m{suffix}={m} k{suffix}={k}", slice(&format!("words{suffix}"), words))
    }
}

fn held(held: Option<Held>) -> Vec<u64> {
    held.map_or(vec![], |held| vec![held.lowest as u64, held.highest as u64])
}

/// The values that a refusal carries.
fn carried(refusal: Refusal) -> Vec<u64> {
    match refusal {
        Refusal::FaultyWord { place }
        | Refusal::Byte { place }
        | Refusal::Float { place }
        | Refusal::LowAboveHigh { place } => vec![place as u64],
        Refusal::RecordShort { needed } | Refusal::SetsShort { needed } => vec![needed as u64],
        Refusal::Share { share } => vec![share],
        Refusal::FullAfter { splits, sum, k, held: last } => [vec![splits, sum, k as u64], held(last)].concat(),
        _ => vec![],
    }
}

fn put(question: String, answer: Result<Vec<u64>, Refusal>, after: &[String]) {
    let (word, values) = match answer {
        Ok(values) => ("ok", values),
        Err(refusal) => ("no", [vec![u64::from(refusal.number())], carried(refusal)].concat()),
    };
    let values: Vec<String> = values.iter().map(u64::to_string).collect();
    println!("{question} => {word} {} ; {}", values.join(" "), after.join(" "));
}

/// A matrix with k = 0, of few bits or of many.
fn given(random: &mut Random) -> Matrix {
    let mut words = vec![0; WORDS];
    if random.once_in(5) {
        let parity::HouseCode { n, m } = parity::house_code(random.below(5), &mut words).unwrap();
        return Matrix { words, n, m, k: 0 };
    }
    let large = random.once_in(6);
    let n = 1 + random.below(if large { 120 } else { 24 });
    let m = random.below(if large { 61 } else { 13 });
    let weight = 1 + random.below(6);
    for check in 0..m {
        for _ in 0..weight {
            let bit = random.below(n);
            words[8 * check + bit / 64] |= 1 << (bit % 64);
        }
    }
    Matrix { words, n, m, k: 0 }
}

/// The given matrix, orthogonalised or with one split.
fn extended(random: &mut Random, given: &Matrix) -> Matrix {
    let Matrix { mut words, n, m, .. } = given.clone();
    let k = if random.once_in(4) {
        let (u, v) = (random.below(n), random.below(n));
        parity::split(&mut words, n, m, 0, u, v).map_or(0, |split| split.k)
    } else {
        match parity::orthogonalise(&mut words, n, m, 0) {
            Ok(made) => made.k,
            Err(Refusal::FullAfter { k, .. }) => k,
            Err(other) => panic!("{other}"),
        }
    };
    Matrix { words, n, m, k }
}

/// Sometimes the matrix with something wrong about it.
fn damaged(random: &mut Random, mut matrix: Matrix) -> Matrix {
    if !random.once_in(7) {
        return matrix;
    }
    match random.below(5) {
        0 => matrix.words.resize(random.pick(&[0, 1, 8, 4095, 4097]), 5),
        1 => matrix.n = random.pick(&[0, 121, 1 << 40, usize::MAX]),
        2 => matrix.m = random.pick(&[121, usize::MAX, matrix.m + 1]),
        3 => matrix.k = random.pick(&[393, usize::MAX, matrix.k + 1]),
        _ => matrix.words[random.below(WORDS)] ^= 1 << random.below(64),
    }
    matrix
}

/// A codeword of the given matrix and its added bits under the extended one.
fn codeword(random: &mut Random, given: &Matrix, extended: &Matrix) -> Vec<u8> {
    let Matrix { words, n, m, .. } = given;
    let rank = parity::rank(words, *n, *m, 0).unwrap();
    let message: Vec<u8> = (0..n - rank).map(|_| random.below(2) as u8).collect();
    let mut sent = vec![0; *n];
    parity::encode(words, *n, *m, 0, &message, &mut sent).unwrap();
    let mut word = vec![0; n + extended.k];
    parity::extend(&extended.words, *n, *m, extended.k, &sent, &mut word).unwrap();
    word
}

/// The word with bits erased, sometimes with false ones, with a byte above `most` or of another length.
fn received(random: &mut Random, mut word: Vec<u8>, most: u8) -> Vec<u8> {
    let rate = random.below(100);
    for byte in word.iter_mut() {
        if random.below(100) < rate {
            *byte = most;
        }
    }
    if random.once_in(6) && !word.is_empty() {
        let place = random.below(word.len());
        word[place] = random.below(2) as u8;
    }
    if random.once_in(12) && !word.is_empty() {
        let place = random.below(word.len());
        word[place] = random.pick(&[most + 1, 200, 255]);
    }
    if random.once_in(14) {
        word.resize(random.pick(&[0, word.len() + 1, word.len() / 2, 600]), 1);
    }
    word
}

/// A given matrix, the same or an extended one with perhaps something wrong, and a codeword of it.
fn case(random: &mut Random, extends: bool) -> (Matrix, Vec<u8>) {
    let plain = given(random);
    let matrix = if extends && random.once_in(2) { extended(random, &plain) } else { plain.clone() };
    let word = codeword(random, &plain, &matrix);
    (damaged(random, matrix), word)
}

fn float(random: &mut Random) -> f32 {
    match random.below(30) {
        0 => f32::NAN,
        1 => random.pick(&[f32::INFINITY, f32::NEG_INFINITY]),
        2 => random.pick(&[1_048_576.0, -1_048_576.0, 1_048_577.0]),
        3 => -0.0,
        4 => f32::from_bits(random.next() as u32),
        _ => (random.below(2001) as f32 - 1000.0) / 64.0,
    }
}

/// Memory of zeros but for its first and its last place: what a call leaves and what it writes is seen.
fn memory<T: Copy + Default>(length: usize, mark: T) -> Vec<T> {
    let mut memory = vec![T::default(); length];
    if length > 0 {
        (memory[0], memory[length - 1]) = (mark, mark);
    }
    memory
}

fn write(matrix: &Matrix, length: usize) -> Vec<u32> {
    let Matrix { words, n, m, k } = matrix;
    let mut record = memory(length, 7);
    let question = format!("write {} {}", matrix.shown(""), slice("record", &record));
    let answer = parity::write(words, *n, *m, *k, &mut record);
    put(question, answer.map(|used| vec![used as u64]), &[slice("record", &record)]);
    record[..answer.unwrap_or(0)].to_vec()
}

fn records(random: &mut Random) {
    let (matrix, _) = case(random, true);
    let mut record = write(&matrix, random.pick(&[parity::RECORD_MOST, parity::RECORD_MOST, 100, 10, 0]));
    if random.once_in(3) && !record.is_empty() {
        let place = random.below(record.len());
        record[place] ^= 1 << random.below(32);
    }
    if random.once_in(8) {
        record.push(random.next() as u32);
    }
    let mut words = memory(random.pick(&[WORDS, WORDS, WORDS, WORDS, WORDS, WORDS - 1]), 9);
    let question = format!("load {} {}", slice("record", &record), slice("words", &words));
    let answer = parity::load(&record, &mut words).map(|l| vec![l.n as u64, l.m as u64, l.k as u64]);
    put(question, answer, &[slice("words", &words)]);
}

fn pairs(random: &mut Random) {
    let (matrix, _) = case(random, true);
    let Matrix { mut words, n, m, k } = matrix.clone();
    let end = n.saturating_add(k).clamp(1, 513) + random.below(2);
    let (u, v) = (random.below(end), random.below(end));
    let lent = matrix.shown("");
    let answer = parity::share(&words, n, m, k, u, v).map(|s| [vec![s.share], held(s.held)].concat());
    put(format!("share {lent} u={u} v={v}"), answer, &[]);
    put(format!("count {lent}"), parity::count(&words, n, m, k).map(|count| vec![count]), &[]);
    let answer = parity::split(&mut words, n, m, k, u, v);
    let values = answer.map(|s| [vec![s.share, s.k as u64], held(Some(s.held))].concat());
    put(format!("split {lent} u={u} v={v}"), values, &[slice("words", &words)]);
    let matrix = Matrix { words, n, m, k: answer.map_or(k, |split| split.k) };
    changes(&matrix);
}

fn changes(matrix: &Matrix) {
    let Matrix { mut words, n, m, k } = matrix.clone();
    let answer = parity::take_back(&mut words, n, m, k).map(|t| vec![t.share, t.k as u64]);
    put(format!("take_back {}", matrix.shown("")), answer, &[slice("words", &words)]);
    let mut words = matrix.words.clone();
    let answer = parity::orthogonalise(&mut words, n, m, k);
    let answer = answer.map(|o| [vec![o.splits, o.sum, o.k as u64], held(o.held)].concat());
    put(format!("orthogonalise {}", matrix.shown("")), answer, &[slice("words", &words)]);
}

/// A dense matrix of many checks.
fn dense(random: &mut Random) -> Matrix {
    let mut words = vec![0; WORDS];
    for check in 0..100 {
        words[8 * check] = random.next();
        words[8 * check + 1] = random.next() >> 8;
    }
    Matrix { words, n: 120, m: 100, k: 0 }
}

/// Refusals that random matrices do not come to: orthogonalising ends at k = 392 with a pair left; two matrices have too many
/// checks; and taken back, the matrix would break rule A.
fn rare(random: &mut Random) {
    let (one, two) = (dense(random), dense(random));
    changes(&one);
    join(&one, &two, WORDS);
    let mut words = vec![0; WORDS];
    (words[0], words[8], words[16]) = (0b10010, 0b01011, 0b10101);
    let matrix = Matrix { words, n: 3, m: 1, k: 2 };
    changes(&matrix);
    write(&matrix, 100);
}

fn words(random: &mut Random) {
    let (matrix, word) = case(random, true);
    let Matrix { words, n, m, k } = &matrix;
    let (n, m, k, lent) = (*n, *m, *k, matrix.shown(""));
    let whole = if random.once_in(2) { word.clone() } else { received(random, word.clone(), 2) };
    let answer = parity::verify(words, n, m, k, &whole).map(|yes| vec![yes.into()]);
    put(format!("verify {lent} {}", slice("word", &whole)), answer, &[]);

    let set = received(random, vec![0; word.len()], 1);
    let answer = parity::is_stopping(words, n, m, k, &set).map(|yes| vec![yes.into()]);
    put(format!("is_stopping {lent} {}", slice("set", &set)), answer, &[]);

    let sent = received(random, vec![0; n.min(word.len())], 1);
    let mut made = vec![9; word.len()];
    let question = format!("extend {lent} {} {}", slice("sent", &sent), slice("word", &made));
    let answer = parity::extend(words, n, m, k, &sent, &mut made).map(|_| vec![]);
    put(question, answer, &[slice("word", &made)]);

    let word = received(random, word, 2);
    let mut peeled = word.clone();
    let four = |a, b, c, d| vec![a as u64, b as u64, c as u64, d as u64];
    let answer = parity::peel(words, n, m, k, &mut peeled)
        .map(|p| four(p.recovered_sent, p.recovered_added, p.left_sent, p.left_added));
    put(format!("peel {lent} {}", slice("word", &word)), answer, &[slice("word", &peeled)]);
    let mut determined = word.clone();
    let answer = parity::determine(words, n, m, k, &mut determined)
        .map(|p| four(p.recovered_sent, p.recovered_added, p.left_sent, p.left_added));
    put(format!("determine {lent} {}", slice("word", &word)), answer, &[slice("word", &determined)]);
    let mut mended = word.clone();
    let answer = parity::mend_block(words, n, m, k, &mut mended).map(|p| vec![p.stage as u64, p.recovered as u64]);
    put(format!("mend_block {lent} {}", slice("word", &word)), answer, &[slice("word", &mended)]);
}

fn packets(random: &mut Random) {
    let (matrix, word) = case(random, true);
    let Matrix { words, n, m, k } = &matrix;
    let length = random.below(4);
    let mut odd = vec![6; length];
    let mut lost: Vec<u8> = vec![0; word.len()];
    let mut packets: Vec<u64> = (0..word.len() * length).map(|_| random.next()).collect();
    // Mostly a block of codewords: what the message does not say is mended.
    if *k == 0 && !random.once_in(4) && parity::message_bits(words, *n, *m, *k, &mut lost).is_ok() {
        lost.iter_mut().for_each(|byte| *byte = 1 - *byte);
        parity::mend_packets(words, *n, *m, *k, &mut lost, &mut packets, &mut odd).unwrap();
    }
    let mut lost = received(random, vec![0; word.len()], 1);
    if random.once_in(20) {
        packets.push(1);
    }
    let all = |lost: &[u8], packets: &[u64], odd: &[u64]| {
        [slice("lost", lost), slice("packets", packets), slice("odd", odd)].join(" ")
    };
    let question = format!("mend_packets {} {}", matrix.shown(""), all(&lost, &packets, &odd));
    let answer = parity::mend_packets(words, *n, *m, *k, &mut lost, &mut packets, &mut odd);
    let answer = answer.map(|p| {
        let [a, b, c, d] = [p.recovered_sent, p.recovered_added, p.left_sent, p.left_added].map(|x| x as u64);
        vec![a, b, c, d, p.odd_lanes]
    });
    put(question, answer, &[all(&lost, &packets, &odd)]);
}

fn codes(random: &mut Random) {
    let extends = random.once_in(8);
    let (matrix, word) = case(random, extends);
    let Matrix { words, n, m, k } = &matrix;
    let (n, m, k, lent) = (*n, *m, *k, matrix.shown(""));
    let rank = parity::rank(words, n, m, k);
    put(format!("rank {lent}"), rank.map(|rank| vec![rank as u64]), &[]);

    let length = word.len().saturating_sub(rank.unwrap_or(0));
    let message = if random.once_in(3) { received(random, vec![0; length], 1) } else { vec![1; length] };
    let mut made = vec![9; word.len()];
    let question = format!("encode {lent} {} {}", slice("message", &message), slice("word", &made));
    let answer = parity::encode(words, n, m, k, &message, &mut made).map(|_| vec![]);
    put(question, answer, &[slice("word", &made)]);

    let mut set = vec![9; word.len()];
    let question = format!("message_bits {lent} {}", slice("set", &set));
    let answer = parity::message_bits(words, n, m, k, &mut set).map(|_| vec![]);
    put(question, answer, &[slice("set", &set)]);

    let mut words = memory(random.pick(&[WORDS, WORDS, WORDS, 100]), 3);
    let name = random.pick(&[0, 1, 2, 3, 4, 5, usize::MAX]);
    let question = format!("house_code name={name} {}", slice("words", &words));
    let answer = parity::house_code(name, &mut words).map(|code| vec![code.n as u64, code.m as u64]);
    put(question, answer, &[slice("words", &words)]);
}

fn sets(random: &mut Random) {
    let (matrix, _) = case(random, true);
    let Matrix { words, n, m, k } = &matrix;
    let t = if random.once_in(8) { random.pick(&[0, 5, usize::MAX]) } else { 1 + random.below(4) };
    let mut sets = memory(random.pick(&[0, 10, 200, 2000]), 7);
    let question = format!("stopping_sets {} t={t} {}", matrix.shown(""), slice("sets", &sets));
    let answer = parity::stopping_sets(words, *n, *m, *k, t, &mut sets).map(|listed| vec![listed.len() as u64]);
    put(question, answer, &[slice("sets", &sets)]);
}

fn joins(random: &mut Random) {
    let (one, _) = case(random, false);
    let mut two = if random.once_in(5) { one.clone() } else { case(random, false).0 };
    if !random.once_in(4) && two.n <= one.n {
        two.n = one.n;
    }
    join(&one, &two, random.pick(&[WORDS, WORDS, WORDS, WORDS, WORDS + 1]));
}

fn join(one: &Matrix, two: &Matrix, length: usize) {
    let mut words = memory(length, 3);
    let question = format!("join {} {} {}", one.shown("1"), two.shown("2"), slice("words3", &words));
    let answer = parity::join(&one.words, one.n, one.m, one.k, &two.words, two.n, two.m, two.k, &mut words);
    put(question, answer.map(|m| vec![m as u64]), &[slice("words3", &words)]);
}

fn soft(random: &mut Random) {
    let (matrix, word) = case(random, true);
    let Matrix { words, n, m, k } = &matrix;
    let rounds = if random.once_in(10) { random.pick(&[0, 513, 1 << 50]) } else { 1 + random.below(12) };
    let most = random.pick(&[2, 3]);
    let mut word = received(random, word, most);
    let mut floats: Vec<f32> = word.iter().map(|_| float(random)).collect();
    let places = floats.iter_mut().zip(&word).filter(|(_, byte)| **byte == 3);
    let whole = !random.once_in(4);
    places.filter(|_| whole).for_each(|(value, _)| *value = random.below(1001) as f32 / 16.0 - 20.0);
    let mut message_bytes = vec![0; if random.once_in(20) { 8 } else { MESSAGES }];
    let mut message_floats = vec![0.0; MESSAGES];
    message_floats[random.below(MESSAGES)] = 1.5;
    let all = |word: &[u8], floats: &[f32], bytes: &[u8], values: &[f32]| {
        let messages = [slice("message_bytes", bytes), slice("message_floats", values)];
        [slice("word", word), slice("floats", floats), messages.join(" ")].join(" ")
    };
    let before = all(&word, &floats, &message_bytes, &message_floats);
    let question = format!("min_sum {} rounds={rounds} {before}", matrix.shown(""));
    let lent = (&mut message_bytes[..], &mut message_floats[..]);
    let answer = parity::min_sum(words, *n, *m, *k, rounds, &mut word, &mut floats, lent.0, lent.1).map(|_| vec![]);
    put(question, answer, &[all(&word, &floats, &message_bytes, &message_floats)]);
}

fn ranges(random: &mut Random) {
    let length = if random.once_in(20) { 512 } else { random.below(8) };
    let mut lows: Vec<f32> = (0..length).map(|_| float(random)).collect();
    let highs: Vec<f32> = lows.iter().map(|low| low + random.below(100) as f32 / 8.0).collect();
    if random.once_in(10) {
        lows.push(1.0);
    }
    if random.once_in(10) && !lows.is_empty() {
        let place = random.below(lows.len());
        lows[place] = 900.0;
    }
    let question = format!("min_sum_range {} {}", slice("lows", &lows), slice("highs", &highs));
    let answer = parity::min_sum_range(&lows, &highs).map(|ranged| match ranged {
        Ranged::SureZero => vec![],
        Ranged::Within { low, high } => vec![low.bits(), high.bits()],
    });
    put(question, answer, &[]);
}

fn main() {
    let times: usize = std::env::args().nth(1).map_or(400, |times| times.parse().expect("a number of rounds"));
    let mut random = Random(44);
    for _ in 0..times {
        for ask in [records, pairs, words, packets, codes, sets, joins, soft, ranges] {
            ask(&mut random);
        }
    }
    rare(&mut random);
}
