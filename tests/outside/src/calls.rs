//! Random calls of every kind, good and bad in about equal parts, compared with the model.

use crate::cases;
use crate::compare::compare;
use crate::elimination;
use crate::generate;
use crate::joining;
use crate::min_sum;
use crate::model::{self, Kind, Lent, Matrix, FORMS, KINDS, WORDS};
use crate::packets;
use crate::random::Random;
use crate::soft::{self, Mix};
use crate::stack;
use std::thread;

const CALLS: usize = 20_000;

/// A matrix with words that span its code.
#[derive(Clone)]
pub struct Sample {
    pub matrix: Matrix,
    basis: Vec<Vec<u8>>,
}

impl Sample {
    fn new(matrix: Matrix) -> Sample {
        let basis = elimination::basis(&matrix);
        Sample { matrix, basis }
    }
}

pub struct Pools {
    small: Vec<Matrix>,
    medium: Vec<Sample>,
    full: Vec<Sample>,
    /// k is 390 to 392 and pairs with share two or more are left.
    tight: Vec<Sample>,
    /// Full-size matrices with k = 0 that take hundreds of splits.
    dense: Vec<Sample>,
    /// Matrices that no splits made, and whose newest added bit cannot be taken back.
    not_back: Vec<Matrix>,
}

fn orthogonal(mut matrix: Matrix) -> Matrix {
    matrix.orthogonalise();
    matrix
}

impl Pools {
    fn new(r: &mut Random) -> Pools {
        let mut medium = Vec::new();
        for i in 0..50 {
            let (n, m, part) = (r.between(13, 60), r.between(5, 60), r.pick(&[30, 60, 100, 200, 400]));
            let mut matrix = generate::given(r, n, m, part);
            match i % 5 {
                0 | 1 => {}
                2 => {
                    let most = r.between(1, 30);
                    generate::split_some(r, &mut matrix, most)
                }
                3 => {
                    matrix.orthogonalise();
                }
                _ => {
                    for _ in 0..r.between(1, 40) {
                        generate::add_triple(r, &mut matrix, 300);
                    }
                }
            }
            medium.push(Sample::new(matrix));
        }
        let dense: Vec<Matrix> = vec![
            generate::given(r, 120, 120, 500),
            generate::given(r, 120, 119, 500),
            generate::given(r, 119, 120, 300),
            generate::given(r, 64, 64, 500),
            generate::given(r, 120, 120, 1000),
        ];
        let sparse = generate::sparse(r);
        let mut full = vec![
            sparse.clone(),
            generate::sparse(r),
            orthogonal(sparse),
            generate::given(r, 120, 120, 20),
            generate::given(r, 120, 60, 30),
            cases::l(23),
            orthogonal(cases::l(23)),
            Matrix::zero(120, 0, 0),
            Matrix::zero(120, 120, 0),
            Matrix::zero(1, 120, 0),
            generate::most_ones(),
            orthogonal(dense[0].clone()),
        ];
        // Part of the way to 392 added bits.
        let mut part = dense[0].clone();
        generate::split_some(r, &mut part, 100);
        full.push(part);
        let tight = (0..9).map(|i| {
            let (n, m) = (r.between(8, 40), r.between(3, 20));
            Sample::new(generate::triples(r, n, m, 390 + i % 3))
        });
        let tight = tight.collect();
        let mut not_back: Vec<Matrix> = (0..500).map(|_| generate::not_back(r, 12, 12, 8)).collect();
        not_back.extend((0..40).map(|_| generate::not_back(r, 120, 120, 100)));
        not_back.extend((0..5).map(|_| generate::most_ones()));
        Pools {
            small: Vec::new(),
            medium,
            tight,
            not_back,
            full: full.into_iter().map(Sample::new).collect(),
            dense: dense.into_iter().map(Sample::new).collect(),
        }
    }

    /// New small matrices with k above 0.
    fn refresh(&mut self, r: &mut Random) {
        self.small.clear();
        while self.small.len() < 1500 {
            let matrix = generate::small(r);
            if matrix.k > 0 {
                self.small.push(matrix);
            }
        }
    }

    pub fn choose(&self, r: &mut Random, kind: Kind, added: Added) -> Sample {
        let fits = |sample: &&Sample| match added {
            Added::None => sample.matrix.k == 0,
            Added::Some => sample.matrix.k > 0,
            Added::Any => true,
        };
        let class = r.below(1000);
        let orthogonalising = matches!(kind, Kind::Orthogonalise | Kind::MendBlock);
        if class < 12 {
            let from: Vec<&Sample> = self.full.iter().filter(fits).collect();
            return (*r.pick(&from)).clone();
        }
        if class < (if orthogonalising { 13 } else { 16 }) && added != Added::Some {
            let which = if orthogonalising { self.dense.len() - 1 } else { r.below(self.dense.len()) };
            return self.dense[which].clone();
        }
        if class < (if orthogonalising { 30 } else { 50 }) {
            let from: Vec<&Sample> = self.medium.iter().filter(fits).collect();
            return (*r.pick(&from)).clone();
        }
        if class < 55 && added != Added::None {
            return r.pick(&self.tight);
        }
        let matrix = if added == Added::Some || (added == Added::Any && r.chance(600)) {
            r.pick(&self.small)
        } else {
            generate::small_given(r)
        };
        let spanned = [Kind::Verify, Kind::Peel, Kind::Determine, Kind::MendBlock, Kind::MinSum, Kind::MendPackets];
        if spanned.contains(&kind) {
            Sample::new(matrix)
        } else {
            Sample { matrix, basis: Vec::new() }
        }
    }
}

/// What k a matrix is to have.
#[derive(Clone, Copy, PartialEq)]
pub enum Added {
    None,
    Some,
    Any,
}

/// Erases bits of a word in one of several ways.
pub fn erase(r: &mut Random, word: &mut [u8], n: usize) {
    match r.below(6) {
        0 => {}
        1 => word.fill(2),
        2 => {
            let part = r.below(700);
            word[n..].fill(2);
            word[..n].iter_mut().for_each(|byte| {
                if r.chance(part) {
                    *byte = 2
                }
            });
        }
        _ => {
            let part = r.below(1000);
            word.iter_mut().for_each(|byte| {
                if r.chance(part) {
                    *byte = 2
                }
            });
        }
    }
}

/// A call that is answered, or at least may be.
fn good(r: &mut Random, kind: Kind, sample: &Sample) -> Lent {
    let matrix = &sample.matrix;
    let bits = matrix.bits();
    let mut lent = cases::lend(kind, matrix);
    match kind {
        Kind::Load => {
            lent.record = match matrix.unsplit() {
                Some((base, splits)) if matrix.k > 0 => model::record_with(&base, &splits),
                Some((base, _)) => model::record(&base, r.pick(&FORMS)),
                None => vec![0x5000_0000],
            };
            lent.words = vec![r.next(); WORDS];
            (lent.n, lent.m, lent.k) = (0, 0, 0);
        }
        Kind::Write => {
            let needed = model::written(matrix).map_or(9, |record| record.len());
            let more = if r.chance(300) { 0 } else { r.below(6) };
            lent.record = (0..needed + more).map(|_| r.next() as u32).collect();
        }
        Kind::Share | Kind::Split => {
            let pairs = if kind == Kind::Split || r.chance(300) { matrix.pairs() } else { Vec::new() };
            if pairs.is_empty() {
                (lent.u, lent.v) = (r.below(bits), r.below(bits));
                if bits > 1 && lent.u == lent.v {
                    lent.v = (lent.u + r.between(1, bits - 1)) % bits;
                }
            } else {
                (lent.u, lent.v) = r.pick(&pairs);
            }
            if r.chance(500) {
                (lent.u, lent.v) = (lent.v, lent.u);
            }
        }
        Kind::Count | Kind::TakeBack | Kind::Orthogonalise | Kind::Rank => {}
        Kind::Verify => {
            lent.input = elimination::combine(&sample.basis, bits, || r.chance(500));
            match r.below(10) {
                0..=3 => {}
                4..=6 => lent.input[r.below(bits)] ^= 1,
                7 => lent.input = r.bits(bits),
                8 => lent.input[r.below(bits)] = 2,
                _ => lent.input.iter_mut().for_each(|byte| *byte = r.below(3) as u8),
            }
        }
        Kind::Extend => {
            lent.input = r.bits(matrix.n);
            lent.word = r.bytes(bits);
        }
        Kind::IsStopping => {
            let part = r.below(1000);
            let mut set: Vec<bool> = (0..bits).map(|_| r.chance(part)).collect();
            if r.chance(600) {
                set = matrix.residue_by_scans(&set);
            }
            lent.input = set.into_iter().map(|one| one as u8).collect();
        }
        Kind::Peel | Kind::Determine | Kind::MendBlock => {
            lent.word = elimination::combine(&sample.basis, bits, || r.chance(500));
            erase(r, &mut lent.word, matrix.n);
        }
        Kind::Encode => {
            lent.input = r.bits(matrix.n - matrix.rank());
            lent.word = r.bytes(matrix.n);
        }
        Kind::MessageBits => lent.word = r.bytes(matrix.n),
        Kind::MinSum => {
            let codeword = elimination::combine(&sample.basis, bits, || r.chance(500));
            let mix = r.pick(&[Mix::Mixed, Mix::Mixed, Mix::Sure, Mix::Soft]);
            soft::fill(r, &mut lent, &codeword, mix);
            lent.rounds = soft::rounds(r, matrix);
        }
        Kind::MendPackets => {
            let length = r.pick(&[0, 1, 1, 1, 1, 1, 2, 2, 9]);
            packets::fill(r, &mut lent, matrix, &sample.basis, length);
        }
        Kind::HouseCode => {
            lent.name = r.below(5);
            lent.words = (0..WORDS).map(|_| r.next()).collect();
            (lent.n, lent.m, lent.k) = (0, 0, 0);
        }
        Kind::StoppingSets => {
            // Of many bits only small sets here: the part `sets` has the others.
            lent.t = r.between(1, if matrix.n <= 24 { 4 } else { 2 });
            let more = if r.chance(300) { 0 } else { r.below(9) };
            let needed = matrix.stopping_sets(lent.t).len();
            lent.sets = (0..needed + more).map(|_| r.next() as u16).collect();
        }
        Kind::Join => unreachable!(),
    }
    lent
}

/// A way to make a call bad.
#[derive(Clone, Copy, PartialEq)]
pub enum Damage {
    WordsLength,
    Numbers,
    Near,
    Outside,
    RuleA,
    Extended,
    Pair,
    LowShare,
    Full,
    Lengths,
    Bytes,
    Contradiction,
    RecordShort,
    RecordFault,
    Nothing,
    NotBack,
    Name,
    SetSize,
    SetsShort,
    ThirdLength,
    Different,
    TooMany,
    Rounds,
    Floats,
}

pub fn damages(kind: Kind) -> Vec<Damage> {
    use Damage::*;
    if kind == Kind::Load {
        return vec![WordsLength, RecordFault, RecordFault, RecordFault, RecordFault, RecordFault];
    }
    if kind == Kind::HouseCode {
        return vec![WordsLength, Name, Name];
    }
    let mut list = vec![WordsLength, Numbers, Near, Outside, RuleA, RuleA];
    list.extend_from_slice(match kind {
        Kind::Load | Kind::Count | Kind::HouseCode => &[],
        Kind::Join => &[Extended, ThirdLength, Different, Different, TooMany, TooMany],
        Kind::Write => &[NotBack, NotBack, RecordShort, RecordShort],
        Kind::Share => &[Pair, Pair],
        Kind::Split => &[Pair, LowShare, LowShare, Full],
        Kind::TakeBack => &[Nothing, Nothing, NotBack, NotBack, NotBack],
        Kind::Orthogonalise => &[Full],
        Kind::Verify | Kind::Extend | Kind::IsStopping | Kind::MendPackets => &[Lengths, Lengths, Bytes, Bytes, Bytes],
        Kind::Peel | Kind::Determine => {
            &[Lengths, Lengths, Bytes, Bytes, Contradiction, Contradiction, Contradiction, Contradiction]
        }
        Kind::MendBlock => {
            &[Extended, Extended, Lengths, Lengths, Bytes, Bytes, Contradiction, Contradiction, Contradiction]
        }
        Kind::MinSum => &[Rounds, Rounds, Lengths, Lengths, Lengths, Bytes, Bytes, Floats, Floats, Floats],
        Kind::Rank => &[Extended, Extended],
        Kind::Encode => &[Extended, Lengths, Lengths, Bytes, Bytes],
        Kind::MessageBits => &[Extended, Extended, Lengths, Lengths],
        Kind::StoppingSets => &[SetSize, SetSize, SetsShort, SetsShort, SetsShort],
    });
    list
}

fn out_of_range(r: &mut Random, now: usize, low: usize, high: usize) -> usize {
    let mut from = vec![
        high + 1,
        high + 2,
        255,
        now.wrapping_add(256),
        512,
        513,
        4096,
        now.wrapping_add(1 << 16),
        now.wrapping_add(1 << 32),
        now.wrapping_add(1 << 63),
        1 << 31,
        u32::MAX as usize,
        usize::MAX,
        usize::MAX - now,
        usize::MAX - 511,
        (usize::MAX / 8) + 1,
        (usize::MAX / 64) + 1,
    ];
    if low > 0 {
        from.extend([0, 0, 0]);
    }
    r.pick(&from)
}

/// A number that is no name of a house code.
fn unknown_name(r: &mut Random) -> usize {
    let (known, low, any) = (r.below(5), r.between(5, 300), r.next() as usize | 1 << 40);
    let high = [known + 256, known | 1 << 32, known | 1 << 63, usize::MAX - known];
    r.pick(&[5, 5, 6, 255, 256, 1 << 32, usize::MAX, low, any, high[0], high[1], high[2], high[3]])
}

/// A number that is no size of sets.
fn wrong_size(r: &mut Random) -> usize {
    let (right, low, any) = (r.between(1, 4), r.between(5, 300), r.next() as usize | 1 << 40);
    r.pick(&[
        0,
        0,
        5,
        5,
        6,
        8,
        255,
        256 + right,
        right | 1 << 32,
        right | 1 << 63,
        usize::MAX,
        usize::MAX - 3,
        low,
        any,
    ])
}

fn flip(words: &mut [u64], check: usize, bit: usize, to: Option<bool>) {
    if let Some(word) = words.get_mut(8 * check + bit / 64) {
        let one = 1 << (bit % 64);
        match to {
            None => *word ^= one,
            Some(true) => *word |= one,
            Some(false) => *word &= !one,
        }
    }
}

/// Breaks rule A in one of the ways that it can be broken.
fn break_rule_a(r: &mut Random, matrix: &Matrix, words: &mut [u64]) {
    let (n, m, k) = (matrix.n, matrix.m, matrix.k);
    let pick = r.below(k);
    let j = r.pick(&[0, k - 1, pick]);
    let own = m + j;
    let three = matrix.ones_of(own);
    let lower = three[r.below(2)];
    let (p, q) = r.pick(&[(three[0], three[1]), (three[0], three[2]), (three[1], three[2])]);
    let other_check = r.below(m + k);
    let later = j + r.below(k - j);
    let mut put = |check: usize, bit: usize, one: bool| flip(words, check, bit, Some(one));
    match r.below(13) {
        0 => put(own, n + j, false),
        1 => put(own, lower, false),
        2 => put(own, r.below(n + k), true),
        3 => {
            put(own, lower, false);
            put(own, n + later, true);
        }
        4 => {
            put(own, lower, false);
            put(own, r.below(n + j), true);
        }
        // Two of the three in another check, given or added.
        5 | 6 => {
            let check = if m > 0 { r.below(m) } else { other_check };
            put(check, p, true);
            put(check, q, true);
        }
        7 => {
            put(other_check, p, true);
            put(other_check, q, true);
        }
        // Another added check of weight three with two of the three.
        8 | 9 => {
            (0..n + k).for_each(|b| put(m + later, b, false));
            [p, q, n + later].iter().for_each(|&b| put(m + later, b, true));
        }
        10 => (0..n + k).for_each(|b| put(own, b, false)),
        11 => (0..n + k).for_each(|b| put(own, b, r.chance(500))),
        _ => {
            for _ in 0..r.between(1, 3) {
                flip(words, r.below(m + k), r.below(n + k), None);
            }
        }
    }
}

fn put_one_outside(r: &mut Random, matrix: &Matrix, words: &mut [u64]) {
    let (bits, checks) = (matrix.bits(), matrix.checks());
    let past_bits = bits < 512 && checks > 0;
    if past_bits && (checks == 512 || r.chance(500)) {
        let (any_check, any_bit) = (r.below(checks), r.between(bits, 511));
        let (check, bit) = (r.pick(&[0, checks - 1, any_check]), r.pick(&[bits, bits, 511, any_bit]));
        flip(words, check, bit, Some(true));
    } else if checks < 512 {
        let (any_check, any_bit) = (r.between(checks, 511), r.below(512));
        let (check, bit) = (r.pick(&[checks, checks, 511, any_check]), r.pick(&[0, bits - 1, 511, any_bit]));
        flip(words, check, bit, Some(true));
    }
}

pub fn resized(r: &mut Random, bytes: &mut Vec<u8>, matrix: &Matrix) {
    let now = bytes.len();
    let from = [
        0,
        now.saturating_sub(1),
        now + 1,
        now + 1,
        matrix.n,
        matrix.bits(),
        2 * now,
        now + 8,
        now + 256,
        512,
        513,
        4096,
    ];
    let to = if r.chance(200) { r.below(600) } else { r.pick(&from) };
    bytes.resize(to, 0);
}

fn bad_bytes(r: &mut Random, bytes: &mut [u8], most: u8) {
    if bytes.is_empty() {
        return;
    }
    for _ in 0..r.between(1, 3) {
        let place = r.below(bytes.len());
        let last = bytes.len() - 1;
        let value = r.between(most as usize + 1, 255) as u8;
        bytes[r.pick(&[0, last, place, place, place])] =
            r.pick(&[most + 1, most + 1, 3, 4, 127, 128, 129, 130, 254, 255, value]);
    }
}

/// One of the splits between two places is changed, made twice, taken out or exchanged with another.
fn damage_split(r: &mut Random, record: &mut Vec<u32>, from: usize, last: usize) {
    let (place, other) = (r.between(from, last), r.between(from, last));
    let (lower, higher) = (record[place] & 511, record[place] >> 9 & 511);
    let pair = |lower: u32, higher: u32| 0x6000_0000 | (higher & 511) << 9 | lower & 511;
    match r.below(8) {
        0 => record[place] = pair(higher, lower),
        1 => record[place] = pair(lower, lower),
        2 => record[place] |= 1 << r.between(18, 27),
        3 => record[place] = pair(lower, r.pick(&[higher + 1, 511, higher.wrapping_sub(1)])),
        4 => record[place] = pair(r.pick(&[lower + 1, 0, lower.wrapping_sub(1)]), higher),
        5 => record.insert(place, record[other]),
        6 => record.swap(place, other),
        _ => {
            record.remove(place);
        }
    }
}

/// A record with one or more words changed, taken out or put in.
pub fn damage_record(r: &mut Random, record: &mut Vec<u32>, n: usize) {
    for _ in 0..r.pick(&[1, 1, 1, 1, 2, 3]) {
        let place = r.below(record.len() + 1);
        let kind = r.below(16) as u32;
        let byte = r.below(256) as u32;
        let low = r.pick(&[0, 1, n.saturating_sub(1) as u32, n as u32, n as u32 + 1, 120, 121, 255, byte]);
        let (named, random) = (r.pick(&[1, 2, 3, 4, 5, 6, 15]), r.next() as u32);
        let any = r.pick(&[kind << 28 | low, named << 28 | low, random]);
        if place == record.len() {
            record.push(r.pick(&[any, 0xF000_0000, 0]));
            continue;
        }
        let other = r.below(record.len());
        match r.below(17) {
            0 => record[place] ^= 1 << r.below(32),
            1 => record[place] = record[place] & 0x0FFF_FFFF | kind << 28,
            2 => record[place] |= 1 << r.between(8, 27),
            3 => record.truncate(place),
            4 => {
                record.remove(place);
            }
            5 => record.insert(place, any),
            6 => record.insert(place, record[place]),
            7 => record[place] = record[place] & !255 | low,
            8 => record[place] = record[place] & !255 | record[place].wrapping_add(r.pick(&[1, 255])) & 255,
            9 => record.swap(place, other),
            10 => record[0] = r.pick(&[1, 4, 5]) << 28 | r.pick(&[0, 1, 120, 121, 255, 256]) << 8 | low,
            11 => {
                let near = record[place].wrapping_add(r.pick(&[256, 0xFF00])) >> 8 & 255;
                record[place] = record[place] & !0xFF00 | r.pick(&[low, near, near]) << 8;
            }
            12 => record[0] ^= r.pick(&[0x5000_0000, 0x4000_0000, 0x1000_0000]),
            // A split, mostly of bits that are there.
            13 => record.insert(place, 0x6000_0000 | (r.below(n + 4) as u32) << 9 | r.below(n + 2) as u32),
            14 | 15 => {
                if let Some(last) = (0..record.len()).rev().find(|&place| record[place] >> 28 == 6) {
                    let from = (0..=last).find(|&place| record[place] >> 28 == 6).unwrap();
                    damage_split(r, record, from, last);
                }
            }
            _ => record[place] = any,
        }
        if record.is_empty() {
            return;
        }
    }
}

fn wrong_length(r: &mut Random) -> usize {
    let any = r.below(4096);
    r.pick(&[0, 1, 8, 64, 960, 4088, 4095, 4095, 4097, 4097, 4104, 8192, any])
}

pub fn apply(r: &mut Random, damage: Damage, matrix: &Matrix, lent: &mut Lent) {
    match damage {
        Damage::WordsLength => lent.words.resize(wrong_length(r), 0),
        Damage::ThirdLength => lent.words3.resize(wrong_length(r), 0),
        Damage::Numbers => match r.below(3) {
            0 => lent.n = out_of_range(r, lent.n, 1, 120),
            1 => lent.m = out_of_range(r, lent.m, 0, 120),
            _ => lent.k = out_of_range(r, lent.k, 0, 392),
        },
        Damage::Near => {
            let now = match r.below(3) {
                0 => &mut lent.n,
                1 => &mut lent.m,
                _ => &mut lent.k,
            };
            *now = match r.below(3) {
                0 => now.wrapping_add(1),
                1 => now.saturating_sub(1),
                _ => r.below(121),
            };
        }
        Damage::Outside => put_one_outside(r, matrix, &mut lent.words),
        Damage::RuleA => {
            if matrix.k > 0 {
                break_rule_a(r, matrix, &mut lent.words)
            } else {
                lent.k = r.between(1, 392)
            }
        }
        Damage::Pair => {
            let any = r.next() as usize;
            let large = [matrix.bits(), matrix.bits() + 1, 512, lent.u | 1 << 32, lent.u | 1 << 63, usize::MAX, any];
            match r.below(4) {
                0 => lent.v = lent.u,
                1 => lent.u = r.pick(&large),
                2 => lent.v = r.pick(&large),
                _ => (lent.u, lent.v) = (r.pick(&large), r.pick(&large)),
            }
        }
        Damage::LowShare => (lent.u, lent.v) = (r.below(matrix.bits()), r.below(matrix.bits())),
        Damage::Lengths => match lent.kind {
            Kind::Verify | Kind::IsStopping => resized(r, &mut lent.input, matrix),
            Kind::Peel | Kind::Determine | Kind::MendBlock | Kind::MessageBits => resized(r, &mut lent.word, matrix),
            Kind::MendPackets => packets::resize(r, lent, matrix),
            Kind::MinSum => {
                let length = r.pick(&[0, 512, min_sum::MESSAGES - 1, min_sum::MESSAGES + 1]);
                match r.below(4) {
                    0 => resized(r, &mut lent.word, matrix),
                    1 => {
                        let mut bytes = vec![0; lent.floats.len()];
                        resized(r, &mut bytes, matrix);
                        lent.floats.resize(bytes.len(), 0);
                    }
                    2 => lent.message_bytes.resize(length, 9),
                    _ => lent.message_floats.resize(length, 9),
                }
            }
            _ => {
                let both = r.below(3);
                if both != 1 {
                    resized(r, &mut lent.input, matrix);
                }
                if both != 0 {
                    resized(r, &mut lent.word, matrix);
                }
            }
        },
        Damage::Bytes => match lent.kind {
            Kind::Peel | Kind::Determine | Kind::MendBlock => bad_bytes(r, &mut lent.word, 2),
            Kind::MendPackets => bad_bytes(r, &mut lent.word, 1),
            Kind::MinSum => bad_bytes(r, &mut lent.word, 3),
            Kind::Verify => bad_bytes(r, &mut lent.input, 2),
            _ => bad_bytes(r, &mut lent.input, 1),
        },
        Damage::Contradiction => {
            let guess = r.chance(500);
            for byte in &mut lent.word {
                if *byte == 2 && guess && r.chance(700) {
                    *byte = r.below(2) as u8;
                }
            }
            for _ in 0..r.between(1, 3) {
                if !lent.word.is_empty() {
                    let place = r.below(lent.word.len());
                    if lent.word[place] < 2 {
                        lent.word[place] ^= 1;
                    }
                }
            }
        }
        Damage::RecordShort => {
            let needed = model::written(matrix).map_or(9, |record| record.len());
            let any = r.below(needed);
            lent.record.resize(r.pick(&[needed - 1, needed - 1, 0, 1, any]), 7);
        }
        Damage::RecordFault => damage_record(r, &mut lent.record, matrix.n),
        Damage::Name => lent.name = unknown_name(r),
        Damage::SetSize => lent.t = wrong_size(r),
        Damage::SetsShort => {
            let needed = matrix.stopping_sets(lent.t.clamp(1, 4)).len();
            let any = r.below(needed + 1);
            lent.sets.resize(r.pick(&[needed.saturating_sub(1), needed.saturating_sub(1), 0, any]), 7);
        }
        Damage::Rounds => {
            let any = r.next() as usize | 1 << 40;
            lent.rounds = r.pick(&[0, 0, 513, 514, 1024, 1 << 32, usize::MAX, any]);
        }
        Damage::Floats => {
            for _ in 0..r.between(1, 4) {
                if !lent.word.is_empty() && !lent.floats.is_empty() {
                    let place = r.below(lent.word.len().min(lent.floats.len()));
                    lent.floats[place] = soft::unfit(r);
                    if r.chance(800) {
                        lent.word[place] = 3;
                    }
                }
            }
        }
        // These choose the matrix.
        Damage::Extended | Damage::Full | Damage::Nothing | Damage::NotBack => {}
        Damage::Different | Damage::TooMany => {}
    }
}

fn one_call(r: &mut Random, kind: Kind, pools: &Pools) -> Lent {
    if kind == Kind::Join {
        return joining::one_call(r, pools);
    }
    let zero = matches!(kind, Kind::Rank | Kind::Encode | Kind::MessageBits | Kind::MendBlock);
    let usual = match kind {
        Kind::TakeBack => Added::Some,
        _ if zero => Added::None,
        _ => Added::Any,
    };
    if r.chance(510) {
        let mut sample = pools.choose(r, kind, usual);
        // A split needs a pair, and a record a matrix that splits made; another matrix is tried a few times.
        for _ in 0..8 {
            let fits = match kind {
                Kind::Split => sample.matrix.next_pair().is_some(),
                Kind::Load | Kind::Write => sample.matrix.unsplit().is_some(),
                _ => true,
            };
            if fits {
                break;
            }
            sample = pools.choose(r, kind, usual);
        }
        return good(r, kind, &sample);
    }
    let list = damages(kind);
    let how_many = r.pick(&[1, 1, 1, 1, 2, 2, 3]);
    let chosen: Vec<Damage> = (0..how_many).map(|_| r.pick(&list)).collect();
    let sample = if chosen.contains(&Damage::Full) {
        let mut from: Vec<&Sample> = pools.tight.iter().collect();
        if kind == Kind::Split {
            from.retain(|sample| sample.matrix.k == 392);
        }
        (*r.pick(&from)).clone()
    } else if chosen.contains(&Damage::NotBack) {
        Sample { matrix: r.pick(&pools.not_back), basis: Vec::new() }
    } else if chosen.contains(&Damage::Nothing) {
        pools.choose(r, kind, Added::None)
    } else if chosen.contains(&Damage::Extended) {
        let matrix = pools.choose(r, Kind::Count, Added::Some).matrix;
        Sample { matrix, basis: Vec::new() }
    } else if chosen.contains(&Damage::RuleA) && r.chance(900) && !zero {
        pools.choose(r, kind, Added::Some)
    } else if chosen.contains(&Damage::RuleA) && zero && r.chance(700) {
        let matrix = pools.choose(r, Kind::Count, Added::Some).matrix;
        Sample { matrix, basis: Vec::new() }
    } else {
        pools.choose(r, kind, usual)
    };
    let mut lent =
        if zero && sample.matrix.k > 0 { lend_extended(r, kind, &sample.matrix) } else { good(r, kind, &sample) };
    for damage in chosen {
        apply(r, damage, &sample.matrix, &mut lent);
    }
    lent
}

/// A call of rank, encode, message_bits or mend_block with k above 0.
fn lend_extended(r: &mut Random, kind: Kind, matrix: &Matrix) -> Lent {
    let mut lent = cases::lend(kind, matrix);
    match kind {
        Kind::Encode => {
            lent.input = r.bits(matrix.n - matrix.n.min(matrix.m));
            lent.word = r.bytes(matrix.n);
        }
        Kind::MessageBits => {
            let length = r.pick(&[matrix.n, matrix.bits()]);
            lent.word = r.bytes(length);
        }
        Kind::MendBlock => {
            let length = r.pick(&[matrix.n, matrix.bits()]);
            lent.word = r.bits(length);
            erase(r, &mut lent.word, matrix.n);
        }
        _ => {}
    }
    lent
}

/// Every record word of small records of the three forms changed in every way.
fn every_record(r: &mut Random) -> Result<usize, String> {
    let matrices = [
        cases::a(),
        cases::c(),
        cases::e(),
        Matrix::zero(2, 0, 0),
        Matrix::zero(1, 1, 0),
        Matrix::given(120, &[vec![0, 63, 64, 119], vec![], vec![119]]),
        Matrix::given(3, &[vec![2], vec![0, 1, 2], vec![0]]),
    ];
    let mut wholes: Vec<(u32, Vec<u32>)> = Vec::new();
    for matrix in &matrices {
        wholes.extend(FORMS.map(|form| (matrix.n as u32, model::record(matrix, form))));
    }
    // Two and three splits: E orthogonalised, and A's and C's one with a check twice.
    wholes.push((3, model::record_with(&cases::e(), &[(0, 1), (2, 3)])));
    let four = Matrix::given(4, &[vec![0, 1, 2, 3], vec![0, 1, 2, 3], vec![0, 1]]);
    wholes.push((4, model::record_with(&four, &[(0, 1), (2, 3), (4, 5)])));
    let mut done = 0;
    for (n, whole) in wholes {
        let mut records = vec![whole.clone()];
        for place in 0..=whole.len() {
            let mut put = |word: u32, instead: bool| {
                let mut record = whole.clone();
                if instead && place < whole.len() {
                    record[place] = word;
                } else {
                    record.insert(place, word);
                }
                records.push(record);
            };
            let now = whole.get(place).copied().unwrap_or(0xF000_0000);
            for bit in 0..32 {
                put(now ^ 1 << bit, true);
            }
            for kind in 0..16 {
                put(now & 0x0FFF_FFFF | kind << 28, true);
                for low in [0, 1, n - 1, n, n + 1, 255] {
                    put(kind << 28 | low, true);
                    put(kind << 28 | low, false);
                }
            }
            for low in 0..256 {
                put(now & !255 | low, true);
                put(now & !0xFF00 | low << 8, true);
            }
            for pair in 0..64 {
                put(0x6000_0000 | (pair / 8) << 9 | pair % 8, true);
                put(0x6000_0000 | (pair / 8) << 9 | pair % 8, false);
            }
            records.push(whole[..place].to_vec());
            if place < whole.len() {
                let mut record = whole.clone();
                record.remove(place);
                records.push(record);
            }
        }
        for record in records {
            let mut lent = cases::lend(Kind::Load, &Matrix::zero(1, 0, 0));
            lent.words.fill(r.next());
            lent.record = record;
            (lent.n, lent.m) = (0, 0);
            compare(&lent, r)?;
            done += 1;
        }
    }
    Ok(done)
}

/// Names and slice lengths at the edges, on words that are all ones.
fn every_name(r: &mut Random) -> Result<usize, String> {
    let mut done = 0;
    for name in [0, 1, 2, 3, 4, 5, 6, 255, 256, 257, 1 << 32, 1 << 63, usize::MAX - 4, usize::MAX] {
        for length in [0, 1, 8, 960, 4095, 4096, 4097, 8192] {
            let mut lent = cases::lend(Kind::HouseCode, &Matrix::zero(1, 0, 0));
            lent.name = name;
            lent.words = vec![u64::MAX; length];
            (lent.n, lent.m) = (0, 0);
            compare(&lent, r)?;
            done += 1;
        }
    }
    Ok(done)
}

const THREADS: u64 = 4;

/// Calls of every kind from several threads at once, each on words of its own; gives the number of comparisons.
pub fn at_once() -> Result<usize, String> {
    let mut pools = Pools::new(&mut Random::new(7));
    pools.refresh(&mut Random::new(8));
    let pools = &pools;
    let one_thread = move |seed: u64| -> Result<usize, String> {
        let r = &mut Random::new(seed);
        let mut done = 0;
        for _ in 0..300 {
            for kind in KINDS {
                compare(&one_call(r, kind, pools), r)?;
                done += 1;
            }
        }
        Ok(done)
    };
    thread::scope(|scope| {
        let threads: Vec<_> = (0..THREADS).map(|i| scope.spawn(move || one_thread(200 + i))).collect();
        threads.into_iter().map(|one| one.join().expect("a thread that ends")).sum()
    })
}

/// What the replies of one kind were.
#[derive(Default)]
struct Tally {
    answers: usize,
    refusals: [usize; 24],
    /// Answers whose first value is 1, and those whose first value is 0.
    yes: usize,
    no: usize,
    /// Peelings, determinings and blocks of packets that recover some sent bits and leave others, and those that do so in the added bits.
    partly: [usize; 2],
    /// Blocks of packets with odd lanes.
    odd: usize,
    /// Mended blocks by the stage named.
    stages: [usize; 3],
}

/// The kinds named, or all; prints a line for each, and gives the number of comparisons.
pub fn run(named: &[Kind]) -> Result<usize, String> {
    let mut total = 0;
    let mut pools = Pools::new(&mut Random::new(3));
    for (number, kind) in KINDS.into_iter().enumerate() {
        if !named.is_empty() && !named.contains(&kind) {
            continue;
        }
        let r = &mut Random::new(100 + number as u64);
        let start = std::time::Instant::now();
        pools.refresh(r);
        let mut tally = Tally::default();
        let mut done = CALLS;
        let partial = matches!(kind, Kind::Peel | Kind::Determine | Kind::MendPackets);
        let mut one = |lent: &Lent, r: &mut Random| -> Result<(), String> {
            let (reply, _) = compare(lent, r)?;
            if reply.number == 0 {
                tally.answers += 1;
                match reply.values.first() {
                    Some(0) => tally.no += 1,
                    Some(1) => tally.yes += 1,
                    _ => {}
                }
                if partial {
                    for added in 0..2 {
                        tally.partly[added] += (reply.values[added] > 0 && reply.values[2 + added] > 0) as usize;
                    }
                }
                if kind == Kind::MendPackets {
                    tally.odd += (reply.values[4] > 0) as usize;
                }
                if kind == Kind::MendBlock {
                    tally.stages[reply.values[0] as usize - 1] += 1;
                }
            } else {
                tally.refusals[reply.number as usize] += 1;
            }
            Ok(())
        };
        for _ in 0..CALLS {
            let lent = one_call(r, kind, &pools);
            one(&lent, r)?;
        }
        if kind == Kind::Orthogonalise {
            for sample in &pools.dense {
                one(&good(r, kind, sample), r)?;
                done += 1;
            }
        }
        if kind == Kind::Load {
            done += every_record(r)?;
        }
        if kind == Kind::HouseCode {
            done += every_name(r)?;
        }
        let refused: Vec<String> =
            kind.refusals().iter().map(|&no| format!("{no}: {}", tally.refusals[no as usize])).collect();
        println!(
            "calls, {}: {done} compared; {} answered, refused {}; {} bytes of stack ({:.1} s)",
            kind.name(),
            tally.answers,
            refused.join(", "),
            stack::most(kind),
            start.elapsed().as_secs_f64()
        );
        if kind == Kind::TakeBack {
            println!("calls, take_back: taken back with s = 0: {}, with s = 1: {}", tally.no, tally.yes);
        }
        if kind == Kind::MendBlock {
            println!("calls, mend_block: by stage {:?}", tally.stages);
        }
        if kind == Kind::MendPackets {
            println!("calls, mend_packets: with odd lanes {}", tally.odd);
        }
        // The inputs are good and bad in about equal parts, and every refusal was met.
        let yes_no = matches!(kind, Kind::Verify | Kind::IsStopping);
        let few = kind.refusals().iter().any(|&no| tally.refusals[no as usize] < 100)
            || tally.answers < CALLS * 2 / 5
            || tally.answers > CALLS * 3 / 5
            || yes_no && (tally.yes < 1000 || tally.no < 1000)
            || kind == Kind::TakeBack && (tally.yes < 200 || tally.no < 200 || tally.refusals[16] < 500)
            || partial && (tally.partly[0] < 1000 || tally.partly[1] < 500)
            || kind == Kind::MendPackets && tally.odd < 1000
            || kind == Kind::MendBlock && tally.stages.iter().any(|&number| number < 150);
        if few {
            return Err(format!("the inputs of {} are too much alike: a fault of this program", kind.name()));
        }
        total += done;
    }
    Ok(total)
}
