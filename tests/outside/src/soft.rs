//! M-112's soft bits: words on random and published matrices, compared with the model by the bits of every float.

use crate::cases;
use crate::codes;
use crate::compare::{compare, describe};
use crate::elimination;
use crate::generate;
use crate::min_sum::{LIMIT, MESSAGES, ROUNDS_MOST};
use crate::model::{Kind, Lent, Matrix};
use crate::random::Random;

/// At least so many words have to be compared.
const WORDS_LEAST: usize = 5_000;

/// A soft float that is taken, as its bits.
fn fitting(r: &mut Random) -> u32 {
    let sign = (r.below(2) as u32) << 31;
    sign | match r.below(12) {
        0 => 0,
        1 => LIMIT.to_bits() - r.below(3) as u32,
        2 => r.between(1, 9) as u32,
        3 => r.below(1 << 23) as u32,
        4 => (r.below(16) as f32).to_bits(),
        5 => (r.below(1 << 20) as f32 / 64.0).to_bits(),
        6 => r.below(LIMIT.to_bits() as usize + 1) as u32,
        _ => (r.below(1 << 24) as f32 / 2_097_152.0).to_bits(),
    }
}

/// A float of any kind, for a byte other than 3.
fn any_float(r: &mut Random) -> u32 {
    let any = r.next() as u32;
    r.pick(&[0, 0x8000_0000, 0x7F80_0000, 0xFF80_0000, 0x7FC0_0000, 0xFFFF_FFFF, LIMIT.to_bits() + 1, any])
}

/// A float that is refused at a byte 3.
pub fn unfit(r: &mut Random) -> u32 {
    let sign = (r.below(2) as u32) << 31;
    let above = r.between(LIMIT.to_bits() as usize + 1, 0x7F80_0000) as u32;
    sign | r.pick(&[LIMIT.to_bits() + 1, 0x7F80_0000, 0x7FC0_0000, 0x7F80_0001, 0x7F7F_FFFF, above])
}

/// What the bits of a word are.
#[derive(Clone, Copy, PartialEq)]
pub enum Mix {
    Mixed,
    Sure,
    Soft,
}

/// Fills the slices of a call with a word near a codeword, its messages with anything.
pub fn fill(r: &mut Random, lent: &mut Lent, codeword: &[u8], mix: Mix) {
    lent.word = codeword.to_vec();
    let (soft, lost, wrong) = match mix {
        Mix::Mixed => (r.below(900), r.below(300), r.below(200)),
        Mix::Sure => (0, r.below(700), if r.chance(300) { 100 } else { 0 }),
        Mix::Soft => (1000, 0, r.below(200)),
    };
    lent.floats = vec![0; codeword.len()];
    for b in 0..codeword.len() {
        let one = (codeword[b] == 1) != r.chance(wrong);
        lent.word[b] = one as u8;
        lent.floats[b] = any_float(r);
        if r.chance(soft) {
            lent.word[b] = 3;
            lent.floats[b] = fitting(r) & 0x7FFF_FFFF | (one as u32) << 31;
        } else if r.chance(lost) {
            lent.word[b] = 2;
        }
    }
    let (byte, float) = (r.next() as u8, any_float(r));
    lent.message_bytes = vec![byte; MESSAGES];
    lent.message_floats = vec![float; MESSAGES];
}

/// A number of rounds that the model can make in a moment.
pub fn rounds(r: &mut Random, matrix: &Matrix) -> usize {
    let ones: usize = matrix.rows.iter().map(|row| row.iter().filter(|one| **one).count()).sum();
    let most = (3_000_000 / (ones * ones / matrix.checks().max(1) + 1) + 1).min(ROUNDS_MOST);
    match r.below(8) {
        0 => 1,
        1 => 2.min(most),
        2 => most,
        3 => r.between(1, most),
        _ => r.between(1, most.min(12)),
    }
}

/// A call on a word near a codeword of the matrix.
pub fn lend(r: &mut Random, matrix: &Matrix, codeword: &[u8], mix: Mix) -> Lent {
    let mut lent = cases::lend(Kind::MinSum, matrix);
    fill(r, &mut lent, codeword, mix);
    lent.rounds = rounds(r, matrix);
    lent
}

/// What the words met.
#[derive(Default)]
struct Tally {
    words: usize,
    extended: usize,
    mixed: usize,
    sure: usize,
    soft: usize,
    /// Results that are soft, and calls with 512 rounds.
    results: usize,
    most: usize,
}

/// One word compared.
fn one(r: &mut Random, tally: &mut Tally, lent: &Lent) -> Result<Lent, String> {
    let (reply, after) = compare(lent, r)?;
    if reply.number != 0 {
        return Err(format!("SOFT: a word is refused {}\n{}", reply.number, describe(lent)));
    }
    tally.words += 1;
    tally.extended += (lent.k > 0) as usize;
    tally.results += after.word.iter().filter(|byte| **byte == 3).count();
    tally.most += (lent.rounds == ROUNDS_MOST) as usize;
    Ok(after)
}

/// A codeword with bits erased, after 512 rounds: as peeling leaves it.
fn as_peeling(r: &mut Random, tally: &mut Tally, matrix: &Matrix, codeword: &[u8]) -> Result<(), String> {
    let part = r.below(800);
    let mut lent = cases::lend(Kind::MinSum, matrix);
    fill(r, &mut lent, codeword, Mix::Sure);
    lent.word = codeword.iter().map(|&byte| if r.chance(part) { 2 } else { byte }).collect();
    lent.rounds = ROUNDS_MOST;
    let after = one(r, tally, &lent)?;
    let mut peeling = cases::lend(Kind::Peel, matrix);
    peeling.word = lent.word.clone();
    let (_, peeled) = compare(&peeling, r)?;
    if after.word != peeled.word || after.floats.iter().any(|float| *float != 0) {
        return Err(format!("SOFT: not as peeling ends, {:?}\n{}", peeled.word, describe(&lent)));
    }
    Ok(())
}

/// Rounds, lengths, bytes and floats at their edges, on a small matrix, one without checks, and one with a bit in no check
/// and a check with one bit.
fn edges(r: &mut Random) -> Result<usize, String> {
    let mut done = 0;
    let one_bit = Matrix::given(4, &[vec![2], vec![0, 2], vec![]]);
    for matrix in [cases::a(), Matrix::zero(3, 0, 0), one_bit] {
        let bits = matrix.bits();
        let codeword = vec![0; bits];
        let mut good = lend(r, &matrix, &codeword, Mix::Mixed);
        let mut all = Vec::new();
        for rounds in [0, 1, 2, 511, 512, 513, 1 << 32, usize::MAX - 511, usize::MAX] {
            good.rounds = rounds;
            all.push(good.clone());
        }
        good.rounds = 3;
        for length in [0, bits - 1, bits, bits + 1, 65_536] {
            let mut lent = good.clone();
            lent.word.resize(length, 0);
            all.push(lent);
            let mut lent = good.clone();
            lent.floats.resize(length, 0);
            all.push(lent);
        }
        for length in [0, bits, 65_535, 65_536, 65_537] {
            let mut lent = good.clone();
            lent.message_bytes.resize(length, 1);
            all.push(lent);
            let mut lent = good.clone();
            lent.message_floats.resize(length, 1);
            all.push(lent);
        }
        for b in 0..bits {
            for byte in [0, 1, 2, 3, 4, 5, 128, 255] {
                for float in [
                    0,
                    0x8000_0000,
                    1,
                    0x8000_0001,
                    LIMIT.to_bits(),
                    (-LIMIT).to_bits(),
                    LIMIT.to_bits() + 1,
                    (-LIMIT).to_bits() + 1,
                    0x7F80_0000,
                    0xFF80_0000,
                    0x7FC0_0000,
                    0xFFC0_0001,
                ] {
                    let mut lent = good.clone();
                    (lent.word[b], lent.floats[b]) = (byte, float);
                    all.push(lent);
                }
            }
        }
        for lent in all {
            compare(&lent, r)?;
            done += 1;
        }
    }
    Ok(done)
}

/// Gives the number of comparisons and a note on them.
pub fn run() -> Result<(usize, String), String> {
    let r = &mut Random::new(112);
    let mut tally = Tally::default();
    let mut done = edges(r)?;
    let mut matrices: Vec<Matrix> = codes::published().into_iter().map(|code| code.matrix).collect();
    for code in codes::random_codes(r) {
        matrices.push(code.matrix);
    }
    for i in 0..matrices.len() {
        let mut extended = matrices[i].clone();
        if i % 2 == 0 {
            extended.orthogonalise();
        } else {
            generate::split_some(r, &mut extended, 20);
        }
        matrices.push(extended);
    }
    matrices.extend((0..120).map(|_| generate::small(r)));
    matrices.push(generate::most_ones());
    matrices.push(generate::given(r, 120, 120, 1000));
    let samples: Vec<(Matrix, Vec<Vec<u8>>)> = matrices
        .into_iter()
        .map(|matrix| {
            let basis = elimination::basis(&matrix);
            (matrix, basis)
        })
        .collect();
    let mut turn = 0;
    while tally.words < WORDS_LEAST {
        for (matrix, basis) in &samples {
            let codeword = elimination::combine(basis, matrix.bits(), || r.chance(500));
            let mix = [Mix::Mixed, Mix::Soft, Mix::Sure, Mix::Mixed][turn % 4];
            match mix {
                Mix::Mixed => tally.mixed += 1,
                Mix::Sure => tally.sure += 1,
                Mix::Soft => tally.soft += 1,
            }
            let lent = lend(r, matrix, &codeword, mix);
            one(r, &mut tally, &lent)?;
            let ones: usize = matrix.rows.iter().map(|row| row.iter().filter(|one| **one).count()).sum();
            if turn % 4 == 2 && ones < 600 {
                as_peeling(r, &mut tally, matrix, &codeword)?;
                tally.sure += 1;
            }
            turn += 1;
        }
    }
    done += tally.words;
    let note = format!(
        "{} words: {} mixed, {} soft, {} sure and erased, {} with k above 0, {} with 512 rounds; {} soft results",
        tally.words, tally.mixed, tally.soft, tally.sure, tally.extended, tally.most, tally.results
    );
    Ok((done, note))
}
