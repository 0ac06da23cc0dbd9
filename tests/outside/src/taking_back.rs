//! M-101's taking back, in the library and the model: its known cases, splits taken back at once, orthogonalised matrices
//! taken back all the way to the given one, and matrices that no splits made, taken back until that is refused.

use crate::cases;
use crate::compare::{compare, describe};
use crate::generate;
use crate::model::{Kind, Lent, Matrix, Reply, ADDED_MOST};
use crate::random::Random;

/// At least so many splits have to be made and taken back at once.
const SPLITS_LEAST: usize = 20_000;

fn fail<T>(what: &str, lent: &Lent, reply: &Reply) -> Result<T, String> {
    Err(format!("TAKING BACK: {what}; number {}, values {:?}\n{}", reply.number, reply.values, describe(lent)))
}

/// The known cases; E's two splits are among them.
fn known(r: &mut Random) -> Result<usize, String> {
    let all = cases::taken_back();
    let number = all.len();
    for (what, matrix, due, after) in all {
        let lent = cases::lend(Kind::TakeBack, &matrix);
        let (reply, left) = compare(&lent, r)?;
        if reply != due || left.words != after.pack() {
            return fail(what, &lent, &reply);
        }
    }
    Ok(number)
}

/// Splits a pair and takes it back: the words, k and the share are those of before.
fn at_once(r: &mut Random, matrix: &Matrix, (u, v): (usize, usize)) -> Result<(), String> {
    let mut lent = cases::lend(Kind::Split, matrix);
    (lent.u, lent.v) = if r.chance(500) { (u, v) } else { (v, u) };
    let (made, mut lent) = compare(&lent, r)?;
    let [share, k, ..] = made.values[..] else {
        return fail("the split is not made", &lent, &made);
    };
    lent.kind = Kind::TakeBack;
    lent.k = k as usize;
    let (back, left) = compare(&lent, r)?;
    if back.number != 0 || back.values != [share, matrix.k as u64] || left.words != matrix.pack() {
        return fail("not the words, k and share of before the split", &lent, &back);
    }
    Ok(())
}

/// Splits of up to `most` pairs of the matrix, each taken back at once; gives their number.
fn some_pairs(r: &mut Random, matrix: &Matrix, most: usize) -> Result<usize, String> {
    let pairs = matrix.pairs();
    if pairs.is_empty() || matrix.k == ADDED_MOST {
        return Ok(0);
    }
    let number = most.min(pairs.len());
    for _ in 0..number {
        let pair = r.pick(&pairs);
        at_once(r, matrix, pair)?;
    }
    Ok(number)
}

/// Small matrices of every kind, and larger ones with any k.
fn splits(r: &mut Random) -> Result<usize, String> {
    let mut done = 0;
    for i in 0..120 {
        let (n, m, part) = (r.between(13, 120), r.between(5, 120), r.pick(&[60, 100, 200, 500]));
        let mut matrix = generate::given(r, n, m, part);
        if i % 3 > 0 {
            let most = r.between(1, 40);
            generate::split_some(r, &mut matrix, most);
        }
        done += some_pairs(r, &matrix, 8)?;
    }
    for k in [389, 390, 391] {
        let matrix = generate::triples(r, 30, 12, k);
        done += some_pairs(r, &matrix, 8)?;
    }
    while done < SPLITS_LEAST {
        let matrix = generate::small(r);
        done += some_pairs(r, &matrix, 4)?;
    }
    Ok(done)
}

/// Orthogonalises a given matrix and takes every split back: the given words, and the sum that was answered.
fn all_the_way(r: &mut Random, given: &Matrix) -> Result<usize, String> {
    let (done, mut lent) = compare(&cases::lend(Kind::Orthogonalise, given), r)?;
    let [splits, sum, k, ..] = done.values[..] else {
        return fail("the matrix is not orthogonalised", &lent, &done);
    };
    lent.kind = Kind::TakeBack;
    lent.k = k as usize;
    let mut taken = 0;
    for _ in 0..splits {
        let (back, left) = compare(&lent, r)?;
        let [share, k] = back.values[..] else {
            return fail("a split of an orthogonalise is not taken back", &lent, &back);
        };
        if share < 2 || k + 1 != lent.k as u64 {
            return fail("the share is below two, or k falls by another number than one", &lent, &back);
        }
        taken += share * (share - 1) / 2;
        lent = left;
        lent.k = k as usize;
    }
    let (end, left) = compare(&lent, r)?;
    if lent.words != given.pack() || taken != sum {
        return fail("not the given words, or not the sum", &lent, &end);
    }
    if end.number != 15 || left.words != lent.words {
        return fail("with k = 0 it is not refused 15, or not left", &lent, &end);
    }
    Ok(splits as usize)
}

/// Takes a matrix that no splits need have made back until that is refused; gives the refusal and the number of calls.
fn until_refused(r: &mut Random, matrix: &Matrix) -> Result<(u32, usize), String> {
    let mut lent = cases::lend(Kind::TakeBack, matrix);
    for calls in 1.. {
        let (back, left) = compare(&lent, r)?;
        let [_, k] = back.values[..] else {
            return Ok((back.number, calls));
        };
        lent = left;
        lent.k = k as usize;
    }
    unreachable!()
}

/// The same for many matrices, with sent bits that end at a word's edge too; gives the numbers of calls, of those refused 15
/// and of those refused 16.
fn without_splits(r: &mut Random) -> Result<[usize; 3], String> {
    let mut numbers = [0; 3];
    for i in 0..1000 {
        let n = if i < 300 { r.pick(&[62, 63, 64, 65, 119, 120]) } else { r.between(2, 20) };
        let (m, part) = (r.below(n.min(70)), r.pick(&[20, 100, 300]));
        let mut matrix = generate::given(r, n, m, part);
        for _ in 0..r.between(1, n.min(80)) {
            let part = r.pick(&[0, 10, 50, 200]);
            generate::add_triple(r, &mut matrix, part);
        }
        let (number, calls) = until_refused(r, &matrix)?;
        numbers[0] += calls;
        numbers[1] += (number == 15) as usize;
        numbers[2] += (number == 16) as usize;
    }
    Ok(numbers)
}

/// The number of comparisons and a note.
pub fn run() -> Result<(usize, String), String> {
    let r = &mut Random::new(11);
    let known = known(r)?;
    let once = splits(r)?;
    let dense = generate::given(r, 120, 120, 500);
    let hamming: Vec<Vec<usize>> = (0..5).map(|c| (0..31).filter(|b| (b + 1) >> c & 1 == 1).collect()).collect();
    let mut way = 0;
    let first = all_the_way(r, &dense)?;
    if first != ADDED_MOST {
        return Err(format!(
            "the dense matrix takes {first} splits, and {ADDED_MOST} are due: a fault of this program"
        ));
    }
    let others = [
        cases::l(23),
        Matrix::given(31, &hamming),
        generate::sparse(r),
        generate::given(r, 64, 64, 500),
        generate::given(r, 120, 120, 1000),
        generate::given(r, 90, 40, 100),
        Matrix::zero(120, 120, 0),
    ];
    for matrix in &others {
        way += all_the_way(r, matrix)?;
    }
    let [calls, nothing, broken] = without_splits(r)?;
    if nothing < 100 || broken < 100 {
        return Err(format!("refused 15: {nothing}, 16: {broken}: a fault of this program"));
    }
    let note = format!(
        "{once} splits taken back at once, {} matrices all the way; others until refused 15: {nothing}, 16: {broken}",
        1 + others.len()
    );
    Ok((known + 2 * once + first + way + calls, note))
}
