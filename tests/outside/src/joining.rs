//! M-111's joining: random pairs of matrices, good and bad; the edges; and what 02 says of codewords and of peeling.

use crate::calls::{apply, damages, erase, Added, Damage, Pools};
use crate::cases;
use crate::compare::{compare, describe};
use crate::elimination;
use crate::generate;
use crate::model::{Kind, Lent, Matrix, Reply, CHECKS_MOST, SENT_MOST, WORDS};
use crate::random::Random;

fn fail<T>(what: &str, lent: &Lent, reply: &Reply) -> Result<T, String> {
    Err(format!("JOINING: {what}; number {}, values {:?}\n{}", reply.number, reply.values, describe(lent)))
}

/// A second matrix over the same bits with so many checks: some are those of the first, and some are there twice.
fn beside(r: &mut Random, first: &Matrix, m: usize) -> Matrix {
    let part = r.pick(&[0, 100, 300, 500, 500, 900, 1000]);
    let mut second = generate::given(r, first.n, m, part);
    let (same, twice) = (r.pick(&[0, 0, 300, 700, 1000]), r.pick(&[0, 100, 300]));
    for c in 0..m {
        if first.m > 0 && r.chance(same) {
            second.rows[c] = first.rows[r.below(first.m)].clone();
        } else if c > 0 && r.chance(twice) {
            second.rows[c] = second.rows[r.below(c)].clone();
        }
    }
    second
}

/// Two matrices of more than 120 different checks, or of just 120.
fn many(r: &mut Random) -> [Matrix; 2] {
    let (n, m) = (r.between(30, SENT_MOST), r.between(1, CHECKS_MOST));
    let first = generate::given(r, n, m, 500);
    let least = CHECKS_MOST - m;
    let m = r.pick(&[least, least + 1, least + 1, CHECKS_MOST]).min(CHECKS_MOST);
    let second = generate::given(r, n, m, 500);
    [first, second]
}

/// A call that joins two matrices into words that hold anything.
fn lend(r: &mut Random, first: &Matrix, second: &Matrix) -> Lent {
    let mut lent = cases::lend(Kind::Join, first);
    lent.words2 = second.pack();
    (lent.n2, lent.m2, lent.k2) = (second.n, second.m, second.k);
    lent.words3 = (0..WORDS).map(|_| r.next()).collect();
    lent
}

/// The first matrix and the second one exchanged.
fn exchange(lent: &mut Lent) {
    std::mem::swap(&mut lent.words, &mut lent.words2);
    std::mem::swap(&mut lent.n, &mut lent.n2);
    std::mem::swap(&mut lent.m, &mut lent.m2);
    std::mem::swap(&mut lent.k, &mut lent.k2);
}

/// A random pair, good or with one to three faults, each in either matrix.
pub fn one_call(r: &mut Random, pools: &Pools) -> Lent {
    let first = pools.choose(r, Kind::Join, Added::None).matrix;
    let most = if r.chance(900) { CHECKS_MOST - first.m } else { CHECKS_MOST };
    let m = if r.chance(700) { r.below(most.min(12) + 1) } else { r.below(most + 1) };
    let second = beside(r, &first, m);
    let mut sides = [first, second];
    if r.chance(300) {
        sides.swap(0, 1);
    }
    if r.chance(540) {
        return lend(r, &sides[0], &sides[1]);
    }
    let list = damages(Kind::Join);
    let how_many = r.pick(&[1, 1, 1, 2, 2, 3]);
    let chosen: Vec<(Damage, usize)> = (0..how_many).map(|_| (r.pick(&list), r.below(2))).collect();
    for &(damage, side) in &chosen {
        match damage {
            Damage::TooMany => sides = many(r),
            Damage::Different => {
                let (n, m) = (r.between(1, SENT_MOST), r.below(13));
                sides[side] = generate::given(r, n, m, 300);
            }
            Damage::RuleA | Damage::Extended => sides[side] = pools.choose(r, Kind::Count, Added::Some).matrix,
            _ => {}
        }
    }
    let mut lent = lend(r, &sides[0], &sides[1]);
    for (damage, side) in chosen {
        if side == 1 {
            exchange(&mut lent);
        }
        // a matrix that was replaced after its fault was chosen may have no added bits left
        if damage != Damage::RuleA || sides[side].k > 0 {
            apply(r, damage, &sides[side], &mut lent);
        }
        if side == 1 {
            exchange(&mut lent);
        }
    }
    lent
}

/// A join that must come to this: refused with the number, or the checks of the result.
fn due(r: &mut Random, lent: &Lent, to: Result<&[Vec<usize>], u32>) -> Result<usize, String> {
    let (reply, after) = compare(lent, r)?;
    let right = match to {
        Err(number) => reply.number == number && reply.values.is_empty() && after.words3 == lent.words3,
        Ok(checks) => {
            reply.number == 0
                && reply.values == [checks.len() as u64]
                && after.words3 == Matrix::given(lent.n, checks).pack()
        }
    };
    if !right || after.words != lent.words || after.words2 != lent.words2 {
        return fail("not what is due", lent, &reply);
    }
    Ok(1)
}

/// The same of two matrices.
fn joins(r: &mut Random, first: &Matrix, second: &Matrix, to: Result<&[Vec<usize>], u32>) -> Result<usize, String> {
    let lent = lend(r, first, second);
    due(r, &lent, to)
}

/// Check c is the bits of c+1, so that no two of 120 are equal.
fn rising(n: usize, from: usize, to: usize) -> Vec<Vec<usize>> {
    (from..to).map(|c| (0..n.min(7)).filter(|b| (c + 1) >> b & 1 == 1).collect()).collect()
}

/// Joins that are made: equal checks within either, no checks on either side, just 120.
fn made(r: &mut Random) -> Result<usize, String> {
    let (a, c, e) = (cases::a(), cases::c(), cases::e());
    let bits = |matrix: &Matrix| -> Vec<Vec<usize>> { (0..matrix.m).map(|check| matrix.ones_of(check)).collect() };
    let none = |n: usize| Matrix::zero(n, 0, 0);
    let mut number = joins(r, &a, &c, Ok(&[bits(&a), bits(&c)].concat()))?;
    number += joins(r, &c, &a, Ok(&[bits(&c), bits(&a)].concat()))?;
    for matrix in [&a, &c, &e, &none(1), &none(120), &cases::l(23), &Matrix::zero(120, 120, 0)] {
        let nothing = none(matrix.n);
        number += joins(r, matrix, matrix, Ok(&bits(matrix)))?;
        number += joins(r, matrix, &nothing, Ok(&bits(matrix)))?;
        let mut once = Vec::new();
        bits(matrix).into_iter().for_each(|check| {
            if !once.contains(&check) {
                once.push(check)
            }
        });
        number += joins(r, &nothing, matrix, Ok(&once))?;
    }
    // The last bits of both words in use, and bit 63 beside bit 64.
    let ends = [vec![119], vec![63], vec![64], vec![], vec![0, 63, 64, 119]];
    for which in 0..ends.len() {
        let (rest, one): (Vec<_>, Vec<_>) = ends.iter().cloned().partition(|check| *check != ends[which]);
        let (first, second) = (Matrix::given(120, &rest), Matrix::given(120, &ends));
        number += joins(r, &first, &second, Ok(&[rest, one].concat()))?;
    }
    for m in [0, 1, 59, 60, 61, 119, 120] {
        let (first, second) = (Matrix::given(120, &rising(120, 0, m)), Matrix::given(120, &rising(120, m, 120)));
        number += joins(r, &first, &second, Ok(&rising(120, 0, 120)))?;
        // one more, which the first has
        if 0 < m {
            let more = [rising(120, m - 1, m), rising(120, m, 120)].concat();
            if more.len() <= CHECKS_MOST {
                number += joins(r, &first, &Matrix::given(120, &more), Ok(&rising(120, 0, 120)))?;
            }
            let more = [rising(120, m, 120), rising(120, 0, 1)].concat();
            if more.len() <= CHECKS_MOST {
                number += joins(r, &first, &Matrix::given(120, &more), Ok(&rising(120, 0, 120)))?;
            }
        }
        // one more, which neither has
        let more = [rising(120, m, 120), vec![vec![]]].concat();
        if more.len() <= CHECKS_MOST {
            number += joins(r, &first, &Matrix::given(120, &more), Err(21))?;
        }
        let first = Matrix::given(7, &rising(7, 0, m));
        number += joins(r, &first, &Matrix::given(8, &rising(8, 0, 120)), Err(20))?;
    }
    let equal = Matrix::given(3, &vec![vec![0, 2]; 120]);
    number += joins(r, &equal, &equal, Ok(&vec![vec![0, 2]; 120]))?;
    number += joins(r, &none(3), &equal, Ok(&[vec![0, 2]]))?;
    number += joins(r, &equal, &Matrix::given(3, &[vec![0, 2], vec![1]]), Err(21))?;
    Ok(number)
}

/// A matrix that the cause of this number refuses, if it is one of 1 to 4 or 13.
fn refused(cause: u32) -> (Vec<u64>, usize, usize, usize) {
    let good = cases::a();
    match cause {
        1 => (good.pack()[1..].to_vec(), 7, 3, 0),
        2 => (good.pack(), 7, 121, 0),
        3 => (good.pack(), 6, 3, 0),
        // an added check of two bits
        4 => (Matrix::given(8, &[vec![0, 1, 2], vec![0, 7]]).pack(), 7, 1, 1),
        _ => {
            let mut extended = good;
            extended.orthogonalise();
            (extended.pack(), 7, 3, 1)
        }
    }
}

/// Each cause on the first only, on the second only and on both, and each two causes on the two in either order: the lower one in the order of
/// the causes refuses, whichever matrix has it. The third slice's length is a cause 1 too.
fn causes(r: &mut Random) -> Result<usize, String> {
    const ORDER: [u32; 6] = [1, 2, 3, 4, 13, 0];
    let mut number = 0;
    for (i, first) in ORDER.into_iter().enumerate() {
        for (j, second) in ORDER.into_iter().enumerate() {
            for different in [false, true] {
                let mut lent = lend(r, &cases::a(), &cases::c());
                if first != 0 {
                    (lent.words, lent.n, lent.m, lent.k) = refused(first);
                }
                if second != 0 {
                    (lent.words2, lent.n2, lent.m2, lent.k2) = refused(second);
                }
                // n = 8 has room for the bits of 7
                if different && second == 0 {
                    lent.n2 = 8;
                } else if different && first == 0 {
                    lent.n = 8;
                }
                let to = match ORDER[i.min(j)] {
                    0 if different => 20,
                    cause => cause,
                };
                match to {
                    0 => {
                        number += due(
                            r,
                            &lent,
                            Ok(&[
                                [0, 3, 4, 6].to_vec(),
                                vec![1, 3, 5, 6],
                                vec![2, 4, 5, 6],
                                vec![0, 1, 2, 3],
                                vec![0, 1, 4, 5],
                                vec![0, 2, 6],
                            ]),
                        )?
                    }
                    cause => number += due(r, &lent, Err(cause))?,
                }
                for length in [0, 8, 960, 4095, 4097, 8192] {
                    lent.words3.resize(length, 5);
                    number += due(r, &lent, Err(1))?;
                }
            }
        }
    }
    Ok(number)
}

/// What the pairs met.
#[derive(Default)]
struct Tally {
    pairs: usize,
    verified: usize,
    codewords: usize,
    peelings: usize,
    /// Peelings in which the joined matrix recovers more than both, and in which one of the two recovers what the other does not.
    more: usize,
    apart: usize,
}

/// A call with these words of a matrix with k = 0.
fn with(kind: Kind, words: &[u64], n: usize, m: usize) -> Lent {
    let mut lent = cases::lend(kind, &Matrix::zero(n, 0, 0));
    lent.words = words.to_vec();
    lent.m = m;
    lent
}

/// A word is a codeword of the joined matrix exactly if it is one of both.
fn verifies(r: &mut Random, tally: &mut Tally, lents: &[Lent; 3], word: &[u8]) -> Result<(), String> {
    let mut yes = [false; 3];
    for (lent, yes) in lents.iter().zip(&mut yes) {
        let mut lent = lent.clone();
        lent.kind = Kind::Verify;
        lent.input = word.to_vec();
        let (reply, _) = compare(&lent, r)?;
        *yes = reply.values == [1];
    }
    if yes[2] != (yes[0] && yes[1]) {
        return Err(format!(
            "JOINING: {word:?} is a codeword of first, second, joined: {yes:?}\n{}",
            describe(&lents[2])
        ));
    }
    tally.verified += 1;
    tally.codewords += yes[2] as usize;
    Ok(())
}

/// Of a joined codeword with bits erased the joined matrix leaves no bit that either recovers.
fn peels(r: &mut Random, tally: &mut Tally, lents: &[Lent; 3], codeword: &[u8]) -> Result<(), String> {
    let mut word = codeword.to_vec();
    erase(r, &mut word, codeword.len());
    let mut after = Vec::new();
    for lent in lents {
        let mut lent = lent.clone();
        lent.kind = Kind::Peel;
        lent.word = word.clone();
        let (reply, left) = compare(&lent, r)?;
        if reply.number != 0 {
            return fail("a codeword with bits erased is refused", &lent, &reply);
        }
        after.push(left.word);
    }
    let left = |which: usize, b: usize| after[which][b] == 2;
    let bits = 0..codeword.len();
    for b in bits.clone() {
        if left(2, b) && !(left(0, b) && left(1, b)) || !left(2, b) && after[2][b] != codeword[b] {
            return Err(format!("JOINING: bit {b} of {word:?}: peeled to {after:?}\n{}", describe(&lents[2])));
        }
    }
    tally.peelings += 1;
    tally.more += bits.clone().any(|b| !left(2, b) && left(0, b) && left(1, b)) as usize;
    tally.apart += bits.clone().any(|b| left(0, b) != left(1, b)) as usize;
    Ok(())
}

/// Pairs that are joined, the joined matrix in calls of its own.
fn pairs(r: &mut Random) -> Result<Tally, String> {
    let mut tally = Tally::default();
    while tally.pairs < 3000 {
        let small = r.chance(900);
        let first = if small { generate::small_given(r) } else { generate::sparse(r) };
        let most = if small { 12 } else { 60 };
        let m = r.below(most + 1);
        let second = beside(r, &first, m);
        let lent = lend(r, &first, &second);
        let (reply, after) = compare(&lent, r)?;
        if reply.number != 0 {
            return fail("not joined", &lent, &reply);
        }
        let m = reply.values[0] as usize;
        let joined = with(Kind::Verify, &after.words3, first.n, m);
        let lents = [
            with(Kind::Verify, &lent.words, first.n, first.m),
            with(Kind::Verify, &lent.words2, first.n, second.m),
            joined,
        ];
        let basis = elimination::basis(&Matrix::read(&after.words3, first.n, m, 0));
        if first.n <= 5 {
            for number in 0..1usize << first.n {
                let word: Vec<u8> = (0..first.n).map(|b| (number >> b & 1) as u8).collect();
                verifies(r, &mut tally, &lents, &word)?;
            }
        }
        for _ in 0..4 {
            let codeword = elimination::combine(&basis, first.n, || r.chance(500));
            verifies(r, &mut tally, &lents, &codeword)?;
            let mut other = codeword.clone();
            other[r.below(first.n)] ^= 1;
            verifies(r, &mut tally, &lents, &other)?;
            peels(r, &mut tally, &lents, &codeword)?;
        }
        // the joined matrix joined with either is itself
        for other in [&lent.words, &lent.words2] {
            let mut again = lend(r, &Matrix::read(&after.words3, first.n, m, 0), &second);
            again.words2 = other.clone();
            again.m2 = if std::ptr::eq(other, &lent.words) { first.m } else { second.m };
            let (reply, twice) = compare(&again, r)?;
            if reply.values != [m as u64] || twice.words3 != after.words3 {
                return fail("joined again it is another matrix", &again, &reply);
            }
        }
        tally.pairs += 1;
    }
    Ok(tally)
}

pub fn run() -> Result<(usize, String), String> {
    let mut r = Random::new(111);
    let edges = made(&mut r)? + causes(&mut r)?;
    let tally = pairs(&mut r)?;
    if tally.more < 100 || tally.apart < 100 || tally.codewords < 1000 {
        return Err("the pairs are too much alike: a fault of this program".to_string());
    }
    let note = format!(
        "{edges} edges; {} pairs, {} words of which {} are codewords of both, {} peelings: {} recover more than both, in {} the two differ",
        tally.pairs, tally.verified, tally.codewords, tally.peelings, tally.more, tally.apart
    );
    Ok((edges + 3 * tally.pairs + 3 * tally.verified + 3 * tally.peelings, note))
}
