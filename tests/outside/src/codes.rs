//! Published codes that can be constructed, and random matrices: what peeling recovers against elimination.

use crate::cases;
use crate::compare::describe;
use crate::elimination;
use crate::generate;
use crate::model::{losses, twos, Kind, Matrix};
use crate::random::Random;
use parity::{Peeled, Refusal};

/// A parity-check matrix with its name and, if it is known, the dimension of its code.
pub struct Code {
    pub name: String,
    pub matrix: Matrix,
    dimension: Option<usize>,
}

fn code(name: String, matrix: Matrix, dimension: usize) -> Code {
    Code { name, matrix, dimension: Some(dimension) }
}

/// Check c contains bit b exactly when bit c of b+1 is one.
fn hamming(checks: usize) -> Matrix {
    let n = (1 << checks) - 1;
    let list: Vec<Vec<usize>> = (0..checks).map(|c| (0..n).filter(|b| (b + 1) >> c & 1 == 1).collect()).collect();
    Matrix::given(n, &list)
}

/// Check c contains c + e for each e of a set in which every difference is met once.
fn difference_set(n: usize, set: &[usize]) -> Matrix {
    let mut met = vec![0; n];
    for x in set {
        for y in set {
            met[(n + x - y) % n] += 1;
        }
    }
    assert!(met[1..].iter().all(|&times| times == 1), "a difference set");
    let list: Vec<Vec<usize>> = (0..n).map(|c| set.iter().map(|e| (c + e) % n).collect()).collect();
    Matrix::given(n, &list)
}

/// The Reed-Muller code of order r in v variables: its checks are the monomials of degree below v - r.
fn reed_muller(r: usize, v: usize) -> Matrix {
    let mut list = Vec::new();
    for monomial in 0..1usize << v {
        if (monomial.count_ones() as usize) < v - r {
            list.push((0..1 << v).filter(|point| point & monomial == monomial).collect());
        }
    }
    Matrix::given(1 << v, &list)
}

fn choose(n: usize, k: usize) -> usize {
    (0..k).fold(1, |product, i| product * (n - i) / (i + 1))
}

/// The narrow-sense BCH code with roots a^1, a^3, .. a^(2t-1), where a is a root of the polynomial of degree d.
fn bch(d: usize, polynomial: usize, t: usize) -> Matrix {
    let n = (1 << d) - 1;
    let mut powers = vec![1usize];
    for i in 1..n {
        let doubled = powers[i - 1] << 1;
        powers.push(if doubled >> d == 1 { doubled ^ polynomial } else { doubled });
    }
    let mut sorted = powers.clone();
    sorted.sort();
    assert!(sorted.into_iter().eq(1..=n), "a primitive polynomial");
    let mut list = Vec::new();
    for root in (1..2 * t).step_by(2) {
        for c in 0..d {
            list.push((0..n).filter(|j| powers[root * j % n] >> c & 1 == 1).collect());
        }
    }
    Matrix::given(n, &list)
}

pub fn published() -> Vec<Code> {
    let mut all = vec![
        code("Golay, 23 checks".to_string(), cases::l(23), 12),
        code("Golay, 11 checks".to_string(), cases::l(11), 12),
        code("difference set 7".to_string(), difference_set(7, &[0, 1, 3]), 3),
        code("difference set 21".to_string(), difference_set(21, &[0, 1, 4, 14, 16]), 11),
        code("difference set 73".to_string(), difference_set(73, &[0, 1, 3, 7, 15, 31, 36, 54, 63]), 45),
    ];
    for checks in 3..=5 {
        let matrix = hamming(checks);
        let n = matrix.n;
        all.push(code(format!("Hamming {n}"), matrix, n - checks));
    }
    for v in 1..=6 {
        for r in 0..v {
            let dimension = (0..=r).map(|i| choose(v, i)).sum();
            all.push(code(format!("Reed-Muller {r} {v}"), reed_muller(r, v), dimension));
        }
    }
    let bch_codes: [(usize, usize, &[(usize, usize)]); 3] = [
        (4, 0b1_0011, &[(1, 11), (2, 7), (3, 5)]),
        (5, 0b10_0101, &[(1, 26), (2, 21), (3, 16), (5, 11), (7, 6)]),
        (
            6,
            0b100_0011,
            &[(1, 57), (2, 51), (3, 45), (4, 39), (5, 36), (6, 30), (7, 24), (10, 18), (11, 16), (13, 10), (15, 7)],
        ),
    ];
    for (d, polynomial, list) in bch_codes {
        for &(t, dimension) in list {
            all.push(code(format!("BCH {} t {t}", (1 << d) - 1), bch(d, polynomial, t), dimension));
        }
    }
    all
}

pub fn random_codes(r: &mut Random) -> Vec<Code> {
    let mut all = Vec::new();
    let mut add = |name: &str, matrix: Matrix| all.push(Code { name: name.to_string(), matrix, dimension: None });
    for _ in 0..3 {
        add("sparse 60 x 120", generate::sparse(r));
    }
    for (n, m, part) in [(120, 60, 500), (120, 120, 500), (120, 100, 30), (120, 60, 25), (90, 45, 60), (40, 20, 150)] {
        add("random", generate::given(r, n, m, part));
    }
    for _ in 0..12 {
        let (n, m, part) = (r.between(4, 60), r.between(2, 50), r.between(30, 400));
        add("random", generate::given(r, n, m, part));
    }
    all
}

fn fail<T>(code: &Code, matrix: &Matrix, word: &[u8], what: &str) -> Result<T, String> {
    let mut lent = cases::lend(Kind::Peel, matrix);
    lent.word = word.to_vec();
    Err(format!("CODE {} FAILS: {what}\n{}", code.name, describe(&lent)))
}

/// The number of comparisons, and how often peeling was refused, was answered though no codeword agrees, and recovered
/// some bits and left others, of the sent bits and of the added ones.
#[derive(Default)]
struct Tally {
    compared: usize,
    refused: usize,
    no_codeword: usize,
    partly: usize,
    partly_added: usize,
}

/// Peels a received word: what is left is the residue, and every recovered bit is that of `due`, which is `None` if no
/// codeword agrees. With `defined`, the reply and the word are those of peeling's definition.
fn held(
    tally: &mut Tally,
    code: &Code,
    matrix: &Matrix,
    words: &[u64],
    received: &[u8],
    due: Option<&[u8]>,
    defined: bool,
) -> Result<(), String> {
    let mut word = received.to_vec();
    let peeled = parity::peel(words, matrix.n, matrix.m, matrix.k, &mut word);
    if defined {
        let reply = match matrix.peel(received) {
            None => (Err(Refusal::Contradiction), received.to_vec()),
            Some(values) => (Ok(peeling(matrix.n, received, &values)), values),
        };
        if (peeled, &word) != (reply.0, &reply.1) {
            return fail(code, matrix, received, &format!("peeled {peeled:?} {word:?}, defined {reply:?}"));
        }
        tally.compared += 1;
    }
    let Ok(peeled) = peeled else {
        if due.is_some() {
            return fail(code, matrix, received, &format!("peeling: {peeled:?}, yet a codeword agrees"));
        }
        tally.refused += 1;
        return Ok(());
    };
    if peeled != peeling(matrix.n, received, &word) {
        return fail(code, matrix, received, &format!("the four numbers are {peeled:?}"));
    }
    tally.compared += 1;
    tally.no_codeword += due.is_none() as usize;
    tally.partly += (peeled.recovered_sent > 0 && peeled.left_sent > 0) as usize;
    tally.partly_added += (peeled.recovered_added > 0 && peeled.left_added > 0) as usize;
    let residue = matrix.residue(&twos(received));
    for b in 0..received.len() {
        if (word[b] == 2) != residue[b] {
            return fail(code, matrix, received, &format!("bit {b} is {}, in the residue: {}", word[b], residue[b]));
        }
        tally.compared += 1;
        if let (Some(due), false) = (due, residue[b]) {
            if word[b] != due[b] {
                return fail(code, matrix, received, &format!("bit {b}: peeled {}, due {}", word[b], due[b]));
            }
            tally.compared += 1;
        }
    }
    Ok(())
}

/// The four numbers of a received word and the word after peeling.
fn peeling(n: usize, received: &[u8], word: &[u8]) -> Peeled {
    let [recovered_sent, recovered_added, left_sent, left_added] =
        losses(n, received, word).map(|number| number as usize);
    Peeled { recovered_sent, recovered_added, left_sent, left_added }
}

fn one_code(r: &mut Random, tally: &mut Tally, code: &Code, rounds: usize) -> Result<(), String> {
    let matrix = &code.matrix;
    let (n, m) = (matrix.n, matrix.m);
    let words = matrix.pack();
    let basis = elimination::basis(matrix);
    if code.dimension.is_some_and(|dimension| dimension != basis.len()) {
        return fail(code, matrix, &[], &format!("dimension {}: a fault of this program", basis.len()));
    }
    tally.compared += code.dimension.is_some() as usize;
    let rank = parity::rank(&words, n, m, 0);
    if rank != Ok(n - basis.len()) {
        return fail(code, matrix, &[], &format!("rank {rank:?}, dimension {}", basis.len()));
    }
    tally.compared += 1;
    let count = parity::count(&words, n, m, 0);
    if count != Ok(matrix.cycles()) {
        return fail(code, matrix, &[], &format!("count {count:?}, by the model {}", matrix.cycles()));
    }
    tally.compared += 1;
    let mut extended_words = words.clone();
    let k = match parity::orthogonalise(&mut extended_words, n, m, 0) {
        Ok(done) => done.k,
        Err(Refusal::FullAfter { k, .. }) => k,
        Err(refused) => return fail(code, matrix, &[], &format!("orthogonalise: {refused}")),
    };
    let extended = Matrix::read(&extended_words, n, m, k);
    if n <= 40 {
        let mut defined = matrix.clone();
        defined.orthogonalise();
        if extended != defined {
            return fail(code, matrix, &[], "orthogonalising leaves another matrix than the model");
        }
        tally.compared += 1;
    }
    for round in 0..rounds {
        let sent = elimination::combine(&basis, n, || r.chance(500));
        let parity_bits = matrix.parity_bits();
        let message: Vec<u8> = (0..n).filter(|&b| !parity_bits[b]).map(|b| sent[b]).collect();
        let mut word = r.bytes(n);
        let encoded = parity::encode(&words, n, m, 0, &message, &mut word);
        if encoded != Ok(()) || word != sent {
            return fail(code, matrix, &sent, &format!("encoding {message:?}: {encoded:?} {word:?}"));
        }
        tally.compared += 1;
        let yes = parity::verify(&words, n, m, 0, &sent);
        if yes != Ok(true) {
            return fail(code, matrix, &sent, &format!("verifying: {yes:?}"));
        }
        tally.compared += 1;
        let mut received = sent.clone();
        let part = r.pick(&[50, 100, 200, 300, 450, 600, 1000]);
        received.iter_mut().for_each(|byte| {
            if r.chance(part) {
                *byte = 2
            }
        });
        // Now and then a bit is false, so that perhaps no codeword agrees.
        let wrong = r.below(n);
        let damaged = round % 8 == 7;
        if damaged && received[wrong] != 2 {
            received[wrong] ^= 1;
        }
        let due = elimination::decode(matrix, &received);
        if !damaged {
            let agrees = due.as_ref().is_some_and(|due| (0..n).all(|b| due[b] == 2 || due[b] == sent[b]));
            if !agrees {
                return fail(code, matrix, &received, "elimination misses the codeword: a fault of this program");
            }
        }
        held(tally, code, matrix, &words, &received, due.as_deref(), damaged)?;
        let mut longer = received.clone();
        longer.resize(n + k, 2);
        if damaged || round % 16 == 0 {
            // The sent bits that the extended matrix fixes are those that the given one fixes.
            let all = elimination::decode(&extended, &longer);
            if all.as_ref().map(|all| &all[..n]) != due.as_deref() {
                return fail(code, &extended, &longer, "elimination differs between the given and the extended matrix");
            }
            tally.compared += 1;
            held(tally, code, &extended, &extended_words, &longer, all.as_deref(), true)?;
        } else {
            let whole = extended.extend(&sent);
            held(tally, code, &extended, &extended_words, &longer, Some(&whole), false)?;
        }
    }
    Ok(())
}

/// The number of comparisons, and a note on what they met.
pub fn run() -> Result<(usize, String), String> {
    let r = &mut Random::new(5);
    let mut tally = Tally::default();
    for code in published() {
        one_code(r, &mut tally, &code, 240)?;
    }
    for code in random_codes(r) {
        one_code(r, &mut tally, &code, 100)?;
    }
    let Tally { compared, refused, no_codeword, partly, partly_added } = tally;
    let note = format!(
        "{refused} words refused 12, {no_codeword} answered though no codeword agrees, {partly} recovered in part, \
         {partly_added} in the added bits"
    );
    if refused < 100 || no_codeword < 100 || partly < 100 || partly_added < 100 {
        return Err(format!("the words are too much alike, {note}: a fault of this program"));
    }
    Ok((compared, note))
}
