//! M-105's determining, against the separate elimination decoder: on random and published matrices, with and without added
//! bits, and on words with and without a codeword that agrees. What 02 says of it beside peeling is held to as well.

use crate::cases;
use crate::codes;
use crate::compare::{compare, describe};
use crate::elimination;
use crate::generate;
use crate::model::{erased, losses, Kind, Lent, Matrix, Reply};
use crate::random::Random;

/// At least so many words have to be compared with the decoder.
const WORDS_LEAST: usize = 20_000;

fn fail<T>(what: &str, lent: &Lent, reply: &Reply) -> Result<T, String> {
    Err(format!("DETERMINING: {what}; number {}, values {:?}\n{}", reply.number, reply.values, describe(lent)))
}

/// What the words met.
#[derive(Default)]
struct Tally {
    words: usize,
    /// Words with k above 0.
    extended: usize,
    /// No codeword agrees, of these peeling answers, and of these there is no erased bit.
    none: usize,
    peeling_answers: usize,
    nothing_erased: usize,
    /// Some codeword agrees: bits are recovered that peeling leaves, all bits are recovered, bits are left.
    more: usize,
    whole: usize,
    left: usize,
}

/// The library and the model compared on one call.
fn one(r: &mut Random, kind: Kind, matrix: &Matrix, word: &[u8]) -> Result<(Lent, Reply, Vec<u8>), String> {
    let mut lent = cases::lend(kind, matrix);
    lent.word = word.to_vec();
    let (reply, after) = compare(&lent, r)?;
    Ok((lent, reply, after.word))
}

/// Determines a word: the decoder's word and the four numbers of it, or 12; beside peeling of the same word; and once more.
fn held(r: &mut Random, tally: &mut Tally, matrix: &Matrix, word: &[u8]) -> Result<Option<Vec<u8>>, String> {
    let due = elimination::decode(matrix, word);
    let (lent, reply, after) = one(r, Kind::Determine, matrix, word)?;
    let (_, peeling, peeled) = one(r, Kind::Peel, matrix, word)?;
    tally.words += 1;
    tally.extended += (matrix.k > 0) as usize;
    let Some(due) = due else {
        if reply.number != 12 || after != word {
            return fail("no codeword agrees, yet it is not refused 12, or the word is changed", &lent, &reply);
        }
        tally.none += 1;
        tally.peeling_answers += (peeling.number == 0) as usize;
        tally.nothing_erased += (erased(word) == 0) as usize;
        return Ok(None);
    };
    if reply.number != 0 || after != due || reply.values != losses(matrix.n, word, &due) {
        return fail("not the word that elimination determines, or not its numbers", &lent, &reply);
    }
    if peeling.number != 0 || (0..word.len()).any(|b| peeled[b] != 2 && peeled[b] != after[b]) {
        return fail("peeling recovers another value, or is refused", &lent, &reply);
    }
    if erased(word) == 0 && !matrix.is_codeword(word) {
        return fail("answered with no erased bit and no codeword", &lent, &reply);
    }
    let (lent, again, twice) = one(r, Kind::Determine, matrix, &after)?;
    if twice != after || again.values[..] != [0, 0, reply.values[2], reply.values[3]] {
        return fail("determining twice changes something", &lent, &again);
    }
    tally.more += (erased(&after) < erased(&peeled)) as usize;
    tally.whole += (erased(word) > 0 && erased(&after) == 0) as usize;
    tally.left += (erased(&after) > 0) as usize;
    Ok(Some(after))
}

/// A word to receive: a codeword, or one with a few false bits, with some bits erased.
fn received(r: &mut Random, matrix: &Matrix, basis: &[Vec<u8>], way: usize) -> Vec<u8> {
    let bits = matrix.bits();
    let mut word = elimination::combine(basis, bits, || r.chance(500));
    let part = r.pick(&[0, 50, 100, 200, 300, 450, 600, 800, 1000]);
    for byte in &mut word {
        if r.chance(part) {
            *byte = 2
        }
    }
    if way % 3 == 1 {
        word[matrix.n..].fill(2);
    }
    if way % 4 == 3 {
        for _ in 0..r.between(1, 3) {
            let place = r.below(bits);
            if word[place] < 2 {
                word[place] ^= 1;
            }
        }
    }
    word
}

/// Words of one matrix, and the same sent bits with the matrix orthogonalised: the sent bits determined are the same.
fn one_matrix(r: &mut Random, tally: &mut Tally, given: &Matrix, rounds: usize) -> Result<(), String> {
    let basis = elimination::basis(given);
    let mut extended = given.clone();
    extended.orthogonalise();
    for way in 0..rounds {
        let word = received(r, given, &basis, way);
        let by_given = held(r, tally, given, &word)?;
        if given.k == 0 && way % 4 < 2 {
            let mut longer = word.clone();
            longer.resize(extended.bits(), 2);
            let by_extended = held(r, tally, &extended, &longer)?;
            if by_extended.map(|after| after[..given.n].to_vec()) != by_given {
                return Err(format!(
                    "DETERMINING: the given and the extended matrix differ in the sent bits of {word:?}\n{given:?}"
                ));
            }
        }
    }
    Ok(())
}

/// Matrices with n + k = 512, words of all kinds.
fn widest(r: &mut Random, tally: &mut Tally) -> Result<(), String> {
    let mut dense = generate::given(r, 120, 120, 500);
    dense.orthogonalise();
    for matrix in [generate::most_ones(), dense, generate::triples(r, 120, 20, 392)] {
        let basis = elimination::basis(&matrix);
        for way in 0..60 {
            let word = received(r, &matrix, &basis, way);
            held(r, tally, &matrix, &word)?;
        }
        held(r, tally, &matrix, &vec![2; matrix.bits()])?;
    }
    Ok(())
}

/// Cases of the papers and of bad words.
fn known(r: &mut Random) -> Result<usize, String> {
    let twice = Matrix::given(3, &[vec![0, 1], vec![0, 1, 2]]);
    let none = Matrix::zero(2, 0, 0);
    let all: [(&str, Matrix, &[u8], u32, &[u64], &[u8]); 6] = [
        ("C", cases::c(), &[2, 2, 2, 1, 1, 1, 1], 0, &[3, 0, 0, 0], &[0, 0, 1, 1, 1, 1, 1]),
        ("peeling answers", twice.clone(), &[2, 2, 1], 12, &[], &[2, 2, 1]),
        ("two are left", twice.clone(), &[2, 2, 0], 0, &[0, 0, 2, 0], &[2, 2, 0]),
        ("nothing erased, no codeword", twice.clone(), &[1, 0, 0], 12, &[], &[1, 0, 0]),
        ("nothing erased, a codeword", twice, &[1, 1, 0], 0, &[0, 0, 0, 0], &[1, 1, 0]),
        ("no checks", none, &[2, 2], 0, &[0, 0, 2, 0], &[2, 2]),
    ];
    let number = all.len();
    for (what, matrix, word, due, values, after) in all {
        let (lent, reply, left) = one(r, Kind::Determine, &matrix, word)?;
        if reply.number != due || reply.values != values || left != after {
            return fail(what, &lent, &reply);
        }
    }
    Ok(number)
}

/// The number of words, and a note on what they met.
pub fn run() -> Result<(usize, String), String> {
    let r = &mut Random::new(11);
    let mut tally = Tally::default();
    let cases = known(r)?;
    for code in codes::published() {
        one_matrix(r, &mut tally, &code.matrix, 120)?;
    }
    for code in codes::random_codes(r) {
        one_matrix(r, &mut tally, &code.matrix, 60)?;
    }
    widest(r, &mut tally)?;
    while tally.words < WORDS_LEAST {
        let matrix = generate::small(r);
        one_matrix(r, &mut tally, &matrix, 8)?;
    }
    let Tally { words, extended, none, peeling_answers, nothing_erased, more, whole, left } = tally;
    let note = format!(
        "{words} words, {extended} with k above 0; no codeword agrees with {none}, of which peeling answers {peeling_answers} and \
         {nothing_erased} have no erased bit; {more} recovered further than by peeling, {whole} wholly, {left} leave bits"
    );
    if [extended, none, peeling_answers, nothing_erased, more, whole, left].iter().any(|&number| number < 100) {
        return Err(format!("the words are too much alike, {note}: a fault of this program"));
    }
    Ok((words + cases, note))
}
