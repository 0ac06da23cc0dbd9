//! M-110's one door: the three stages, on random and published matrices and on words with and without a codeword that agrees;
//! beside peeling and determining of the same word, and beside the separate elimination decoder.

use crate::cases;
use crate::codes;
use crate::compare::{compare, describe};
use crate::elimination;
use crate::generate;
use crate::library;
use crate::model::{erased, Kind, Lent, Matrix};
use crate::random::Random;

/// At least so many words have to be compared.
const WORDS_LEAST: usize = 20_000;

/// 120 sent bits recovered twice, and 392 added ones.
const RECOVERED_MOST: u64 = 632;

fn fail<T>(what: &str, lent: &Lent, number: u32, values: &[u64]) -> Result<T, String> {
    Err(format!("BLOCKS: {what}; number {number}, values {values:?}\n{}", describe(lent)))
}

/// What the words met.
#[derive(Default)]
struct Tally {
    words: usize,
    /// Answers by the stage named, and refusals 12 by the stage refused.
    stages: [usize; 3],
    refused: [usize; 3],
    /// The copy's orthogonalise was refused 9: answered, and refused 12 by elimination.
    no_room: [usize; 2],
    /// Stage 3 left bits, and stage 3 recovered all.
    left: usize,
    whole: usize,
    most: u64,
}

/// One word: the library against the model's stages with this copy, against the decoder and against determining.
fn held(r: &mut Random, tally: &mut Tally, given: &Matrix, copy: Option<&Matrix>, word: &[u8]) -> Result<(), String> {
    let mut lent = cases::lend(Kind::MendBlock, given);
    lent.word = word.to_vec();
    let mut found = lent.clone();
    let mut values = [r.next(), r.next(), 7];
    let number = library::call(&mut found, &mut values)?;
    let due = given.mend_block(copy, word);
    let by_elimination = elimination::decode(given, word);
    tally.words += 1;
    if values[2] != 7 || found.words != lent.words {
        return fail("a third value, or changed words", &lent, number, &values);
    }
    match due {
        Err(stage) => {
            if number != 12 || found.word != word || by_elimination.is_some() {
                return fail("not refused 12, or the word is changed, or a codeword agrees", &lent, number, &values);
            }
            tally.refused[stage as usize - 1] += 1;
            tally.no_room[1] += (stage == 3 && copy.is_none()) as usize;
        }
        Ok((stage, recovered, after)) => {
            if number != 0 || values[..2] != [stage, recovered] || found.word != after {
                return fail(&format!("not the model's {stage}, {recovered}, {after:?}"), &lent, number, &values);
            }
            if by_elimination != Some(after) || recovered > RECOVERED_MOST {
                return fail("not the word that elimination determines, or too many bits", &lent, number, &values);
            }
            let open = erased(&found.word);
            if stage < 3 && open > 0 {
                return fail("bits remain after stage 1 or 2", &lent, number, &values);
            }
            tally.stages[stage as usize - 1] += 1;
            tally.no_room[0] += (stage == 3 && copy.is_none()) as usize;
            tally.left += (open > 0) as usize;
            tally.whole += (stage == 3 && open == 0) as usize;
            tally.most = tally.most.max(recovered);
        }
    }
    // determining leaves the same word, and is refused the same
    let mut lent = cases::lend(Kind::Determine, given);
    lent.word = word.to_vec();
    let same = library::call(&mut lent, &mut [])?;
    if same != number || lent.word != found.word {
        return fail("determining comes to another word", &lent, same, &[]);
    }
    Ok(())
}

/// A word to receive: a codeword, or one with a few false bits, with some bits erased.
fn received(r: &mut Random, matrix: &Matrix, basis: &[Vec<u8>], way: usize) -> Vec<u8> {
    let mut word = elimination::combine(basis, matrix.n, || r.chance(500));
    let part = r.pick(&[0, 50, 100, 200, 300, 400, 500, 600, 800, 1000]);
    for byte in &mut word {
        if r.chance(part) {
            *byte = 2
        }
    }
    if way % 3 == 2 {
        for _ in 0..r.between(1, 3) {
            let place = r.below(matrix.n);
            if word[place] < 2 {
                word[place] ^= 1;
            }
        }
    }
    word
}

fn one_matrix(r: &mut Random, tally: &mut Tally, given: &Matrix, rounds: usize) -> Result<(), String> {
    let basis = elimination::basis(given);
    let copy = given.copy();
    for way in 0..rounds {
        let word = received(r, given, &basis, way);
        held(r, tally, given, copy.as_ref(), &word)?;
    }
    Ok(())
}

/// Cases of the papers and of bad words, in full: the stages met, and refusals of each of them.
fn known(r: &mut Random) -> Result<usize, String> {
    let twice = Matrix::given(3, &[vec![0, 1], vec![0, 1, 2]]);
    let case_i = Matrix::given(2, &[vec![0], vec![0, 1]]);
    // No two bits share two checks, and each check has two of 0, 1 and 2.
    let triangle = Matrix::given(4, &[vec![0, 1], vec![1, 2], vec![0, 2, 3]]);
    // 0 and 1 share two checks; with their sum as a bit of its own, 2 and 3 are each held to it.
    let pair = Matrix::given(5, &[vec![0, 1, 2], vec![0, 1, 3], vec![2, 3, 4]]);
    let all: [(&str, Matrix, &[u8], u32, &[u64], &[u8]); 10] = [
        ("C by the second stage", cases::c(), &[2, 2, 2, 1, 1, 1, 1], 0, &[2, 4], &[0, 0, 1, 1, 1, 1, 1]),
        ("C by the first", cases::c(), &[0, 0, 2, 1, 2, 1, 1], 0, &[1, 2], &[0, 0, 1, 1, 1, 1, 1]),
        ("nothing erased", cases::c(), &[0, 0, 1, 1, 1, 1, 1], 0, &[1, 0], &[0, 0, 1, 1, 1, 1, 1]),
        ("the first refuses", case_i, &[2, 1], 12, &[], &[2, 1]),
        ("only the second refuses", pair.clone(), &[2, 2, 0, 1, 1], 12, &[], &[2, 2, 0, 1, 1]),
        ("only elimination refuses", triangle.clone(), &[2, 2, 2, 1], 12, &[], &[2, 2, 2, 1]),
        ("no pair to split", triangle, &[2, 2, 2, 0], 0, &[3, 0], &[2, 2, 2, 0]),
        ("elimination leaves two", twice, &[2, 2, 0], 0, &[3, 1], &[2, 2, 0]),
        ("no checks", Matrix::zero(2, 0, 0), &[2, 2], 0, &[3, 0], &[2, 2]),
        ("all erased, one determined", pair, &[2, 2, 2, 2, 2], 0, &[3, 0], &[2, 2, 2, 2, 0]),
    ];
    let number = all.len();
    for (what, matrix, word, due, values, after) in all {
        let mut lent = cases::lend(Kind::MendBlock, &matrix);
        lent.word = word.to_vec();
        let (reply, left) = compare(&lent, r)?;
        if reply.number != due || reply.values != values || left.word != after {
            return fail(what, &lent, reply.number, &reply.values);
        }
    }
    Ok(number)
}

/// The number of words, and a note on what they met.
pub fn run() -> Result<(usize, String), String> {
    let r = &mut Random::new(12);
    let mut tally = Tally::default();
    let cases = known(r)?;
    for code in codes::published() {
        one_matrix(r, &mut tally, &code.matrix, 120)?;
    }
    for code in codes::random_codes(r).into_iter().filter(|code| code.matrix.k == 0) {
        one_matrix(r, &mut tally, &code.matrix, 60)?;
    }
    // Of these the copy's orthogonalise is refused 9.
    for part in [300, 500, 500, 700] {
        let dense = generate::given(r, 120, 120, part);
        one_matrix(r, &mut tally, &dense, 150)?;
        let dense = generate::given(r, 120, 60, part);
        one_matrix(r, &mut tally, &dense, 150)?;
    }
    while tally.words < WORDS_LEAST {
        let matrix = generate::small_given(r);
        one_matrix(r, &mut tally, &matrix, 8)?;
    }
    let Tally { words, stages, refused, no_room, left, whole, most } = tally;
    let note = format!(
        "{words} words; answered by stage {stages:?}, refused 12 by stage {refused:?}; no room for the copy's splits: {} answered, \
         {} refused; elimination left bits of {left} and none of {whole}; {most} bits recovered at most",
        no_room[0], no_room[1]
    );
    if [&stages[..], &refused[..], &no_room[..], &[left, whole]].concat().iter().any(|&number| number < 50) {
        return Err(format!("the words are too much alike, {note}: a fault of this program"));
    }
    Ok((words + cases, note))
}
