//! M-100's four numbers of peeling, where the sent bits end at a word's edge and elsewhere: they are the model's, and
//! recovered and left add up to what was erased, of the sent bits and of the added ones.

use crate::calls::erase;
use crate::cases;
use crate::compare::{compare_with, describe};
use crate::elimination;
use crate::generate;
use crate::model::{erased, Kind, Matrix};
use crate::random::Random;

/// At least so many words with erased bits have to be compared.
const WORDS_LEAST: usize = 20_000;

/// Matrices that are alike, and how many words of each are compared.
struct Group {
    name: String,
    matrices: Vec<Matrix>,
    words: usize,
}

/// A matrix with this n and k above 0: split, orthogonalised, or with added checks that no split made.
fn extended(r: &mut Random, n: usize, way: usize) -> Matrix {
    loop {
        let (m, part) = (r.between(4, 40), r.pick(&[40, 80, 150]));
        let mut matrix = generate::given(r, n, m, part);
        match way % 3 {
            0 => {
                let most = r.between(1, 12);
                generate::split_some(r, &mut matrix, most)
            }
            1 => {
                matrix.orthogonalise();
            }
            _ => {
                for _ in 0..r.between(1, 70) {
                    generate::add_triple(r, &mut matrix, 100);
                }
            }
        }
        if matrix.k > 0 && matrix.bits() <= 250 {
            return matrix;
        }
    }
}

fn groups(r: &mut Random) -> Vec<Group> {
    let mut all = Vec::new();
    let mut add = |name: String, matrices: Vec<Matrix>, words: usize| all.push(Group { name, matrices, words });
    for n in [63, 64, 65, 120] {
        add(format!("n = {n}, k above 0"), (0..30).map(|way| extended(r, n, way)).collect(), 130);
    }
    let mut dense = generate::given(r, 120, 120, 500);
    dense.orthogonalise();
    add("n + k = 512".to_string(), vec![generate::most_ones(), dense, generate::triples(r, 120, 20, 392)], 150);
    let mut given: Vec<Matrix> = [1, 63, 64, 65, 120].map(|n| generate::given(r, n, 30, 80)).to_vec();
    given.extend((0..100).map(|_| generate::small_given(r)));
    add("k = 0".to_string(), given, 40);
    let mut small = Vec::new();
    while small.len() < 200 {
        let matrix = generate::small(r);
        if matrix.k > 0 {
            small.push(matrix);
        }
    }
    add("small, k above 0".to_string(), small, 40);
    all
}

/// Erases sent bits, added bits, both, or only bits beside the first added one.
fn erase_some(r: &mut Random, word: &mut [u8], n: usize) {
    match r.below(8) {
        0 => erase(r, &mut word[..n], n),
        1 => erase(r, &mut word[n..], 0),
        2 => {
            let (first, end) = (n.saturating_sub(2), word.len().min(n + 2));
            word[first..end].iter_mut().for_each(|byte| {
                if r.chance(700) {
                    *byte = 2
                }
            });
        }
        _ => erase(r, word, n),
    }
}

/// How many words with erased bits were compared, and of how many each of the four numbers is above 0.
#[derive(Default)]
struct Tally {
    words: usize,
    above: [usize; 4],
}

/// Peels a word that was got from a codeword, with room for all values.
fn one_word(r: &mut Random, matrix: &Matrix, word: Vec<u8>, tally: &mut Tally) -> Result<(), String> {
    let n = matrix.n;
    let mut lent = cases::lend(Kind::Peel, matrix);
    lent.word = word;
    let before = (0..r.between(parity::VALUES_MOST, 7)).map(|_| r.next()).collect();
    // The values that the library carries are those of the model's reply.
    let (reply, _) = compare_with(&lent, before)?;
    let fail = |what: &str| Err(format!("THE FOUR NUMBERS {:?}: {what}\n{}", reply.values, describe(&lent)));
    let [recovered_sent, recovered_added, left_sent, left_added] = reply.values[..] else {
        return fail("a word got from a codeword is not answered with four numbers");
    };
    if recovered_sent + left_sent != erased(&lent.word[..n]) as u64 {
        return fail("recovered and left are not the erased sent bits");
    }
    if recovered_added + left_added != erased(&lent.word[n..]) as u64 {
        return fail("recovered and left are not the erased added bits");
    }
    if matrix.k == 0 && (recovered_added, left_added) != (0, 0) {
        return fail("there are no added bits");
    }
    tally.words += lent.word.contains(&2) as usize;
    for (above, number) in tally.above.iter_mut().zip(&reply.values) {
        *above += (*number > 0) as usize;
    }
    Ok(())
}

/// Prints a line for each group; gives the number of words with erased bits that were compared.
pub fn run() -> Result<usize, String> {
    let r = &mut Random::new(10);
    let mut total = 0;
    for group in groups(r) {
        let mut tally = Tally::default();
        let zero = group.matrices.iter().all(|matrix| matrix.k == 0);
        for matrix in &group.matrices {
            let basis = elimination::basis(matrix);
            for _ in 0..group.words {
                let mut word = elimination::combine(&basis, matrix.bits(), || r.chance(500));
                erase_some(r, &mut word, matrix.n);
                one_word(r, matrix, word, &mut tally)?;
            }
        }
        let Tally { words, above } = tally;
        println!(
            "losses, {}: {words} words with erased bits; recovered {} times sent and {} times added bits, left {} and {} times",
            group.name, above[0], above[1], above[2], above[3]
        );
        let few = |number: usize| number < words / 20;
        if few(above[0]) || few(above[2]) || !zero && (few(above[1]) || few(above[3])) {
            return Err(format!("the words of {} are too much alike: a fault of this program", group.name));
        }
        total += words;
    }
    if total < WORDS_LEAST {
        return Err(format!(
            "{total} words with erased bits were compared, and {WORDS_LEAST} are due: a fault of this program"
        ));
    }
    Ok(total)
}
