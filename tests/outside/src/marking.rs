//! message_bits beside rank and encode: the zeros are as many as the rank, and of an encoded message's word the bytes at the ones are the message.

use crate::cases;
use crate::codes;
use crate::compare::{compare, describe};
use crate::generate;
use crate::model::{Kind, Lent, Matrix};
use crate::random::Random;

fn fail<T>(what: &str, lent: &Lent) -> Result<T, String> {
    Err(format!("MESSAGE BITS: {what}\n{}", describe(lent)))
}

/// What the matrices were: their number, those whose message stands first, those with bits of either kind among one another, those with
/// parity bits alone and those with none.
#[derive(Default)]
struct Tally {
    matrices: usize,
    first: usize,
    mixed: usize,
    all: usize,
    none: usize,
}

impl Tally {
    fn add(&mut self, marks: &[u8]) {
        self.matrices += 1;
        self.all += !marks.contains(&1) as usize;
        self.none += !marks.contains(&0) as usize;
        self.first += (marks.contains(&0) && marks.contains(&1) && marks.is_sorted_by(|x, y| x >= y)) as usize;
        self.mixed += (!marks.is_sorted() && !marks.is_sorted_by(|x, y| x >= y)) as usize;
    }
}

/// One matrix with k = 0, and a random message: three calls, each compared with the model, then beside each other.
fn one(r: &mut Random, tally: &mut Tally, matrix: &Matrix) -> Result<(), String> {
    let mut lent = cases::lend(Kind::MessageBits, matrix);
    lent.word = r.bytes(matrix.n);
    let (reply, marked) = compare(&lent, r)?;
    let marks = marked.word;
    let zeros = marks.iter().filter(|&&mark| mark == 0).count();
    if reply.number != 0 || marks.iter().any(|&mark| mark > 1) {
        return fail("a mark above 1, or a refusal", &lent);
    }
    lent.kind = Kind::Rank;
    lent.word = Vec::new();
    let (rank, _) = compare(&lent, r)?;
    if rank.values != [zeros as u64] {
        return fail(&format!("{zeros} zeros, and the rank is {:?}", rank.values), &lent);
    }
    lent.kind = Kind::Encode;
    lent.input = r.bits(matrix.n - zeros);
    lent.word = r.bytes(matrix.n);
    let (encoding, encoded) = compare(&lent, r)?;
    let held: Vec<u8> = (0..matrix.n).filter(|&b| marks[b] == 1).map(|b| encoded.word[b]).collect();
    if encoding.number != 0 || held != lent.input {
        return fail("the encoded message does not stand at the ones", &lent);
    }
    tally.add(&marks);
    Ok(())
}

/// The number of calls compared, and a note on the matrices.
pub fn run() -> Result<(usize, String), String> {
    let r = &mut Random::new(31);
    let mut tally = Tally::default();
    for code in codes::published().iter().chain(&codes::random_codes(r)) {
        for _ in 0..20 {
            one(r, &mut tally, &code.matrix)?;
        }
    }
    for _ in 0..6000 {
        let matrix = generate::small_given(r);
        one(r, &mut tally, &matrix)?;
    }
    for _ in 0..300 {
        let (n, m, part) = (r.between(1, 120), r.below(121), r.pick(&[20, 100, 300, 500, 900]));
        let matrix = generate::given(r, n, m, part);
        one(r, &mut tally, &matrix)?;
    }
    let Tally { matrices, first, mixed, all, none } = tally;
    let note = format!(
        "{matrices} matrices: the message stands first in {first}, between parity bits in {mixed}; {all} have parity bits alone, {none} none"
    );
    if [first, mixed, all, none].iter().any(|&number| number < 100) {
        return Err(format!("the matrices are too much alike, {note}: a fault of this program"));
    }
    Ok((3 * matrices, note))
}
