//! Why each erased bit of a word is what it is: certificates, found here and checked on their own, with the library's
//! answers beside them.

use crate::matrix::Matrix;
use parity::Refusal;

/// A set of bits or of checks, of which there are at most 512.
type Set = [u64; 8];

fn has(set: &Set, member: usize) -> bool {
    set[member / 64] >> (member % 64) & 1 == 1
}

fn turn(set: &mut Set, member: usize) {
    set[member / 64] ^= 1 << (member % 64);
}

fn set_of(members: &[usize]) -> Set {
    let mut set = [0; 8];
    members.iter().for_each(|&member| turn(&mut set, member));
    set
}

fn add(set: &mut Set, other: &Set) {
    set.iter_mut().zip(other).for_each(|(word, other)| *word ^= other);
}

fn members(set: &Set) -> Vec<usize> {
    (0..512).filter(|&member| has(set, member)).collect()
}

fn weight(set: &Set) -> u32 {
    set.iter().map(|word| word.count_ones()).sum()
}

/// Why an erased bit has its value, or none.
#[derive(Clone, PartialEq, Eq, Debug)]
pub enum Reason {
    /// At its turn the check had this bit alone erased; `with` are its other bits.
    Solved { turn: usize, check: usize, value: u8, with: Vec<usize> },
    /// The sum of the checks has this bit alone of the erased ones; `with` are its other bits, which were received.
    Summed { checks: Vec<usize>, value: u8, with: Vec<usize> },
    /// The codeword with these ones has this bit, and else erased ones alone: turned by it, a word that agrees still does.
    Unknown { ones: Vec<usize> },
}

/// A certificate for each erased bit: those solved by their turns, and then the others, rising.
pub type Reasons = Vec<(usize, Reason)>;

#[derive(Clone, PartialEq, Eq, Debug)]
pub enum Explanation {
    Agreeing(Reasons),
    /// The sum of the checks has no erased bit, and its received bits, `with`, sum to 1: no codeword agrees.
    Contradicting {
        checks: Vec<usize>,
        with: Vec<usize>,
    },
}

/// A sum of checks: which ones, which bits are in it, and what its received bits sum to.
#[derive(Clone, Default)]
struct Sum {
    checks: Set,
    bits: Set,
    odd: bool,
}

impl Sum {
    fn add(&mut self, other: &Sum) {
        add(&mut self.checks, &other.checks);
        add(&mut self.bits, &other.bits);
        self.odd ^= other.odd;
    }
}

/// Sums of checks, reduced: sum i has the erased bit `pivots[i]`, which no other sum has; those behind have no erased bit.
struct Reduced {
    sums: Vec<Sum>,
    pivots: Vec<usize>,
}

impl Reduced {
    fn new(matrix: &Matrix, word: &[u8], erased: &[usize]) -> Reduced {
        let sum = |check: usize| {
            let bits = matrix.row(check);
            Sum { checks: set_of(&[check]), bits, odd: parity_of(word, &members(&bits)) == 1 }
        };
        let mut reduced = Reduced { sums: (0..matrix.m + matrix.k).map(sum).collect(), pivots: Vec::new() };
        erased.iter().for_each(|&bit| reduced.step(bit));
        reduced
    }

    /// Makes the erased bit a pivot, if some sum behind the pivots has it.
    fn step(&mut self, bit: usize) {
        let done = self.pivots.len();
        let Some(found) = (done..self.sums.len()).find(|&place| has(&self.sums[place].bits, bit)) else { return };
        self.sums.swap(done, found);
        let pivot = self.sums[done].clone();
        for (place, sum) in self.sums.iter_mut().enumerate() {
            if place != done && has(&sum.bits, bit) {
                sum.add(&pivot);
            }
        }
        self.pivots.push(bit);
    }

    /// The sums without an erased bit.
    fn spare(&self) -> &[Sum] {
        &self.sums[self.pivots.len()..]
    }

    /// A sum that says the same of the erased bits by fewer checks, as far as adding a spare sum helps.
    fn shortened(&self, mut sum: Sum) -> Sum {
        let weight_with = |sum: &Sum, spare: &Sum| {
            let mut checks = sum.checks;
            add(&mut checks, &spare.checks);
            weight(&checks)
        };
        while let Some(spare) =
            self.spare().iter().filter(|spare| !spare.odd).min_by_key(|spare| weight_with(&sum, spare))
        {
            if weight_with(&sum, spare) >= weight(&sum.checks) {
                break;
            }
            sum.add(spare);
        }
        sum
    }

    /// Codewords with ones at erased bits alone, one for each erased bit that is no pivot; all others are sums of them.
    fn codewords(&self, erased: &[usize]) -> Vec<Set> {
        let codeword = |&free: &usize| {
            let mut ones = set_of(&[free]);
            let sums = self.pivots.iter().zip(&self.sums);
            sums.filter(|(_, sum)| has(&sum.bits, free)).for_each(|(&pivot, _)| turn(&mut ones, pivot));
            ones
        };
        erased.iter().filter(|bit| !self.pivots.contains(bit)).map(codeword).collect()
    }
}

/// What the bits sum to; an erased one counts as 0.
fn parity_of(word: &[u8], bits: &[usize]) -> u8 {
    bits.iter().map(|&bit| word[bit] & 1).fold(0, |sum, bit| sum ^ bit)
}

/// Finds the certificates for a word of n + k bytes.
pub fn explain(matrix: &Matrix, word: &[u8]) -> Explanation {
    let erased: Vec<usize> = (0..word.len()).filter(|&bit| word[bit] == 2).collect();
    let reduced = Reduced::new(matrix, word, &erased);
    if let Some(sum) = reduced.spare().iter().filter(|sum| sum.odd).min_by_key(|sum| weight(&sum.checks)) {
        let sum = reduced.shortened(sum.clone());
        return Explanation::Contradicting { checks: members(&sum.checks), with: members(&sum.bits) };
    }
    let mut reasons = peel(matrix, word);
    let mut open = set_of(&erased);
    reasons.iter().for_each(|(bit, _)| turn(&mut open, *bit));
    let codewords = reduced.codewords(&erased);
    reasons.extend(members(&open).into_iter().map(|bit| (bit, without_turn(&reduced, &codewords, word, bit))));
    Explanation::Agreeing(reasons)
}

/// Solves checks, the lowest that is ready first, and from there on.
fn peel(matrix: &Matrix, word: &[u8]) -> Reasons {
    let (mut word, mut reasons) = (word.to_vec(), Vec::new());
    let rows = matrix.rows();
    loop {
        let before = reasons.len();
        for (check, bits) in rows.iter().enumerate() {
            let mut erased = bits.iter().filter(|&&bit| word[bit] == 2);
            if let (Some(&bit), None) = (erased.next(), erased.next()) {
                let with: Vec<usize> = bits.iter().copied().filter(|&other| other != bit).collect();
                let value = parity_of(&word, &with);
                word[bit] = value;
                reasons.push((bit, Reason::Solved { turn: reasons.len() + 1, check, value, with }));
            }
        }
        if reasons.len() == before {
            return reasons;
        }
    }
}

/// The reason of an erased bit that no check solved: one in no codeword is a pivot, and alone in its sum.
fn without_turn(reduced: &Reduced, codewords: &[Set], word: &[u8], bit: usize) -> Reason {
    if let Some(ones) = codewords.iter().filter(|ones| has(ones, bit)).min_by_key(|ones| weight(ones)) {
        return Reason::Unknown { ones: members(ones) };
    }
    let sum = reduced.pivots.iter().position(|&pivot| pivot == bit).map(|place| reduced.sums[place].clone());
    let sum = reduced.shortened(sum.unwrap_or_default());
    let with: Vec<usize> = members(&sum.bits).into_iter().filter(|&other| other != bit).collect();
    Reason::Summed { checks: members(&sum.checks), value: parity_of(word, &with), with }
}

/// Checks every certificate by itself, from the matrix anew, and that together they say what the library's `determine`
/// says. Answers the word that they leave, or what does not hold.
pub fn check(matrix: &Matrix, word: &[u8], explanation: &Explanation) -> Result<Vec<u8>, String> {
    let mut determined = word.to_vec();
    let answer = parity::determine(&matrix.words, matrix.n, matrix.m, matrix.k, &mut determined);
    match (explanation, answer) {
        (Explanation::Contradicting { checks, with }, Err(Refusal::Contradiction)) => {
            let received = with.iter().all(|&bit| word[bit] < 2);
            let odd = sum_of(matrix, checks) == Some(set_of(with)) && parity_of(word, with) == 1;
            holds(received && odd && rises(with), "the contradiction")?;
            Ok(word.to_vec())
        }
        (Explanation::Agreeing(reasons), Ok(_)) => {
            let left = follow(matrix, word, reasons)?;
            holds(left == determined, "that determine leaves the same word")?;
            Ok(left)
        }
        (_, Ok(_)) => Err("the certificates say a contradiction, and determine none".to_string()),
        (_, Err(refusal)) => Err(format!("the certificates say otherwise than determine: {refusal}")),
    }
}

fn holds(fact: bool, what: &str) -> Result<(), String> {
    if fact {
        Ok(())
    } else {
        Err(format!("{what} cannot be confirmed"))
    }
}

/// The word after all certificates, each of which is checked at its turn.
fn follow(matrix: &Matrix, word: &[u8], reasons: &Reasons) -> Result<Vec<u8>, String> {
    let (mut left, mut explained) = (word.to_vec(), vec![false; word.len()]);
    for (place, (bit, reason)) in reasons.iter().enumerate() {
        let first = word[*bit] == 2 && !std::mem::replace(&mut explained[*bit], true);
        let right = match reason {
            Reason::Solved { turn, check, value, with } => {
                *turn == place + 1 && rests_on(matrix, &[*check], *bit, with, &left) == Some(*value)
            }
            Reason::Summed { checks, value, with } => rests_on(matrix, checks, *bit, with, word) == Some(*value),
            Reason::Unknown { ones } => ones.contains(bit) && lies_inside(matrix, word, ones),
        };
        holds(first && right, &format!("the certificate of bit {bit}"))?;
        if let Reason::Solved { value, .. } | Reason::Summed { value, .. } = reason {
            left[*bit] = *value;
        }
    }
    let all = (0..word.len()).all(|bit| explained[bit] == (word[bit] == 2));
    holds(all, "a certificate for every erased bit")?;
    Ok(left)
}

/// Whether numbers rise, so that each is there once.
fn rises(numbers: &[usize]) -> bool {
    numbers.is_sorted_by(|one, next| one < next)
}

/// The bits that an odd number of these checks contain, if the checks rise.
fn sum_of(matrix: &Matrix, checks: &[usize]) -> Option<Set> {
    let mut sum = [0; 8];
    checks.iter().for_each(|&check| add(&mut sum, &matrix.row(check)));
    rises(checks).then_some(sum)
}

/// What the bit must be by the sum of the checks, if that has this bit and `with`, which are known, and no other.
fn rests_on(matrix: &Matrix, checks: &[usize], bit: usize, with: &[usize], word: &[u8]) -> Option<u8> {
    let mut due = set_of(with);
    turn(&mut due, bit);
    let known = rises(with) && with.iter().all(|&other| word[other] < 2);
    (known && sum_of(matrix, checks) == Some(due)).then(|| parity_of(word, with))
}

/// Whether the library verifies the word with these ones, and all of them are erased.
fn lies_inside(matrix: &Matrix, word: &[u8], ones: &[usize]) -> bool {
    let mut codeword = vec![0; word.len()];
    ones.iter().for_each(|&bit| codeword[bit] = 1);
    let verified = parity::verify(&matrix.words, matrix.n, matrix.m, matrix.k, &codeword);
    verified == Ok(true) && rises(ones) && ones.iter().all(|&bit| word[bit] == 2)
}
