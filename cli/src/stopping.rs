//! Small stopping sets: those that the library lists, and where it lists none some that peeling leaves.

use crate::json;
use crate::matrix::Matrix;
use crate::random::Random;
use parity::{Refusal, SET_SIZE_MOST};
use std::collections::BTreeSet;

/// How many stopping sets of a size are kept.
const FIRST: usize = 5;

/// How many searches are made where the library lists none.
pub const SEARCHES: u64 = 400;

/// The stopping sets of a size: how many there are, and the first few.
pub struct Sets {
    pub size: usize,
    pub count: usize,
    pub first: Vec<Vec<u16>>,
}

impl Sets {
    /// The first sets, a blank before each, and dots for more.
    pub fn listed(&self) -> String {
        let list = |set: &Vec<u16>| set.iter().map(u16::to_string).collect::<Vec<_>>().join(" ");
        let first: String = self.first.iter().map(|set| format!(" {{{}}}", list(set))).collect();
        let more = if self.count > self.first.len() { " .." } else { "" };
        format!("{first}{more}")
    }

    pub fn json(&self) -> String {
        let (size, count) = (self.size.to_string(), self.count.to_string());
        json::object(&[("size", size), ("count", count), ("first", json::list(self.first.iter().map(json::list)))])
    }
}

/// The stopping sets of each size that the library lists.
pub fn listed(given: &Matrix) -> Result<Vec<Sets>, Refusal> {
    (1..=SET_SIZE_MOST).map(|size| sets(given, size)).collect()
}

/// The first call says how many places the list needs.
fn sets(given: &Matrix, size: usize) -> Result<Sets, Refusal> {
    let mut places = match parity::stopping_sets(&given.words, given.n, given.m, 0, size, &mut []) {
        Err(Refusal::SetsShort { needed }) => vec![0; needed],
        Err(refusal) => return Err(refusal),
        Ok(_) => Vec::new(),
    };
    let all = parity::stopping_sets(&given.words, given.n, given.m, 0, size, &mut places)?;
    Ok(Sets { size, count: all.len(), first: all.take(FIRST).map(<[u16]>::to_vec).collect() })
}

/// The smallest stopping sets that are found, by their bits; there may be smaller ones. None where none but the empty
/// one is: then peeling recovers every loss.
pub fn found(given: &Matrix) -> Result<Vec<Vec<usize>>, Refusal> {
    let whole = residue(given, &(0..given.n).collect::<Vec<_>>())?;
    let mut least = BTreeSet::new();
    for number in 0..SEARCHES {
        let set = minimal(given, whole.clone(), &mut Random::of(&[number]))?;
        if !set.is_empty() && is_stopping(given, &set)? {
            least.insert((set.len(), set));
        }
    }
    let size = least.first().map_or(0, |(size, _)| *size);
    Ok(least.into_iter().take_while(|(length, _)| *length == size).map(|(_, set)| set).collect())
}

/// A stopping set within another in which no smaller one is: its bits are received one after the other, in an order left
/// to chance, wherever peeling leaves some bit still.
fn minimal(given: &Matrix, mut set: Vec<usize>, random: &mut Random) -> Result<Vec<usize>, Refusal> {
    let mut order = set.clone();
    while !order.is_empty() {
        let bit = order.swap_remove(random.below(order.len() as u64) as usize);
        let others: Vec<usize> = set.iter().copied().filter(|&other| other != bit).collect();
        let left = residue(given, &others)?;
        if !left.is_empty() {
            set = left;
        }
    }
    Ok(set)
}

/// What peeling leaves of these bits where they alone are erased: the largest stopping set among them.
fn residue(given: &Matrix, erased: &[usize]) -> Result<Vec<usize>, Refusal> {
    let mut word = vec![0; given.n];
    erased.iter().for_each(|&bit| word[bit] = 2);
    parity::peel(&given.words, given.n, given.m, 0, &mut word)?;
    Ok(erased.iter().copied().filter(|&bit| word[bit] == 2).collect())
}

fn is_stopping(given: &Matrix, set: &[usize]) -> Result<bool, Refusal> {
    let mut marks = vec![0; given.n];
    set.iter().for_each(|&bit| marks[bit] = 1);
    parity::is_stopping(&given.words, given.n, given.m, 0, &marks)
}
