//! M-109's small stopping sets on matrices of all sizes, with slices of every length at the edges, and beside the stopping test and
//! peeling.

use crate::cases;
use crate::codes;
use crate::compare::{compare, describe};
use crate::generate;
use crate::model::{Kind, Lent, Matrix};
use crate::random::Random;

/// What the calls met.
#[derive(Default)]
struct Tally {
    calls: usize,
    /// Calls with k above 0, sets listed, and the most of one call.
    extended: usize,
    sets: usize,
    most: usize,
    /// Sets that peeling leaves whole, and other sets of t sent bits, of which it recovers some.
    left: usize,
    recovered: usize,
}

fn fail<T>(what: &str, lent: &Lent) -> Result<T, String> {
    Err(format!("STOPPING SETS: {what}\n{}", describe(lent)))
}

/// One call on a slice of this length.
fn one(r: &mut Random, tally: &mut Tally, matrix: &Matrix, t: usize, length: usize) -> Result<(u32, Lent), String> {
    let mut lent = cases::lend(Kind::StoppingSets, matrix);
    lent.t = t;
    let fill = r.next() as u16;
    lent.sets = (0..length).map(|place| fill.wrapping_add(place as u16)).collect();
    let (reply, after) = compare(&lent, r)?;
    tally.calls += 1;
    tally.extended += (matrix.k > 0) as usize;
    if reply.number != 0 && after.sets != lent.sets {
        return fail("a refusal changes the slice", &lent);
    }
    Ok((reply.number, after))
}

/// All lengths at the edges: none, one too short, exact, longer.
fn lengths(r: &mut Random, tally: &mut Tally, matrix: &Matrix, t: usize) -> Result<Vec<u16>, String> {
    let due = matrix.stopping_sets(t);
    let needed = due.len();
    tally.sets += needed / t;
    tally.most = tally.most.max(needed / t);
    for short in [0, needed / 2, needed.saturating_sub(1)] {
        let (number, after) = one(r, tally, matrix, t, short)?;
        if number != (if short < needed { 19 } else { 0 }) {
            return fail("the length needed is another", &after);
        }
    }
    for more in [0, 1, 7] {
        let (number, after) = one(r, tally, matrix, t, needed + more)?;
        if number != 0 || after.sets[..needed] != due {
            return fail("not listed though there is room", &after);
        }
    }
    Ok(due)
}

/// Each set of t of the n sent bits of a small matrix, erased alone from the zero word: peeling leaves it whole exactly if it is listed,
/// and the stopping test says yes to it exactly then.
fn beside_peeling(r: &mut Random, tally: &mut Tally, matrix: &Matrix, t: usize, listed: &[u16]) -> Result<(), String> {
    let sets: Vec<&[u16]> = listed.chunks(t).collect();
    for number in (0..1usize << matrix.n).filter(|number| number.count_ones() as usize == t) {
        let members: Vec<u16> = (0..matrix.n).filter(|&b| number >> b & 1 == 1).map(|b| b as u16).collect();
        let is_listed = sets.contains(&members.as_slice());
        let byte = |value: u8| -> Vec<u8> {
            (0..matrix.bits()).map(|b| if members.contains(&(b as u16)) { value } else { 0 }).collect()
        };
        let mut lent = cases::lend(Kind::Peel, matrix);
        lent.word = byte(2);
        let (reply, _) = compare(&lent, r)?;
        if (reply.values[2] as usize == t) != is_listed {
            return fail("peeling leaves another set whole", &lent);
        }
        let mut lent = cases::lend(Kind::IsStopping, matrix);
        lent.input = byte(1);
        let (reply, _) = compare(&lent, r)?;
        if (reply.values[0] == 1) != is_listed {
            return fail("the stopping test says otherwise", &lent);
        }
        tally.left += is_listed as usize;
        tally.recovered += !is_listed as usize;
    }
    Ok(())
}

/// Sizes that are refused, on slices of several lengths.
fn bad_sizes(r: &mut Random, tally: &mut Tally) -> Result<(), String> {
    let sizes = [0, 5, 6, 64, 120, 255, 256, 257, 260, 1 << 32, (1 << 32) + 3, 1 << 63, usize::MAX - 3, usize::MAX];
    for matrix in [cases::a(), Matrix::zero(120, 0, 0), generate::most_ones()] {
        for size in sizes {
            for length in [0, 4, 100] {
                let (number, after) = one(r, tally, &matrix, size, length)?;
                if number != 18 {
                    return fail("a size outside 1 to 4 is not refused 18", &after);
                }
            }
        }
    }
    Ok(())
}

/// Without a check every set is listed: of n below t none, of 120 bits millions, for which short slices are refused at once.
fn every_set(r: &mut Random, tally: &mut Tally) -> Result<(), String> {
    let choose = |n: usize, t: usize| (0..t).fold(1, |product, i| product * n.saturating_sub(i) / (i + 1));
    for n in [1, 2, 3, 4, 5, 63, 64, 65, 119, 120] {
        for t in 1..=(if n > 65 { 3 } else { 4 }) {
            let listed = lengths(r, tally, &Matrix::zero(n, 0, 0), t)?;
            if listed.len() != t * choose(n, t) {
                return Err(format!("STOPPING SETS: not every set of {t} of {n} bits without a check"));
            }
        }
    }
    for length in [0, 1, 1000] {
        let (number, after) = one(r, tally, &Matrix::zero(120, 0, 0), 4, length)?;
        if number != 19 {
            return fail("32,858,280 places are needed", &after);
        }
    }
    Ok(())
}

/// The number of comparisons, and a note on what they met.
pub fn run() -> Result<(usize, String), String> {
    let r = &mut Random::new(12);
    let mut tally = Tally::default();
    for (name, mut matrix, given, orthogonalised) in cases::known_sets() {
        for due in [given, orthogonalised] {
            for t in 1..=4 {
                if lengths(r, &mut tally, &matrix, t)?.len() != t * due[t - 1] {
                    return Err(format!("STOPPING SETS: case {name}, size {t}: not {}", due[t - 1]));
                }
            }
            matrix.orthogonalise();
        }
    }
    bad_sizes(r, &mut tally)?;
    every_set(r, &mut tally)?;
    // Large matrices, given and orthogonalised; checks up to number 511.
    let mut dense = generate::given(r, 120, 120, 500);
    let mut large =
        vec![generate::sparse(r), generate::given(r, 120, 120, 25), generate::given(r, 120, 60, 30), dense.clone()];
    large.push(cases::l(23));
    for matrix in &mut large.clone() {
        matrix.orthogonalise();
        large.push(matrix.clone());
    }
    dense.rows[119] = vec![false; 120];
    large.extend([dense, generate::most_ones(), generate::triples(r, 120, 20, 392), generate::triples(r, 40, 20, 391)]);
    for matrix in &large {
        for t in 1..=3 {
            lengths(r, &mut tally, matrix, t)?;
        }
    }
    for matrix in [&large[0], &large[1], &large[3], &large[5], &large[8]] {
        lengths(r, &mut tally, matrix, 4)?;
    }
    for code in codes::published() {
        let mut matrix = code.matrix.clone();
        for t in 1..=2 {
            lengths(r, &mut tally, &matrix, t)?;
            matrix.orthogonalise();
            lengths(r, &mut tally, &matrix, t)?;
        }
    }
    for _ in 0..400 {
        let matrix = generate::small(r);
        for t in 1..=4 {
            let listed = lengths(r, &mut tally, &matrix, t)?;
            if matrix.n <= 9 {
                beside_peeling(r, &mut tally, &matrix, t, &listed)?;
            }
        }
    }
    let Tally { calls, extended, sets, most, left, recovered } = tally;
    let note = format!(
        "{calls} calls, {extended} with k above 0, {sets} sets, {most} at most in one call; peeling leaves {left} sets whole and recovers bits of \
         {recovered} others"
    );
    if [calls, extended, sets, left, recovered].iter().any(|&number| number < 1000) {
        return Err(format!("the matrices are too much alike, {note}: a fault of this program"));
    }
    Ok((calls + 2 * (left + recovered), note))
}
