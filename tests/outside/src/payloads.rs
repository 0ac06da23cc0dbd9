//! The bits of NaNs, which no definition tells apart. Every float slice that M-112's and M-113's calls are lent holds NaNs
//! of many payloads, signalling and quiet, infinities, denormals and zeros of both signs. A refusal leaves every bit of
//! every slice, whatever its cause; an answer leaves what it does not write, and nothing that it writes comes of a float
//! that counts for nothing.

use crate::compare::{compare, describe};
use crate::elimination;
use crate::generate;
use crate::library;
use crate::min_sum::{LIMIT, MESSAGES};
use crate::model::{Lent, Matrix};
use crate::random::Random;
use crate::ranges;
use crate::soft::{self, Mix};

/// So many refusals of `min_sum` are made for each cause, and so many answers; and so many calls on ranges for each outcome.
const EACH: usize = 120;
const ANSWERS: usize = 300;
const RANGES_EACH: usize = 800;

/// At least so many NaNs of either kind have to be left in each slice.
const NANS_LEAST: usize = 2_000;

/// The bit that tells a quiet NaN from a signalling one.
const QUIET: usize = 1 << 22;

/// A cause of `min_sum`; another length is a cause in each of four slices.
#[derive(Clone, Copy, Debug)]
enum Cause {
    Matrix,
    Numbers,
    Outside,
    RuleA,
    Rounds,
    Word,
    Floats,
    MessageBytes,
    MessageFloats,
    Byte,
    Float,
}

const CAUSES: [(Cause, u32); 11] = [
    (Cause::Matrix, 1),
    (Cause::Numbers, 2),
    (Cause::Outside, 3),
    (Cause::RuleA, 4),
    (Cause::Rounds, 22),
    (Cause::Word, 10),
    (Cause::Floats, 10),
    (Cause::MessageBytes, 10),
    (Cause::MessageFloats, 10),
    (Cause::Byte, 11),
    (Cause::Float, 23),
];

/// What a call on ranges comes to.
#[derive(Clone, Copy, Debug)]
enum Ranged {
    Differ,
    Many,
    Low,
    High,
    Crossed,
    SureZero,
    Within,
}

const RANGED: [(Ranged, u32); 7] = [
    (Ranged::Differ, 10),
    (Ranged::Many, 10),
    (Ranged::Low, 23),
    (Ranged::High, 23),
    (Ranged::Crossed, 24),
    (Ranged::SureZero, 0),
    (Ranged::Within, 0),
];

const SLICES: [&str; 5] = ["floats", "message_floats", "lows", "highs", "ends"];

/// By slice: the signalling and the quiet NaNs that a call had to leave.
#[derive(Default)]
struct Tally([[usize; 2]; 5]);

impl Tally {
    fn left(&mut self, slice: usize, floats: &[u32]) {
        for bits in floats.iter().map(|float| *float as usize & 0x7FFF_FFFF).filter(|bits| *bits > 0x7F80_0000) {
            self.0[slice][(bits & QUIET != 0) as usize] += 1;
        }
    }
}

// Floats, as their bits

fn nan(r: &mut Random) -> u32 {
    let payload = if r.chance(500) { r.between(1, QUIET - 1) } else { QUIET + r.below(QUIET) };
    (r.below(2) as u32) << 31 | 0x7F80_0000 | payload as u32
}

/// A float of any kind, mostly a NaN.
fn any(r: &mut Random) -> u32 {
    let sign = (r.below(2) as u32) << 31;
    match r.below(8) {
        0 => r.next() as u32,
        1 => sign | r.pick(&[0, 0x7F80_0000]),
        2 => sign | r.between(1, (1 << 23) - 1) as u32,
        _ => nan(r),
    }
}

fn many(r: &mut Random, length: usize) -> Vec<u32> {
    (0..length).map(|_| any(r)).collect()
}

/// A float that is refused, mostly a NaN.
fn unfit(r: &mut Random) -> u32 {
    if r.chance(700) {
        nan(r)
    } else {
        soft::unfit(r)
    }
}

// min_sum

/// A call that is answered. Floats at bytes other than 3 and those of the messages are any.
fn lend(r: &mut Random, pool: &[u32], matrix: &Matrix) -> Lent {
    let codeword = elimination::combine(&elimination::basis(matrix), matrix.bits(), || r.chance(500));
    let mut lent = soft::lend(r, matrix, &codeword, Mix::Mixed);
    lent.rounds = r.between(1, 4);
    for b in 0..lent.word.len() {
        if lent.word[b] != 3 {
            lent.floats[b] = any(r);
        }
    }
    let start = r.below(pool.len() - MESSAGES);
    lent.message_floats.copy_from_slice(&pool[start..start + MESSAGES]);
    lent
}

/// Makes the call refused for this cause; the matrix has added bits, and no bit 511.
fn spoil(r: &mut Random, cause: Cause, lent: &mut Lent) {
    let place = r.below(lent.word.len());
    let other = |r: &mut Random, length: usize| r.pick(&[0, length - 1, length + 1]);
    match cause {
        Cause::Matrix => lent.words.resize(r.pick(&[0, 4095, 4097]), 0),
        Cause::Numbers => match r.below(3) {
            0 => lent.n = r.pick(&[0, 121, usize::MAX]),
            1 => lent.m = r.pick(&[121, usize::MAX]),
            _ => lent.k = r.pick(&[393, usize::MAX]),
        },
        Cause::Outside => lent.words[8 * r.below(512) + 7] |= 1 << 63,
        Cause::RuleA => lent.words[8 * (lent.m + r.below(lent.k))..][..8].fill(0),
        Cause::Rounds => lent.rounds = r.pick(&[0, 513, usize::MAX]),
        Cause::Word => lent.word.resize(other(r, lent.word.len()), 3),
        Cause::Floats => lent.floats.resize(other(r, lent.floats.len()), nan(r)),
        Cause::MessageBytes => lent.message_bytes.resize(other(r, MESSAGES), 3),
        Cause::MessageFloats => lent.message_floats.resize(other(r, MESSAGES), nan(r)),
        Cause::Byte => lent.word[place] = r.between(4, 255) as u8,
        Cause::Float => (lent.word[place], lent.floats[place]) = (3, unfit(r)),
    }
}

fn failed(why: &str, lent: &Lent) -> String {
    format!("PAYLOADS: {why}\n{}", describe(lent))
}

/// A refusal: soft floats are any too, for no cause before 23 looks at them.
fn refusal(r: &mut Random, tally: &mut Tally, mut lent: Lent, cause: Cause, number: u32) -> Result<(), String> {
    lent.floats.iter_mut().for_each(|float| *float = any(r));
    spoil(r, cause, &mut lent);
    let (reply, after) = compare(&lent, r)?;
    if reply.number != number {
        return Err(failed(&format!("{} returned for {cause:?}", reply.number), &lent));
    }
    if after != lent {
        return Err(failed(&format!("what was lent is changed by {number}"), &lent));
    }
    tally.left(0, &lent.floats);
    tally.left(1, &lent.message_floats);
    Ok(())
}

/// An answer, and the same with plus zeros in place of the floats that count for nothing.
fn answer(r: &mut Random, lent: &Lent) -> Result<(), String> {
    let mut plain = lent.clone();
    plain.message_floats.fill(0);
    for b in 0..lent.word.len() {
        if lent.word[b] != 3 {
            plain.floats[b] = 0;
        }
    }
    let (reply, after) = compare(lent, r)?;
    let (_, same) = compare(&plain, r)?;
    if reply.number != 0 || after != same {
        return Err(failed("a float at a byte other than 3, or of a message, counts", lent));
    }
    let mut results = after.word.iter().zip(&after.floats);
    if after.message_floats.iter().any(|float| *float != 0) || results.any(|(byte, float)| *byte != 3 && *float != 0) {
        return Err(failed("a float is not plus zero", lent));
    }
    Ok(())
}

fn min_sum(r: &mut Random, tally: &mut Tally) -> Result<usize, String> {
    let pool = many(r, 2 * MESSAGES);
    let matrices: Vec<Matrix> =
        std::iter::repeat_with(|| generate::small(r)).filter(|matrix| matrix.k > 0).take(40).collect();
    for (cause, number) in CAUSES {
        for i in 0..EACH {
            let lent = lend(r, &pool, &matrices[i % matrices.len()]);
            refusal(r, tally, lent, cause, number)?;
        }
    }
    for i in 0..ANSWERS {
        let lent = lend(r, &pool, &matrices[i % matrices.len()]);
        answer(r, &lent)?;
    }
    Ok(CAUSES.len() * EACH + 2 * ANSWERS)
}

// min_sum_range

/// Ranges that the call answers so, or refuses so.
fn ranges_for(r: &mut Random, ranged: Ranged) -> ranges::Lent {
    let size = r.between(1, 24);
    let mut lent = ranges::check(r, size);
    let place = r.below(size);
    match ranged {
        Ranged::Differ => {
            let other = r.pick(&[0, size - 1, size + 1, 511]);
            (lent.lows, lent.highs) = (many(r, size), many(r, other));
            if r.chance(500) {
                std::mem::swap(&mut lent.lows, &mut lent.highs);
            }
        }
        Ranged::Many => {
            let size = r.pick(&[512, 513, 600]);
            (lent.lows, lent.highs) = (many(r, size), many(r, size));
        }
        Ranged::Low => {
            (lent.lows, lent.highs) = (many(r, size), many(r, size));
            lent.lows[place] = unfit(r);
        }
        Ranged::High => {
            lent.highs = many(r, size);
            lent.highs[place] = unfit(r);
        }
        Ranged::Crossed => {
            let limit = LIMIT.to_bits();
            (lent.lows[place], lent.highs[place]) =
                r.pick(&[(1, 0), (1, 0x8000_0000), (0x8000_0000, 0x8000_0001), (limit, limit - 1), (limit, 1 << 31)]);
        }
        Ranged::SureZero => lent = ranges::Lent { lows: Vec::new(), highs: Vec::new() },
        Ranged::Within => {}
    }
    lent
}

fn range(r: &mut Random, tally: &mut Tally, ranged: Ranged, number: u32) -> Result<(), String> {
    let lent = ranges_for(r, ranged);
    let room = r.below(9);
    let ends = many(r, room);
    let mut due_ends = ends.clone();
    let (_, _, range) = ranges::due(&lent);
    due_ends.iter_mut().zip(&range).for_each(|(place, end)| *place = end.to_bits());
    let (mut found, mut found_ends) = (lent.clone(), ends.clone());
    let (returned, _) = library::range(&mut found.lows, &mut found.highs, &mut found_ends, &mut [])
        .map_err(|why| ranges::failed(&why, &lent))?;
    if returned != number || range.is_empty() == matches!(ranged, Ranged::Within) {
        return Err(ranges::failed(&format!("{returned} returned for {ranged:?}"), &lent));
    }
    if found != lent || found_ends != due_ends {
        let text = format!("changed to {found:08x?}, and ends {ends:08x?} to {found_ends:08x?}");
        return Err(ranges::failed(&text, &lent));
    }
    tally.left(2, &lent.lows);
    tally.left(3, &lent.highs);
    tally.left(4, ends.get(range.len()..).unwrap_or(&[]));
    Ok(())
}

/// Gives the number of comparisons and a note on them.
pub fn run() -> Result<(usize, String), String> {
    let r = &mut Random::new(38);
    let mut tally = Tally::default();
    let mut done = min_sum(r, &mut tally)?;
    for (ranged, number) in RANGED {
        for _ in 0..RANGES_EACH {
            range(r, &mut tally, ranged, number)?;
        }
        done += RANGES_EACH;
    }
    if let Some(slice) = (0..SLICES.len()).find(|&slice| tally.0[slice].iter().any(|number| *number < NANS_LEAST)) {
        let text = format!("{:?} NaNs in {}: too few, a fault of this program", tally.0[slice], SLICES[slice]);
        return Err(text);
    }
    let left = |slice: usize| format!("{} {} + {}", SLICES[slice], tally.0[slice][0], tally.0[slice][1]);
    let left: Vec<String> = (0..SLICES.len()).map(left).collect();
    let note = format!(
        "{EACH} refusals of min_sum for each of {} causes, {ANSWERS} answers; {RANGES_EACH} of each of {} outcomes of ranges; signalling + quiet NaNs left: {}",
        CAUSES.len(),
        RANGED.len(),
        left.join(", ")
    );
    Ok((done, note))
}
