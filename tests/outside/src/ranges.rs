//! M-113's ranges: a model written from document 02 alone. Small checks are compared with all corners of their ranges, and
//! checks of every size with the greatest magnitude that each sign can reach and with random choices inside.

use crate::library;
use crate::random::Random;

/// The largest magnitude of a soft float that is taken.
const LIMIT: f32 = 1_048_576.0;
const OTHERS_MOST: usize = 511;

/// At least so many random checks have to be compared.
const CHECKS_LEAST: usize = 20_000;

/// What the call is lent; floats are kept as their bits.
#[derive(Clone, PartialEq, Debug)]
pub struct Lent {
    pub lows: Vec<u32>,
    pub highs: Vec<u32>,
}

// The model

/// What a check sends for a choice of values: the least magnitude, its sign turned once for each negative value.
fn sends(choice: &[f32]) -> f32 {
    let least = choice.iter().fold(f32::INFINITY, |least, x| if x.abs() < least { x.abs() } else { least });
    if choice.iter().filter(|x| **x < 0.0).count() % 2 == 1 {
        -least
    } else {
        least
    }
}

/// The least and the greatest answer over all corners. In each value alone the answer rises or falls throughout.
fn corners(lows: &[f32], highs: &[f32]) -> (f32, f32) {
    let answers = (0..1usize << lows.len()).map(|corner| {
        let choice: Vec<f32> = (0..lows.len()).map(|i| if corner >> i & 1 == 1 { highs[i] } else { lows[i] }).collect();
        sends(&choice)
    });
    answers.fold((f32::INFINITY, f32::NEG_INFINITY), |(low, high), x| {
        (if x < low { x } else { low }, if x > high { x } else { high })
    })
}

/// The greatest magnitude that an answer of each sign can have; where a sign is out of reach, the least of the other sign.
fn by_sign(lows: &[f32], highs: &[f32]) -> (f32, f32) {
    let both = |a: Option<f32>, b: Option<f32>| Some(if a? < b? { a? } else { b? });
    let more = |a: Option<f32>, b: Option<f32>| if a >= b { a } else { b };
    let (mut even, mut odd) = (Some(f32::INFINITY), None);
    for (low, high) in lows.iter().zip(highs) {
        let positive = if *high >= 0.0 { Some(*high) } else { None };
        let negative = if *low < 0.0 { Some(-*low) } else { None };
        (even, odd) =
            (more(both(even, positive), both(odd, negative)), more(both(even, negative), both(odd, positive)));
    }
    let least = lows.iter().zip(highs).map(|(low, high)| match () {
        _ if *low > 0.0 => *low,
        _ if *high < 0.0 => -*high,
        _ => 0.0,
    });
    let least = least.fold(f32::INFINITY, |a, b| if b < a { b } else { a });
    (odd.map_or(least, |x| -x), even.unwrap_or(-least))
}

/// What the call comes to: its number, the values carried, and the ends.
pub fn due(lent: &Lent) -> (u32, Vec<u64>, Vec<f32>) {
    let floats = |bits: &[u32]| bits.iter().map(|x| f32::from_bits(*x)).collect::<Vec<f32>>();
    let (lows, highs) = (floats(&lent.lows), floats(&lent.highs));
    let refused = |number, place: Option<usize>| (number, place.into_iter().map(|i| i as u64).collect(), Vec::new());
    if lows.len() != highs.len() || lows.len() > OTHERS_MOST {
        return refused(10, None);
    }
    for floats in [&lows, &highs] {
        if let Some(i) = floats.iter().position(|x| !x.is_finite() || x.abs() > LIMIT) {
            return refused(23, Some(i));
        }
    }
    if let Some(i) = (0..lows.len()).find(|&i| lows[i] > highs[i]) {
        return refused(24, Some(i));
    }
    if lows.is_empty() {
        return (0, vec![0], Vec::new());
    }
    let (low, high) = by_sign(&lows, &highs);
    // A zero of either sign is the same value, and an end that is zero is plus zero.
    let plus = |x: f32| if x == 0.0 { 0.0 } else { x };
    (0, vec![3], vec![plus(low), plus(high)])
}

// The comparison

#[derive(Default)]
struct Tally {
    checks: usize,
    corners: usize,
    choices: usize,
    most: usize,
    across: usize,
    stack: usize,
}

pub fn failed(why: &str, lent: &Lent) -> String {
    format!("RANGES: {why}\nlows {:08x?}\nhighs {:08x?}", lent.lows, lent.highs)
}

/// One call with so many elements in `ends` and `values`; answers the ends of a range.
fn compare(
    r: &mut Random,
    tally: &mut Tally,
    lent: &Lent,
    room: usize,
    values_len: usize,
) -> Result<Option<(f32, f32)>, String> {
    let (number, carried, range) = due(lent);
    let ends: Vec<u32> = (0..room).map(|_| r.next() as u32).collect();
    let values: Vec<u64> = (0..values_len).map(|_| r.next()).collect();
    let (mut due_ends, mut due_values) = (ends.clone(), values.clone());
    due_ends.iter_mut().zip(&range).for_each(|(place, x)| *place = x.to_bits());
    due_values.iter_mut().zip(&carried).for_each(|(place, x)| *place = *x);
    let (mut found, mut found_ends, mut found_values) = (lent.clone(), ends, values);
    let (returned, bytes) = library::range(&mut found.lows, &mut found.highs, &mut found_ends, &mut found_values)
        .map_err(|why| failed(&why, lent))?;
    tally.stack = tally.stack.max(bytes);
    if returned != number || found_values != due_values {
        return Err(failed(&format!("returned {returned} {found_values:?}, due {number} {due_values:?}"), lent));
    }
    if found_ends != due_ends {
        return Err(failed(&format!("ends {found_ends:08x?}, due {due_ends:08x?}"), lent));
    }
    if found.lows != lent.lows || found.highs != lent.highs {
        return Err(failed("lows or highs were changed", lent));
    }
    Ok(if range.len() == 2 { Some((range[0], range[1])) } else { None })
}

// Random checks

/// A float of any size up to the limit, some of them near each other, some zero.
fn float(r: &mut Random) -> f32 {
    let x = match r.below(8) {
        0 => 0.0,
        1 => r.below(4) as f32,
        2 => f32::from_bits(r.below(LIMIT.to_bits() as usize + 1) as u32),
        3 => LIMIT - r.below(3) as f32,
        _ => r.below(1 << 20) as f32 / 1024.0,
    };
    if r.chance(500) {
        -x
    } else {
        x
    }
}

/// The ranges of a check with so many other bits.
pub fn check(r: &mut Random, size: usize) -> Lent {
    let known = r.below(1000);
    // Values on one side of zero leave the sign of the answer fixed.
    let sided = r.chance(300);
    let mut lent = Lent { lows: Vec::new(), highs: Vec::new() };
    for _ in 0..size {
        let (mut low, mut high) = (float(r), float(r));
        if sided && low < 0.0 && high > 0.0 || sided && low > 0.0 && high < 0.0 {
            high = -high;
        }
        if r.chance(known) {
            high = low;
        }
        if low > high {
            (low, high) = (high, low);
        }
        lent.lows.push(low.to_bits());
        lent.highs.push(high.to_bits());
    }
    lent
}

/// A float from `low` to `high`, often an end or zero.
fn inside(r: &mut Random, low: f32, high: f32) -> f32 {
    let x = match r.below(5) {
        0 => low,
        1 => high,
        2 => [0.0, -0.0][r.below(2)],
        _ => low + (high - low) * (r.below(1 << 16) as f32 / 65_535.0),
    };
    x.clamp(low, high)
}

/// One check: the answer, all corners where they are few, and choices inside.
fn one(r: &mut Random, tally: &mut Tally, size: usize) -> Result<(), String> {
    let lent = check(r, size);
    let (room, values_len) = (r.between(0, 4), r.between(0, 3));
    let Some((low, high)) = compare(r, tally, &lent, room, values_len)? else {
        return Err(failed("a check is not answered by a range", &lent));
    };
    let lows: Vec<f32> = lent.lows.iter().map(|x| f32::from_bits(*x)).collect();
    let highs: Vec<f32> = lent.highs.iter().map(|x| f32::from_bits(*x)).collect();
    tally.checks += 1;
    tally.most = tally.most.max(size);
    tally.across += (low < 0.0 && high > 0.0) as usize;
    if size <= 12 {
        let (least, greatest) = corners(&lows, &highs);
        if (low, high) != (least, greatest) {
            return Err(failed(&format!("{low} to {high}, and {least} to {greatest} by the corners"), &lent));
        }
        tally.corners += 1 << size;
    }
    for _ in 0..8 {
        let choice: Vec<f32> = (0..size).map(|i| inside(r, lows[i], highs[i])).collect();
        let answer = sends(&choice);
        if !(low <= answer && answer <= high) {
            return Err(failed(&format!("{answer} is outside {low} to {high}, for {choice:?}"), &lent));
        }
        tally.choices += 1;
    }
    Ok(())
}

/// Lengths, floats and order at their edges.
fn edges(r: &mut Random, tally: &mut Tally) -> Result<usize, String> {
    let mut all = Vec::new();
    for (low, high) in
        [(0, 0), (0, 1), (1, 0), (1, 2), (5, 4), (510, 510), (511, 511), (511, 512), (512, 511), (512, 512), (600, 600)]
    {
        let (mut lent, highs) = (check(r, low), check(r, high).highs);
        if low != high {
            lent.highs = highs;
        }
        all.push(lent.clone());
        // A wrong length comes before a wrong float.
        if low > 0 {
            lent.lows[low - 1] = 0x7FC0_0000;
            all.push(lent);
        }
    }
    let odd = [
        0,
        0x8000_0000,
        1,
        0x8000_0001,
        LIMIT.to_bits(),
        (-LIMIT).to_bits(),
        LIMIT.to_bits() + 1,
        (-LIMIT).to_bits() + 1,
        f32::MAX.to_bits(),
        0x7F80_0000,
        0xFF80_0000,
        0x7FC0_0000,
        0xFFC0_0001,
        0x7F80_0001,
    ];
    for size in [1, 2, 5, 511] {
        for _ in 0..6 {
            let good = check(r, size);
            for low in odd {
                let mut lent = good.clone();
                lent.lows[r.below(size)] = low;
                all.push(lent.clone());
                for high in odd {
                    let mut both = lent.clone();
                    both.highs[r.below(size)] = high;
                    all.push(both.clone());
                    let place = r.below(size);
                    (both.lows[place], both.highs[place]) = (low, high);
                    all.push(both);
                }
            }
            // Lows above their highs at several places.
            let mut lent = good.clone();
            for _ in 0..r.between(1, 4) {
                let place = r.below(size);
                let (low, high) = (lent.lows[place], lent.highs[place]);
                (lent.lows[place], lent.highs[place]) = (high, low);
                all.push(lent.clone());
            }
        }
    }
    for lent in &all {
        for room in [0, 1, 2, 3] {
            let values_len = r.between(0, 2);
            compare(r, tally, lent, room, values_len)?;
        }
    }
    Ok(4 * all.len())
}

/// Gives the number of comparisons and a note on them.
pub fn run() -> Result<(usize, String), String> {
    let r = &mut Random::new(113);
    let mut tally = Tally::default();
    let edges = edges(r, &mut tally)?;
    while tally.checks < CHECKS_LEAST || tally.most < OTHERS_MOST {
        let size = match r.below(20) {
            0 => r.between(13, OTHERS_MOST),
            1 => OTHERS_MOST,
            _ => r.between(1, 12),
        };
        one(r, &mut tally, size)?;
    }
    let note = format!(
        "{} checks, {} across zero, {} corners, {} choices; {} bytes of stack at most",
        tally.checks, tally.across, tally.corners, tally.choices, tally.stack
    );
    Ok((edges + tally.checks + tally.choices, note))
}
