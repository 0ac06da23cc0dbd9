//! Orthogonalising matrices with many ones, in plain Rust: the row bounds are bit-sliced too.

use crate::plain::{ends, fill_orthogonalised, largest, split_rows, tally, Columns, Planes, WORDS};

/// What orthogonalising keeps: the columns over the given checks, and for each word of bits the bounds of their rows.
struct Splitting<'a> {
    columns: &'a mut Columns,
    bounds: [Planes; 8],
}

/// The first row from `first` on that has this bound.
#[inline(always)]
fn first_at(bounds: &[Planes; 8], end: usize, first: usize, cap: u64) -> Option<usize> {
    let mut those = !0 << (first % 64);
    for w in first / 64..end {
        for q in 0..7 {
            those &= bounds[w][q] ^ (cap >> q & 1).wrapping_sub(1);
        }
        if those != 0 {
            return Some(64 * w + those.trailing_zeros() as usize);
        }
        those = !0;
    }
    None
}

/// The first row that has the largest bound, and the bound.
#[inline(always)]
fn top_row(bounds: &[Planes; 8], end: usize, first: usize, cap: u64) -> (usize, u64) {
    if let Some(u) = first_at(bounds, end, first, cap) {
        return (u, cap);
    }
    let (mut u, mut bound) = (0, 0);
    for w in 0..end {
        let (most, places) = largest(&bounds[w], !0);
        if bound < most {
            (u, bound) = (64 * w + places.trailing_zeros() as usize, most);
        }
    }
    (u, bound)
}

/// The pair to split, where the rows before `first` have bounds below the cap, and no row has one above it.
fn pair(
    words: &[u64; WORDS],
    bits: usize,
    s: &mut Splitting,
    mut first: usize,
    mut cap: u64,
) -> Option<(usize, usize, u64)> {
    let end = bits.div_ceil(64);
    loop {
        let (u, bound) = top_row(&s.bounds, end, first, cap);
        if bound < 2 {
            return None;
        }
        let mut most = 0;
        let mut mask = !((1 << ((u + 1) % 64)) - 1);
        for w in (u + 1) / 64..end {
            let (share, places) = largest(&tally(words, s.columns[u], w), mask);
            if share == bound {
                return Some((u, 64 * w + places.trailing_zeros() as usize, share));
            }
            most = most.max(share);
            mask = !0;
        }
        let one = 1 << (u % 64);
        for (q, plane) in s.bounds[u / 64].iter_mut().enumerate() {
            *plane = *plane & !one | if most >> q & 1 == 1 { one } else { 0 };
        }
        (first, cap) = (u + 1, bound);
    }
}

/// The bounds take in the shares of the new bit, which is in these checks, with the bits below it.
fn widen(words: &[u64; WORDS], z: usize, s: &mut Splitting, checks: [u64; 2]) {
    for w in 0..z.div_ceil(64) {
        let p = tally(words, checks, w);
        let mut several = p[1] | p[2] | p[3] | p[4] | p[5] | p[6];
        if w == z / 64 {
            several &= (1 << (z % 64)) - 1;
        }
        let bounds = &mut s.bounds[w];
        let (mut above, mut level) = (0, several);
        for q in (0..7).rev() {
            above |= level & p[q] & !bounds[q];
            level &= !(p[q] ^ bounds[q]);
        }
        for q in 0..7 {
            bounds[q] = bounds[q] & !above | p[q] & above;
        }
    }
}

/// Splits, from the columns on, as long as a pair shares two or more.
pub fn split_pairs(words: &mut [u64], n: usize, m: usize, k: usize, columns: &mut Columns, values: &mut [u64]) -> u32 {
    let words: &mut [u64; WORDS] = words.try_into().unwrap();
    let mut s = Splitting { columns, bounds: [[0; 7]; 8] };
    let given = u128::MAX.checked_shr(128 - m as u32).unwrap_or(0);
    for w in 0..(n + k).div_ceil(64) {
        s.bounds[w] = tally(words, [given as u64, (given >> 64) as u64], w);
    }
    let (mut now, mut splits, mut sum, mut held) = (k, 0, 0, None);
    let (mut first, mut cap) = (0, 127);
    loop {
        let bits = n + now;
        let Some((u, v, share)) = pair(words, bits, &mut s, first, cap) else {
            fill_orthogonalised(values, splits, sum, now, held);
            return 0;
        };
        if now == 392 {
            fill_orthogonalised(values, splits, sum, now, held);
            return 9;
        }
        let set = [s.columns[u][0] & s.columns[v][0], s.columns[u][1] & s.columns[v][1]];
        split_rows(words, &set, m + now, u, v, bits);
        for b in [u, v] {
            s.columns[b] = [s.columns[b][0] & !set[0], s.columns[b][1] & !set[1]];
        }
        s.columns[bits & 511] = set;
        held = ends(&set);
        widen(words, bits, &mut s, set);
        (first, cap) = (u, share);
        splits += 1;
        sum += share * (share - 1) / 2;
        now += 1;
    }
}
