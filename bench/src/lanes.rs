//! `mend_packets`, which is ours and no part of the papers, in plain optimised Rust: a plan from the losses alone, then all lanes tile by tile.

#![allow(clippy::too_many_arguments)]

use crate::plain::{accept, fill, reduce_residue, sets, sizes, used};

/// A step: the check or reduced row, and the bit that it solves.
type Step = (u16, u16);

/// What is done in every tile: steps by checks, tests of checks, tests of rows, steps by rows.
struct Plan<'a, const NW: usize> {
    checks: &'a [u64],
    steps: &'a [Step],
    tests: &'a [u16],
    rows: &'a [[u64; NW]],
    /// The rows from here on have no lost bit.
    first: usize,
    more: &'a [Step],
}

/// Which packets are lost before, and which are left.
struct Losses {
    before: [u64; 8],
    left: [u64; 8],
}

fn contains(set: &[u64; 8], b: usize) -> bool {
    set[b / 64 & 7] >> (b % 64) & 1 == 1
}

/// The bits of the set that a row has, if there is one; whether there are more.
#[inline(always)]
fn only<const NW: usize>(row: &[u64; NW], set: &[u64; 8]) -> (Option<usize>, bool) {
    let (mut count, mut at) = (0, 0);
    for w in 0..NW {
        let x = row[w] & set[w];
        count += x.count_ones();
        if x != 0 {
            at = 64 * w + x.trailing_zeros() as usize;
        }
    }
    ((count == 1).then_some(at), count > 1)
}

/// The order in which peeling solves checks, and then the checks to test: those that it did not solve and that have no lost bit left.
#[inline(always)]
fn peel<const NW: usize>(
    checks: &[u64],
    left: &mut [u64; 8],
    steps: &mut [Step; 512],
    tests: &mut [u16; 512],
) -> (usize, usize) {
    let (mut count, mut solved, mut again) = (0, [0u64; 8], *left != [0; 8]);
    while again {
        again = false;
        for (c, row) in checks.chunks_exact(8).enumerate() {
            if let (Some(b), _) = only::<NW>(used(row), left) {
                left[b / 64 & 7] ^= 1 << (b % 64);
                solved[c / 64 & 7] |= 1 << (c % 64);
                steps[count & 511] = (c as u16, b as u16);
                count += 1;
                again = true;
            }
        }
    }
    let mut tested = 0;
    for (c, row) in checks.chunks_exact(8).enumerate() {
        if !contains(&solved, c) && only::<NW>(used(row), left) == (None, false) {
            tests[tested & 511] = c as u16;
            tested += 1;
        }
    }
    (count, tested)
}

/// The sum of the packets that a row contains.
#[inline(always)]
fn sum<const NW: usize, const T: usize, const B: usize>(row: &[u64; NW], tile: &[[u64; T]; B]) -> [u64; T] {
    let mut all = [0; T];
    for w in 0..NW {
        let mut x = row[w];
        while x != 0 {
            let packet = &tile[(64 * w + x.trailing_zeros() as usize) & (B - 1)];
            for i in 0..T {
                all[i] ^= packet[i];
            }
            x &= x - 1;
        }
    }
    all
}

/// The words of each packet that arrived, and none of the others.
#[inline(always)]
fn load<const T: usize, const B: usize>(
    packets: &[u64],
    length: usize,
    from: usize,
    lost: &[u64; 8],
    tile: &mut [[u64; T]; B],
) {
    for (b, packet) in packets.chunks_exact(length).enumerate() {
        let row = &mut tile[b & (B - 1)];
        if contains(lost, b) {
            *row = [0; T];
        } else if let Some(part) = packet[from..].first_chunk::<T>() {
            *row = *part;
        } else {
            row[..length - from].copy_from_slice(&packet[from..]);
        }
    }
}

/// The plan in one tile; the lanes in which a test fails.
#[inline(always)]
fn carry_out<const NW: usize, const T: usize, const B: usize>(plan: &Plan<NW>, tile: &mut [[u64; T]; B]) -> [u64; T] {
    let check = |c: u16| used::<NW>(&plan.checks[8 * c as usize..]);
    for &(c, b) in plan.steps {
        tile[b as usize & (B - 1)] = sum(check(c), tile);
    }
    let mut odd = [0; T];
    let mut test = |row: &[u64; NW], tile: &[[u64; T]; B]| {
        let one = sum(row, tile);
        for i in 0..T {
            odd[i] |= one[i];
        }
    };
    plan.tests.iter().for_each(|&c| test(check(c), tile));
    plan.rows[plan.first..].iter().for_each(|row| test(row, tile));
    for &(r, b) in plan.more {
        tile[b as usize & (B - 1)] = sum(&plan.rows[r as usize], tile);
    }
    odd
}

/// The recovered packets' words go back, but those of odd lanes.
#[inline(always)]
fn store<const T: usize, const B: usize>(
    packets: &mut [u64],
    length: usize,
    from: usize,
    losses: &Losses,
    tile: &[[u64; T]; B],
    odd: &[u64; T],
) {
    let even = *odd == [0; T];
    for w in 0..8 {
        let mut x = losses.before[w] & !losses.left[w];
        while x != 0 {
            let b = 64 * w + x.trailing_zeros() as usize;
            let row = &tile[b & (B - 1)];
            let packet = &mut packets[b * length + from..(b + 1) * length];
            match packet.first_chunk_mut::<T>() {
                Some(part) if even => *part = *row,
                _ => {
                    for (i, word) in packet.iter_mut().take(T).enumerate() {
                        *word = *word & odd[i] | row[i] & !odd[i];
                    }
                }
            }
            x &= x - 1;
        }
    }
}

/// The plan in every tile of T words.
#[inline(never)]
fn tiles<const NW: usize, const T: usize, const B: usize>(
    plan: &Plan<NW>,
    losses: &Losses,
    packets: &mut [u64],
    odd: &mut [u64],
) {
    let length = odd.len();
    let mut tile = [[0; T]; B];
    for from in (0..length).step_by(T) {
        load(packets, length, from, &losses.before, &mut tile);
        let found = carry_out(plan, &mut tile);
        store(packets, length, from, losses, &tile, &found);
        for (word, &found) in odd[from..].iter_mut().zip(&found) {
            *word = found;
        }
    }
}

/// What peeling leaves is reduced, and the plan carried out with its rows.
#[inline(never)]
fn with_rows<const NW: usize, const T: usize, const B: usize>(
    plan: Plan<NW>,
    mut losses: Losses,
    packets: &mut [u64],
    odd: &mut [u64],
) -> [u64; 8] {
    let mut rows = [[0; NW]; 512];
    let (mut pivots, mut more, mut listed) = ([0; 512], [(0, 0); 512], 0);
    let residue = losses.left;
    let (done, count) = reduce_residue(plan.checks, used(&residue), &mut rows, &mut pivots);
    for (r, row) in rows[..done].iter().enumerate() {
        if let (Some(b), _) = only(row, &residue) {
            losses.left[b / 64 & 7] ^= 1 << (b % 64);
            more[listed & 511] = (r as u16, b as u16);
            listed += 1;
        }
    }
    let plan = Plan { rows: &rows[..count], first: done, more: &more[..listed], ..plan };
    tiles::<NW, T, B>(&plan, &losses, packets, odd);
    losses.left
}

/// Mends packets with rows of so many words, in tiles of T words of B packets. Answers which are left.
#[inline(always)]
fn mend<const NW: usize, const T: usize, const B: usize>(
    checks: &[u64],
    lost: &[u64; 8],
    packets: &mut [u64],
    odd: &mut [u64],
) -> [u64; 8] {
    let (mut steps, mut tests, mut left) = ([(0, 0); 512], [0; 512], *lost);
    let (count, tested) = peel::<NW>(checks, &mut left, &mut steps, &mut tests);
    let plan = Plan { checks, steps: &steps[..count], tests: &tests[..tested], rows: &[], first: 0, more: &[] };
    let losses = Losses { before: *lost, left };
    if left != [0; 8] {
        return with_rows::<NW, T, B>(plan, losses, packets, odd);
    }
    tiles::<NW, T, B>(&plan, &losses, packets, odd);
    left
}

/// The four numbers, and the odd lanes.
fn answer(before: &[u64; 8], left: &[u64; 8], nw: usize, n: usize, odd: &[u64], values: &mut [u64]) {
    let ((sent, added), (left_sent, left_added)) = (sizes(before, nw, n), sizes(left, nw, n));
    let lanes = odd.iter().map(|word| word.count_ones() as u64).sum();
    fill(values, &[sent - left_sent, added - left_added, left_sent, left_added, lanes]);
}

pub fn mend_packets(
    words: &[u64],
    n: usize,
    m: usize,
    k: usize,
    lost: &mut [u8],
    packets: &mut [u64],
    odd: &mut [u64],
    values: &mut [u64],
) -> u32 {
    let number = accept(words, n, m, k);
    if number != 0 {
        return number;
    }
    let bits = n + k;
    if lost.len() != bits || bits.checked_mul(odd.len()) != Some(packets.len()) {
        return 10;
    }
    let before = match sets(lost, 1) {
        Err(place) => {
            fill(values, &[place as u64]);
            return 11;
        }
        Ok((ones, _)) => ones,
    };
    let nw = bits.div_ceil(64);
    let checks = &words[..8 * (m + k)];
    let left = match nw {
        1 => mend::<1, 16, 64>(checks, &before, packets, odd),
        2 => mend::<2, 16, 128>(checks, &before, packets, odd),
        3 | 4 => mend::<4, 8, 256>(checks, &before, packets, odd),
        _ => mend::<8, 4, 512>(checks, &before, packets, odd),
    };
    for (b, byte) in lost.iter_mut().enumerate() {
        *byte = contains(&left, b) as u8;
    }
    answer(&before, &left, nw, n, odd, values);
    0
}
