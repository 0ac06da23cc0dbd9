//! Ranges of soft values (M-113): checks with so many other bits, the library and plain Rust in turn.

use crate::pool::{best_of, orders, pace, POOL};
use crate::print::{cell, head, Summary};
use crate::{plain, Random};
use parity::{ffi, VALUES_MOST};
use std::cell::RefCell;
use std::hint::black_box;
use std::ops::Range;
use std::time::Instant;

struct Check {
    lows: Vec<f32>,
    highs: Vec<f32>,
    ends: [f32; 2],
    values: [u64; VALUES_MOST],
}

fn in_library(check: &mut Check) -> u32 {
    // Every pointer and length is that of a live vector or array, and no two overlap.
    unsafe {
        ffi::parity_min_sum_range(
            check.lows.as_ptr(),
            check.lows.len(),
            check.highs.as_ptr(),
            check.highs.len(),
            check.ends.as_mut_ptr(),
            check.ends.len(),
            check.values.as_mut_ptr(),
            check.values.len(),
        )
    }
}

fn in_plain(check: &mut Check) -> u32 {
    plain::min_sum_range(&check.lows, &check.highs, &mut check.ends, &mut check.values)
}

/// Nanoseconds of these passes over the checks.
fn timed(run: fn(&mut Check) -> u32, checks: &mut [Check], orders: &[Vec<usize>], passes: Range<usize>) -> u64 {
    let start = Instant::now();
    for pass in passes {
        for &i in &orders[pass % orders.len()] {
            black_box(run(black_box(&mut checks[i])));
        }
    }
    start.elapsed().as_nanos() as u64
}

/// So many ranges; of 100 values so many may have either sign, and the others are positive.
fn check(r: &mut Random, size: usize, across: usize) -> Check {
    let mut check = Check { lows: Vec::new(), highs: Vec::new(), ends: [0.0; 2], values: [0; VALUES_MOST] };
    for _ in 0..size {
        let (x, width) = (1.0 + r.below(4000) as f32 / 100.0, r.below(1000) as f32 / 1000.0);
        if r.below(100) < across {
            check.lows.push(-x);
            check.highs.push(x + width);
        } else {
            check.lows.push(x);
            check.highs.push(x + width);
        }
    }
    check
}

/// Both sides answer alike, bit for bit.
fn alike(check: &mut Check) -> Result<(), String> {
    let library = (in_library(check), check.ends.map(f32::to_bits), check.values);
    let plain = (in_plain(check), check.ends.map(f32::to_bits), check.values);
    if library != plain {
        let size = check.lows.len();
        return Err(format!("a check with {size} other bits: {library:?} of the library, {plain:?} of plain Rust"));
    }
    Ok(())
}

/// The best nanoseconds of one call over a pool of checks: the library's and plain Rust's.
fn measure(checks: &mut [Check]) -> Result<(u64, u64), String> {
    checks.iter_mut().try_for_each(alike)?;
    let orders = orders(checks.len());
    let pace = pace(|| timed(in_plain, checks, &orders, 0..1));
    let checks = RefCell::new(checks);
    let side = |run, passes| timed(run, &mut checks.borrow_mut(), &orders, passes);
    Ok(best_of(POOL, pace, |passes| side(in_library, passes), |passes| side(in_plain, passes)))
}

pub fn run(r: &mut Random, summary: &mut Summary) -> Result<(), String> {
    let sizes = [3, 7, 31, 119, plain::OTHERS_MOST];
    head("other bits", &sizes.map(|size| size.to_string()));
    for across in [0, 30, 100] {
        let mut line = format!("| min_sum_range, {across} % across zero |");
        for size in sizes {
            let mut checks: Vec<Check> = (0..POOL).map(|_| check(r, size, across)).collect();
            let (library, plain) = measure(&mut checks)?;
            line += &cell(library, plain, 1);
            summary.add(
                &format!("min_sum_range, {across} % across zero"),
                &format!("{size} other bits"),
                library,
                plain,
            );
        }
        println!("{line}");
    }
    println!();
    Ok(())
}
