//! The Tanner graph of a matrix: a circle for each bit, a square for each check, and a line where the check contains
//! the bit.

use crate::matrix::Matrix;
use crate::svg::{open, put, text};

/// The most bits of a matrix whose graph is drawn.
pub const BITS_MOST: usize = 40;

const WIDTH: f64 = 420.0;
const BITS: f64 = 60.0;
const CHECKS: f64 = 360.0;
const TOP: f64 = 34.0;
const BELOW: f64 = 6.0;
/// The room of a bit or check where there are few, and where there are many.
const WIDE: f64 = 26.0;
const NARROW: f64 = 17.0;
const FEW: usize = 16;
const RADIUS: f64 = 5.5;

/// The height of each of so many places, spread evenly.
fn places(count: usize, height: f64) -> Vec<f64> {
    (0..count).map(|place| TOP + (place as f64 + 0.5) * height / count as f64).collect()
}

pub fn draw(given: &Matrix) -> String {
    let most = given.n.max(given.m);
    let height = most as f64 * if most > FEW { NARROW } else { WIDE };
    let (bits, checks) = (places(given.n, height), places(given.m, height));
    let told = format!("{} bits and {} checks, {} lines between them", given.n, given.m, given.ones());
    let mut out = open((WIDTH, TOP + height + BELOW), &told);
    put(&mut out, &text(BITS, 18.0, "middle", 13, "bits"));
    put(&mut out, &text(CHECKS, 18.0, "middle", 13, "checks"));
    lines(&mut out, given, &bits, &checks);
    for (bit, y) in bits.iter().enumerate() {
        put(&mut out, &format!("<circle class='bit' cx='{BITS}' cy='{y:.1}' r='{RADIUS}'/>"));
        put(&mut out, &text(BITS - 14.0, y + 4.0, "end", 12, &bit.to_string()));
    }
    for (check, y) in checks.iter().enumerate() {
        let (x, y, side) = (CHECKS - RADIUS, y - RADIUS, 2.0 * RADIUS);
        put(&mut out, &format!("<rect class='check' x='{x}' y='{y:.1}' width='{side}' height='{side}'/>"));
        put(&mut out, &text(CHECKS + 14.0, y + RADIUS + 4.0, "start", 12, &check.to_string()));
    }
    put(&mut out, "</svg>");
    out
}

fn lines(out: &mut String, given: &Matrix, bits: &[f64], checks: &[f64]) {
    let mut path = String::new();
    for (row, y) in given.rows().iter().zip(checks) {
        path.extend(row.iter().map(|&bit| format!("M{BITS} {:.1}L{CHECKS} {y:.1}", bits[bit])));
    }
    if !path.is_empty() {
        put(out, &format!("<path class='lines' fill='none' d='{path}'/>"));
    }
}
