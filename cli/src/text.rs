//! 0/1 text: a line for each check, a digit for each bit. Blanks, tabs and commas may stand between digits; empty
//! lines, and what follows a `#`, are passed over.

use crate::fault::{character, LineFault};
use crate::matrix::{Checks, Matrix, MOST};
use crate::words::is_gap;

pub fn read(bytes: &[u8]) -> Result<Checks, LineFault> {
    let mut found = Checks { n: 0, checks: Vec::new() };
    let mut first = 0;
    let mut last = 1;
    for (number, line) in (1..).zip(bytes.split(|&byte| byte == b'\n')) {
        last = number;
        let digits = digits(line).map_err(|what| LineFault::new(number, what))?;
        if digits.is_empty() {
            continue;
        }
        if found.checks.is_empty() {
            found.n = digits.len();
            first = number;
        }
        fits(&found, first, digits.len()).map_err(|what| LineFault::new(number, what))?;
        found.checks.push((0..digits.len()).filter(|&bit| digits[bit]).collect());
    }
    if found.checks.is_empty() {
        return Err(LineFault::new(last, "the file ends, and no line has the bits of a check".to_string()));
    }
    Ok(found)
}

/// The digits of a line, 1 as true.
fn digits(line: &[u8]) -> Result<Vec<bool>, String> {
    let mut digits = Vec::new();
    for (place, &byte) in line.iter().enumerate() {
        match byte {
            b'0' | b'1' => digits.push(byte == b'1'),
            b'\r' => {}
            b'#' => break,
            gap if is_gap(gap) => {}
            _ => return Err(format!("{} at character {} is neither 0 nor 1", character(&line[place..]), place + 1)),
        }
    }
    Ok(digits)
}

/// Whether one more check of so many bits can be taken.
fn fits(found: &Checks, first: usize, length: usize) -> Result<(), String> {
    if length > MOST {
        return Err(format!("{length} bits, and at most {MOST} can be taken"));
    }
    if length != found.n {
        return Err(format!("{length} bits, and line {first} has {}", found.n));
    }
    if found.checks.len() == MOST {
        return Err(format!("check number {}, and at most {MOST} can be taken", MOST + 1));
    }
    Ok(())
}

/// A line for each check of a matrix with k = 0.
pub fn write(matrix: &Matrix) -> String {
    let mut text = String::new();
    for bits in matrix.rows() {
        let mut line = vec!['0'; matrix.n];
        bits.into_iter().for_each(|bit| line[bit] = '1');
        text.extend(line);
        text.push('\n');
    }
    text
}
