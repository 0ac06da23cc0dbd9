//! MacKay's alist: n and m; the largest weights of a bit and of a check; the weights of the bits; those of the
//! checks; a line for each bit with its checks; a line for each check with its bits. Both are counted from 1 there,
//! and lines may be filled up with zeros to the largest weight.

use crate::fault::{quoted, LineFault};
use crate::matrix::{Checks, Matrix, MOST};

/// The lines that are still to be read.
struct Lines<'a> {
    lines: std::slice::Split<'a, u8, fn(&u8) -> bool>,
    /// The number of the line read last.
    number: usize,
}

/// One side of an alist: its bits with their checks, or its checks with their bits.
struct Side {
    /// What a line of it is about, and what stands in the line.
    of: &'static str,
    members: &'static str,
    /// How many of either there are.
    lines: usize,
    most: usize,
    largest: usize,
}

impl Lines<'_> {
    fn fault<T>(&self, what: String) -> Result<T, LineFault> {
        Err(LineFault::new(self.number, what))
    }

    /// The numbers of the next line; `due` says what it has.
    fn numbers(&mut self, due: &str) -> Result<Vec<usize>, LineFault> {
        self.number += 1;
        let Some(line) = self.lines.next() else {
            return self.fault(format!("the file ends before {due}"));
        };
        let mut numbers = Vec::new();
        for piece in line.split(u8::is_ascii_whitespace).filter(|piece| !piece.is_empty()) {
            let number = std::str::from_utf8(piece).ok().filter(|text| text.bytes().all(|byte| byte.is_ascii_digit()));
            match number.and_then(|text| text.parse().ok()) {
                Some(number) => numbers.push(number),
                None => return self.fault(format!("{} is no number that can be taken", quoted(piece))),
            }
        }
        Ok(numbers)
    }

    /// The two numbers of the next line.
    fn two(&mut self, due: &str) -> Result<(usize, usize), LineFault> {
        match self.numbers(due)?[..] {
            [first, second] => Ok((first, second)),
            ref other => self.fault(format!("{} numbers, and {due} are due", other.len())),
        }
    }

    /// The weights of one side's lines.
    fn weights(&mut self, side: &Side) -> Result<Vec<usize>, LineFault> {
        let weights = self.numbers(&format!("the weights of the {}s", side.of))?;
        if weights.len() != side.lines {
            return self.fault(format!("{} weights, and there are {} {}s", weights.len(), side.lines, side.of));
        }
        match weights.iter().position(|&weight| weight > side.largest) {
            Some(place) => {
                let (of, largest) = (side.of, side.largest);
                self.fault(format!(
                    "{of} {} has weight {}, and line 2 says at most {largest}",
                    place + 1,
                    weights[place]
                ))
            }
            None => Ok(weights),
        }
    }

    /// The members of line `index` of a side, as they stand there, counted from 0, without the zeros that fill it up.
    fn members(&mut self, side: &Side, index: usize, weight: usize) -> Result<Vec<usize>, LineFault> {
        let (of, members, at) = (side.of, side.members, index + 1);
        let mut numbers = self.numbers(&format!("the {members}s of {of} {at}"))?;
        if numbers.len() > side.largest {
            return self.fault(format!("{} numbers, and line 2 says at most {}", numbers.len(), side.largest));
        }
        let named = numbers.iter().rposition(|&number| number > 0).map_or(0, |last| last + 1);
        numbers.truncate(named);
        if named != weight {
            return self.fault(format!("{named} {members}s of {of} {at}, and its weight is {weight}"));
        }
        if let Some(wrong) = numbers.iter().find(|&&number| number == 0 || number > side.most) {
            return self.fault(format!("{members} {wrong} of {of} {at}, and they go from 1 to {}", side.most));
        }
        numbers.sort_unstable();
        if let Some(pair) = numbers.windows(2).find(|pair| pair[0] == pair[1]) {
            return self.fault(format!("{members} {} stands twice in {of} {at}", pair[0]));
        }
        Ok(numbers.into_iter().map(|number| number - 1).collect())
    }

    /// Nothing but empty lines may follow.
    fn end(&mut self) -> Result<(), LineFault> {
        while let Some(line) = self.lines.next() {
            self.number += 1;
            if !line.trim_ascii().is_empty() {
                return self.fault(format!("{} follows the last list", quoted(line.trim_ascii())));
            }
        }
        Ok(())
    }
}

/// The number of bits and of checks.
fn sizes(lines: &mut Lines) -> Result<(usize, usize), LineFault> {
    let (n, m) = lines.two("the number of bits and that of checks")?;
    if !(1..=MOST).contains(&n) {
        return lines.fault(format!("{n} bits, and 1 to {MOST} can be taken"));
    }
    if m > MOST {
        return lines.fault(format!("{m} checks, and at most {MOST} can be taken"));
    }
    Ok((n, m))
}

/// The checks of a file whose two halves say the same.
pub fn read(bytes: &[u8]) -> Result<Checks, LineFault> {
    let newline: fn(&u8) -> bool = |byte| *byte == b'\n';
    let mut lines = Lines { lines: bytes.split(newline), number: 0 };
    let (n, m) = sizes(&mut lines)?;
    let (largest_bit, largest_check) = lines.two("the largest weights of a bit and of a check")?;
    let bits = Side { of: "bit", members: "check", lines: n, most: m, largest: largest_bit };
    let checks = Side { of: "check", members: "bit", lines: m, most: n, largest: largest_check };
    let bit_weights = lines.weights(&bits)?;
    let check_weights = lines.weights(&checks)?;
    let mut by_bits = vec![Vec::new(); m];
    for (bit, &weight) in bit_weights.iter().enumerate() {
        for check in lines.members(&bits, bit, weight)? {
            by_bits[check].push(bit);
        }
    }
    for (check, &weight) in check_weights.iter().enumerate() {
        let by_check = lines.members(&checks, check, weight)?;
        if let Some(what) = difference(check, &by_bits[check], &by_check) {
            return lines.fault(what);
        }
    }
    lines.end()?;
    Ok(Checks { n, checks: by_bits })
}

/// How the lists of the bits and the list of a check differ about the check.
fn difference(check: usize, by_bits: &[usize], by_check: &[usize]) -> Option<String> {
    if let Some(bit) = by_check.iter().find(|bit| !by_bits.contains(bit)) {
        return Some(format!("check {} has bit {}, whose own line does not name the check", check + 1, bit + 1));
    }
    let bit = by_bits.iter().find(|bit| !by_check.contains(bit))?;
    Some(format!("check {} lacks bit {}, whose own line names the check", check + 1, bit + 1))
}

/// The alist of a matrix with k = 0, filled up with zeros.
pub fn write(matrix: &Matrix) -> String {
    let checks = matrix.rows();
    let bits: Vec<Vec<usize>> =
        (0..matrix.n).map(|bit| (0..matrix.m).filter(|&check| checks[check].contains(&bit)).collect()).collect();
    let largest = |side: &[Vec<usize>]| side.iter().map(Vec::len).max().unwrap_or(0);
    let (largest_bit, largest_check) = (largest(&bits), largest(&checks));
    let mut text = format!("{} {}\n{largest_bit} {largest_check}\n", matrix.n, matrix.m);
    for side in [&bits, &checks] {
        put_line(&mut text, side.iter().map(Vec::len));
    }
    for (side, largest) in [(&bits, largest_bit), (&checks, largest_check)] {
        for list in side {
            let zeros = std::iter::repeat_n(0, largest - list.len());
            put_line(&mut text, list.iter().map(|member| member + 1).chain(zeros));
        }
    }
    text
}

fn put_line(text: &mut String, numbers: impl Iterator<Item = usize>) {
    let numbers: Vec<String> = numbers.map(|number| number.to_string()).collect();
    text.push_str(&numbers.join(" "));
    text.push('\n');
}
