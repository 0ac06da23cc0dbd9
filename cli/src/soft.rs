//! `parity soft`: words of sure, soft and erased bits, decoded by min-sum rounds.

use crate::args::Args;
use crate::fault::{quoted, Fault};
use crate::files;
use crate::lines::{self, BadLines};
use crate::matrix::{Matrix, EITHER};
use crate::words::is_gap;
use parity::{Bit, Refusal, MESSAGES, ROUNDS_MOST};

pub const ROUNDS: usize = 50;

/// A matrix, and room for the messages of its call.
pub struct Decoder {
    matrix: Matrix,
    rounds: usize,
    bytes: Vec<u8>,
    floats: Vec<f32>,
}

impl Decoder {
    pub fn new(matrix: Matrix, rounds: usize) -> Decoder {
        Decoder { matrix, rounds, bytes: vec![0; MESSAGES], floats: vec![0.0; MESSAGES] }
    }

    /// Puts the results in place of the n sent bits; added bits are erased before.
    pub fn decode(&mut self, bits: &mut Vec<Bit>) -> Result<(), Refusal> {
        let Matrix { words, n, m, k } = &self.matrix;
        bits.resize(n + k, Bit::Erased);
        parity::min_sum_bits(words, *n, *m, *k, self.rounds, bits, &mut self.bytes, &mut self.floats)?;
        bits.truncate(*n);
        Ok(())
    }
}

/// The n bits of a line, or why it has none: values with blanks between, or 0, 1 and ? without.
pub fn read(line: &[u8], n: usize) -> Result<Vec<Bit>, String> {
    let pieces: Vec<&[u8]> = line.split(|&byte| is_gap(byte)).filter(|piece| !piece.is_empty()).collect();
    if let [digits] = pieces[..] {
        if digits.len() == n && digits.iter().all(|digit| b"01?".contains(digit)) {
            return Ok(digits.chunks(1).filter_map(value).collect());
        }
    }
    let mut bits = Vec::with_capacity(n);
    for (place, piece) in pieces.iter().enumerate() {
        let wrong = || format!("{} at place {place} is none of 0, 1, ? and a decimal number", quoted(piece));
        bits.push(value(piece).ok_or_else(wrong)?);
    }
    if bits.len() == n {
        Ok(bits)
    } else {
        Err(format!("{} values, and a word has {n}", bits.len()))
    }
}

/// A bit of a word. A number that is too large or none is the library's to refuse.
fn value(piece: &[u8]) -> Option<Bit> {
    match piece {
        b"0" => Some(Bit::Sure(false)),
        b"1" => Some(Bit::Sure(true)),
        b"?" | b"." => Some(Bit::Erased),
        _ => std::str::from_utf8(piece).ok()?.parse().ok().map(Bit::Soft),
    }
}

/// A bit as it is read; a float has a point or an exponent, and reads back to itself.
pub fn shown(bit: Bit) -> String {
    match bit {
        Bit::Soft(value) => format!("{value:?}"),
        sure_or_erased => hard(sure_or_erased).to_string(),
    }
}

/// The digit that a bit favours; a soft zero favours none.
pub fn hard(bit: Bit) -> char {
    match bit {
        Bit::Sure(false) => '0',
        Bit::Sure(true) => '1',
        Bit::Soft(value) if value > 0.0 => '0',
        Bit::Soft(value) if value < 0.0 => '1',
        Bit::Soft(_) | Bit::Erased => '?',
    }
}

fn line(bits: &[Bit], as_digits: bool) -> String {
    if as_digits {
        bits.iter().map(|&bit| hard(bit)).collect()
    } else {
        bits.iter().map(|&bit| shown(bit)).collect::<Vec<_>>().join(" ")
    }
}

pub fn run(mut args: Args) -> Result<u8, Fault> {
    let (from, as_digits) = (args.format("--from")?, args.flag("--hard"));
    let extended = args.choice("--by", &EITHER)?.unwrap_or(false);
    let rounds = args.number("--rounds", 1, ROUNDS_MOST)?.unwrap_or(ROUNDS);
    let [path] = args.files(["FILE"])?;
    let refused = |refusal| files::refused(&path, refusal);
    let matrix = files::read_beside_words(&path, from)?.either(extended).map_err(refused)?;
    let n = matrix.n;
    let (mut decoder, mut bad) = (Decoder::new(matrix, rounds), BadLines::default());
    lines::each(|number, received, out| {
        let decoded = read(received, n).and_then(|mut bits| match decoder.decode(&mut bits) {
            Ok(()) => Ok(Ok(line(&bits, as_digits))),
            Err(refusal @ Refusal::Float { .. }) => Err(refusal.to_string()),
            Err(refusal) => Ok(Err(refused(refusal))),
        });
        match decoded {
            Ok(line) => out.extend_from_slice(line?.as_bytes()),
            Err(what) => {
                bad.add(number, &what);
                out.extend_from_slice(received);
            }
        }
        Ok(())
    })?;
    bad.end();
    Ok(bad.status(crate::DONE))
}
