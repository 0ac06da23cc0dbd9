//! Lines as users write them, and lines that are damaged.

use crate::random::Random;

/// The characters of bits; an erased one as `?`.
pub fn digits(word: &[u8]) -> String {
    word.iter().map(|&bit| ['0', '1', '?'][usize::from(bit)]).collect()
}

/// The digits with blanks between some of them, and now and then a carriage return.
pub fn spaced(r: &mut Random, word: &[u8]) -> Vec<u8> {
    let part = r.pick(&[0, 0, 300]);
    let mut line = String::new();
    for c in digits(word).chars() {
        if r.chance(part) {
            line.push_str(r.pick(&[" ", "\t", ", ", "  "]));
        }
        line.push(if c == '?' { r.pick(&['?', '.']) } else { c });
    }
    if r.chance(100) {
        line.push_str(r.pick(&[" \r", "\r"]));
    }
    line.into_bytes()
}

/// The bits of a line, if these are so many and none above `most`.
pub fn bits(line: &[u8], length: usize, most: u8) -> Option<Vec<u8>> {
    let line = line.strip_suffix(b"\r").unwrap_or(line);
    let bit = |character: &u8| match character {
        b'0' => Some(0),
        b'1' => Some(1),
        b'?' | b'.' => Some(2),
        _ => None,
    };
    let found: Option<Vec<u8>> = line.iter().filter(|byte| !b" \t,".contains(byte)).map(bit).collect();
    found.filter(|bits| bits.len() == length && bits.iter().all(|&bit| bit <= most))
}

/// A line with one to three places taken out, put in or changed, without a newline.
pub fn damaged(r: &mut Random, mut line: Vec<u8>, pieces: &[&str]) -> Vec<u8> {
    for _ in 0..r.between(0, 3) {
        let place = r.below(line.len() + 1);
        let end = (place + r.below(3)).min(line.len());
        match r.below(5) {
            0 => drop(line.drain(place..end)),
            1 => drop(line.splice(place..place, r.pick(pieces).bytes())),
            2 => drop(line.splice(place..end, r.pick(pieces).bytes())),
            3 => line.iter_mut().skip(place).take(1).for_each(|byte| *byte = r.next() as u8),
            _ => line.truncate(line.len().max(1) - 1),
        }
    }
    line.retain(|&byte| byte != b'\n');
    line
}
