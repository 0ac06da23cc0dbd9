//! `parity same`: whether two matrices have the same code.

use crate::args::Args;
use crate::fault::{shown, Fault};
use crate::files;
use crate::matrix::Matrix;
use crate::output;
use crate::words::digit;
use parity::Refusal;
use std::path::Path;

/// The codewords of the messages with a single one. Every codeword is a sum of some of them.
fn codewords(given: &Matrix) -> Result<Vec<Vec<u8>>, Refusal> {
    let length = given.n - given.rank()?;
    let of = |one: usize| {
        let message: Vec<u8> = (0..length).map(|bit| u8::from(bit == one)).collect();
        let mut word = vec![0; given.n];
        parity::encode(&given.words, given.n, given.m, 0, &message, &mut word).map(|()| word)
    };
    (0..length).map(of).collect()
}

/// A codeword of the first that is none of the second, if there is one. Both have k = 0 and as many bits.
pub fn beyond(first: &Matrix, second: &Matrix) -> Result<Option<Vec<u8>>, Refusal> {
    for word in codewords(first)? {
        if !parity::verify(&second.words, second.n, second.m, 0, &word)? {
            return Ok(Some(word));
        }
    }
    Ok(None)
}

pub fn run(mut args: Args) -> Result<u8, Fault> {
    let from = args.format("--from")?;
    let [first, second] = args.files(["A", "B"])?;
    if files::is_stream(&first) && files::is_stream(&second) {
        return Err(Fault::usage("A and B are both standard input, and one of them needs a file of its own"));
    }
    let given = |path: &Path| files::read(path, from)?.given().map_err(|refusal| files::refused(path, refusal));
    let (a, b) = (given(&first)?, given(&second)?);
    match difference((&first, &a), (&second, &b))? {
        None => output::text("the same code\n"),
        Some(why) => {
            output::text(&format!("not the same code: {why}\n"))?;
            Ok(crate::IN_PART)
        }
    }
}

/// What shows that the codes are not the same.
fn difference(first: (&Path, &Matrix), second: (&Path, &Matrix)) -> Result<Option<String>, Fault> {
    let (a, b) = (first.1.n, second.1.n);
    if a != b {
        return Ok(Some(format!("words of {a} bits, and of {b}")));
    }
    for ((path, given), (other, others)) in [(first, second), (second, first)] {
        if let Some(word) = beyond(given, others).map_err(|refusal| files::refused(path, refusal))? {
            let word: String = word.into_iter().map(|bit| char::from(digit(bit))).collect();
            let (path, other) = (files::name(path), files::name(other));
            return Ok(Some(shown(&format!("{word} is a codeword of {path} and none of {other}"))));
        }
    }
    Ok(None)
}
