//! `parity message`: codewords, each to the message that it holds.

use crate::args::Args;
use crate::fault::Fault;
use crate::files;
use crate::lines;
use crate::matrix::Matrix;
use crate::words::{digit, erased, Form};
use parity::Refusal;

pub fn run(args: Args) -> Result<u8, Fault> {
    let (path, given) = files::given_beside_words(args)?;
    let refused = |refusal| files::refused(&path, refusal);
    let bits = given.message_bits().map_err(refused)?;
    let mut status = crate::DONE;
    let bad = lines::of_form(Form::word(given.n), |word, _, out| {
        let start = out.len();
        out.extend(bits.iter().map(|&bit| digit(word[bit])));
        if !agrees(&given, word).map_err(refused)? {
            status = crate::IN_PART;
            out[start..].fill(b'?');
        }
        Ok(())
    })?;
    Ok(bad.status(status))
}

/// Whether some codeword agrees with the word, whose erased bits may be written.
fn agrees(given: &Matrix, word: &mut [u8]) -> Result<bool, Refusal> {
    let Matrix { words, n, m, k } = given;
    if erased(word) == 0 {
        return parity::verify(words, *n, *m, *k, word);
    }
    match parity::determine(words, *n, *m, *k, word) {
        Ok(_) => Ok(true),
        Err(Refusal::Contradiction) => Ok(false),
        Err(refusal) => Err(refusal),
    }
}
