//! `parity encode`: messages as lines of digits, each to the codeword that holds it.

use crate::args::Args;
use crate::fault::Fault;
use crate::files;
use crate::lines;
use crate::words::{digit, Form};

pub fn run(args: Args) -> Result<u8, Fault> {
    let (path, given) = files::given_beside_words(args)?;
    let refused = |refusal| files::refused(&path, refusal);
    let form = Form::message(given.n - given.rank().map_err(refused)?);
    let mut word = vec![0; given.n];
    let bad = lines::of_form(form, |message, _, out| {
        parity::encode(&given.words, given.n, given.m, 0, message, &mut word).map_err(refused)?;
        out.extend(word.iter().map(|&bit| digit(bit)));
        Ok(())
    })?;
    Ok(bad.status(crate::DONE))
}
