//! `parity verify`: whether each word is a codeword.

use crate::args::Args;
use crate::fault::Fault;
use crate::files;
use crate::lines;
use crate::words::Form;

pub fn run(args: Args) -> Result<u8, Fault> {
    let (path, given) = files::given_beside_words(args)?;
    let mut status = crate::DONE;
    let bad = lines::of_form(Form::whole_word(given.n), |word, _, out| {
        let verified = parity::verify(&given.words, given.n, given.m, 0, word);
        if verified.map_err(|refusal| files::refused(&path, refusal))? {
            out.extend_from_slice(b"yes");
        } else {
            out.extend_from_slice(b"no");
            status = crate::IN_PART;
        }
        Ok(())
    })?;
    Ok(bad.status(status))
}
