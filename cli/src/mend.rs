//! `parity mend`: words as lines of 0, 1 and ? (or `.`), each mended where it stands.

use crate::args::Args;
use crate::fault::Fault;
use crate::files;
use crate::lines;
use crate::matrix::Matrix;
use crate::output;
use crate::words::{digit, erased, marks, Form};
use parity::Refusal;

/// The call that mends a word. `Determine` and `Block` leave the same word and refuse the same ones (`MendedAsDetermined`).
#[derive(Clone, Copy, PartialEq, Eq, Debug)]
pub enum By {
    Given,
    Extended,
    Determine,
    Block,
}

/// The ways as `--by` names them.
const WAYS: [(&str, By); 4] =
    [("given", By::Given), ("extended", By::Extended), ("determine", By::Determine), ("block", By::Block)];

/// A matrix in the words that its call reads.
pub struct Mender {
    matrix: Matrix,
    by: By,
}

impl Mender {
    /// The matrix is made ready once: its splits taken back, or orthogonalised.
    pub fn new(matrix: &Matrix, by: By) -> Result<Mender, Refusal> {
        Ok(Mender { matrix: matrix.either(by == By::Extended)?, by })
    }

    /// Mends the n bits of a word, and puts the added ones behind them.
    pub fn mend(&self, word: &mut Vec<u8>) -> Result<(), Refusal> {
        let Matrix { words, n, m, k } = &self.matrix;
        word.resize(n + k, 2);
        match self.by {
            By::Given | By::Extended => parity::peel(words, *n, *m, *k, word).map(|_| ()),
            By::Determine => parity::determine(words, *n, *m, *k, word).map(|_| ()),
            By::Block => parity::mend_block(words, *n, *m, *k, word).map(|_| ()),
        }
    }
}

/// Puts the bits that are known into the line; answers how many are not.
fn put(word: &[u8], line: &mut [u8]) -> usize {
    let mut left = 0;
    for (character, &byte) in marks(line).zip(word) {
        if byte < 2 {
            *character = digit(byte);
        } else {
            left += 1;
        }
    }
    left
}

/// What the words so far came to.
#[derive(Default)]
struct Tally {
    words: u64,
    erased: u64,
    left: u64,
    contradictions: u64,
}

impl Tally {
    fn add(&mut self, erased: usize, left: usize) {
        self.words += 1;
        self.erased += erased as u64;
        self.left += left as u64;
    }

    fn summary(&self, no_words: u64) -> String {
        let Tally { words, erased, left, contradictions } = self;
        let recovered = erased - left;
        format!(
            "words {words}, bits erased {erased}, recovered {recovered}, left {left}, contradictions {contradictions}, \
             lines that are no words {no_words}"
        )
    }
}

pub fn run(mut args: Args) -> Result<u8, Fault> {
    let (from, by) = (args.format("--from")?, args.choice("--by", &WAYS)?.unwrap_or(By::Determine));
    let [path] = args.files(["FILE"])?;
    let matrix = files::read_beside_words(&path, from)?;
    let refused = |refusal| files::refused(&path, refusal);
    let mender = Mender::new(&matrix, by).map_err(refused)?;
    let mut tally = Tally::default();
    let bad = lines::of_form(Form::word(matrix.n), |word, line, out| {
        let (start, erased) = (out.len(), erased(word));
        out.extend_from_slice(line);
        match mender.mend(word) {
            Ok(()) => tally.add(erased, put(word, &mut out[start..])),
            // The checks cannot be made even: the line is as it was.
            Err(Refusal::Contradiction) => {
                tally.contradictions += 1;
                tally.add(erased, erased);
            }
            Err(refusal) => return Err(refused(refusal)),
        }
        Ok(())
    })?;
    output::message(&tally.summary(bad.count()));
    Ok(bad.status(if tally.contradictions > 0 { crate::IN_PART } else { crate::DONE }))
}
