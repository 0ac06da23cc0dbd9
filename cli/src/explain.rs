//! `parity explain`: of each word, why its erased bits are recovered or not.

use crate::args::Args;
use crate::certificates::{self, Explanation, Reason};
use crate::fault::Fault;
use crate::files;
use crate::json;
use crate::lines::{self, BadLines, INPUT};
use crate::matrix::{Matrix, EITHER};
use crate::words::{digit, Form};

/// A word with its certificates, which have been checked.
pub struct Explained<'a> {
    matrix: &'a Matrix,
    line: u64,
    received: Vec<u8>,
    mended: Vec<u8>,
    explanation: Explanation,
}

fn listed(numbers: &[usize]) -> String {
    if numbers.is_empty() {
        "none".to_string()
    } else {
        numbers.iter().map(usize::to_string).collect::<Vec<_>>().join(" ")
    }
}

fn checks_text(checks: &[usize]) -> String {
    match checks {
        [one] => format!("check {one}"),
        several => format!("the sum of checks {}", listed(several)),
    }
}

fn reason_text(reason: &Reason) -> String {
    match reason {
        Reason::Solved { turn, check, value, with } => {
            format!("= {value}, turn {turn}: check {check}, with bits {}", listed(with))
        }
        Reason::Summed { checks, value, with } => {
            format!("= {value}: {}, with received bits {}", checks_text(checks), listed(with))
        }
        Reason::Unknown { ones } => {
            format!("is unknown: a codeword inside the losses has ones at {}", listed(ones))
        }
    }
}

fn reason_json(bit: usize, reason: &Reason) -> String {
    let mut fields = vec![("bit", bit.to_string())];
    match reason {
        Reason::Solved { turn, check, value, with } => fields.extend([
            ("value", value.to_string()),
            ("turn", turn.to_string()),
            ("check", check.to_string()),
            ("with", json::list(with)),
        ]),
        Reason::Summed { checks, value, with } => {
            fields.extend([("value", value.to_string()), ("checks", json::list(checks)), ("with", json::list(with))])
        }
        Reason::Unknown { ones } => fields.push(("codeword", json::list(ones))),
    }
    json::object(&fields)
}

impl Explained<'_> {
    /// A word of n + k bits with certificates. Where these fail that is a fault of its own.
    pub fn new(
        matrix: &Matrix,
        line: u64,
        received: Vec<u8>,
        explanation: Explanation,
    ) -> Result<Explained<'_>, Fault> {
        match certificates::check(matrix, &received, &explanation) {
            Ok(mended) => Ok(Explained { matrix, line, received, mended, explanation }),
            Err(what) => Err(Fault::disagreement(&format!("{INPUT}:{line}"), &what)),
        }
    }

    pub fn contradicts(&self) -> bool {
        matches!(self.explanation, Explanation::Contradicting { .. })
    }

    /// The sent bits of a word.
    fn sent(&self, word: &[u8]) -> String {
        word[..self.matrix.n].iter().map(|&byte| char::from(digit(byte))).collect()
    }

    /// Lines that are joined by newlines, without the last.
    pub fn text(&self) -> String {
        let (line, word) = (self.line, self.sent(&self.received));
        let mut lines = match &self.explanation {
            Explanation::Agreeing(_) => vec![format!("line {line}: {word} -> {}", self.sent(&self.mended))],
            Explanation::Contradicting { checks, with } => vec![
                format!("line {line}: {word} contradicts the checks"),
                format!("  {} has no erased bit, and its bits {} sum to 1", checks_text(checks), listed(with)),
            ],
        };
        if let Explanation::Agreeing(reasons) = &self.explanation {
            lines.extend(reasons.iter().map(|(bit, reason)| format!("  bit {bit} {}", reason_text(reason))));
        }
        lines.join("\n")
    }

    pub fn json(&self) -> String {
        let word = json::string(&self.sent(&self.received));
        let mut fields = vec![("line", self.line.to_string()), ("word", word)];
        match &self.explanation {
            Explanation::Agreeing(reasons) => fields.extend([
                ("mended", json::string(&self.sent(&self.mended))),
                ("bits", json::list(reasons.iter().map(|(bit, reason)| reason_json(*bit, reason)))),
            ]),
            Explanation::Contradicting { checks, with } => fields
                .push(("contradiction", json::object(&[("checks", json::list(checks)), ("with", json::list(with))]))),
        }
        json::object(&fields)
    }
}

fn no_word(line: u64, what: &str, as_json: bool) -> String {
    if as_json {
        json::object(&[("line", line.to_string()), ("no_word", json::string(what))])
    } else {
        format!("line {line}: no word")
    }
}

pub fn run(mut args: Args) -> Result<u8, Fault> {
    let (from, as_json) = (args.format("--from")?, args.flag("--json"));
    let extended = args.choice("--by", &EITHER)?.unwrap_or(false);
    let [path] = args.files(["FILE"])?;
    let refused = |refusal| files::refused(&path, refusal);
    let matrix = files::read_beside_words(&path, from)?.either(extended).map_err(refused)?;
    let (form, mut word, mut bad) = (Form::word(matrix.n), Vec::new(), BadLines::default());
    let mut status = crate::DONE;
    lines::each(|number, line, out| {
        let text = match form.read(line, &mut word) {
            Ok(()) => {
                word.resize(matrix.n + matrix.k, 2);
                let explanation = certificates::explain(&matrix, &word);
                let explained = Explained::new(&matrix, number, word.clone(), explanation)?;
                if explained.contradicts() {
                    status = crate::IN_PART;
                }
                if as_json {
                    explained.json()
                } else {
                    explained.text()
                }
            }
            Err(what) => {
                bad.add(number, &what);
                no_word(number, &what, as_json)
            }
        };
        out.extend_from_slice(text.as_bytes());
        Ok(())
    })?;
    bad.end();
    Ok(bad.status(status))
}
