//! `parity inspect`: what the library says of a matrix.

use crate::args::Args;
use crate::fault::{self, Fault};
use crate::files;
use crate::json;
use crate::matrix::{Extended, Matrix};
use crate::output;
use crate::remarks;
use crate::stopping::{self, Sets};
use parity::{Refusal, SET_SIZE_MOST};
use std::collections::BTreeMap;

const SET_NAMES: [&str; SET_SIZE_MOST] =
    ["stopping sets of 1 bit", "stopping sets of 2 bits", "stopping sets of 3 bits", "stopping sets of 4 bits"];

/// The given matrix, without the splits that its file carries, and the matrix orthogonalised from these splits on.
pub struct Findings {
    pub given: Matrix,
    pub carried: usize,
    pub rank: usize,
    /// The bits that hold the message, rising.
    pub message_bits: Vec<usize>,
    pub remarks: Vec<String>,
    pub cycles: u64,
    pub sets: Vec<Sets>,
    pub extended: Extended,
    pub cycles_left: u64,
}

pub fn run(mut args: Args) -> Result<u8, Fault> {
    let (from, as_json) = (args.format("--from")?, args.flag("--json"));
    let [path] = args.files(["FILE"])?;
    let matrix = files::read(&path, from)?;
    let found = findings(&matrix).map_err(|refusal| files::refused(&path, refusal))?;
    let name = files::name(&path);
    output::text(&if as_json { found.json(&name) } else { found.text(&name) })
}

pub fn findings(matrix: &Matrix) -> Result<Findings, Refusal> {
    let given = matrix.given()?;
    let extended = matrix.extended()?;
    let rank = given.rank()?;
    Ok(Findings {
        carried: matrix.k,
        rank,
        message_bits: given.message_bits()?,
        remarks: remarks::of(&given, rank),
        cycles: given.count()?,
        sets: stopping::listed(&given)?,
        cycles_left: extended.matrix.count()?,
        given,
        extended,
    })
}

/// The weights of the checks and those of the bits.
pub fn weights(given: &Matrix) -> (Vec<usize>, Vec<usize>) {
    let rows = given.rows();
    let mut bits = vec![0; given.n];
    rows.iter().flatten().for_each(|&bit| bits[bit] += 1);
    (rows.iter().map(Vec::len).collect(), bits)
}

/// Each weight that is met, and how often.
pub fn met(weights: &[usize]) -> BTreeMap<usize, usize> {
    let mut met = BTreeMap::new();
    weights.iter().for_each(|weight| *met.entry(*weight).or_insert(0) += 1);
    met
}

/// The same in words.
pub fn tally(weights: &[usize]) -> String {
    let met: Vec<String> = met(weights).iter().map(|(weight, times)| format!("{times} of weight {weight}")).collect();
    if met.is_empty() {
        "none".to_string()
    } else {
        met.join(", ")
    }
}

/// Rising numbers, those in a row as the first and the last of them.
pub fn ranges(numbers: &[usize]) -> String {
    let rows = numbers.chunk_by(|one, next| one + 1 == *next);
    let shown = |row: &[usize]| match row {
        [first, .., last] => format!("{first}-{last}"),
        row => row.iter().map(usize::to_string).collect(),
    };
    let rows: Vec<String> = rows.map(shown).collect();
    if rows.is_empty() {
        "none".to_string()
    } else {
        rows.join(" ")
    }
}

impl Findings {
    pub fn rate(&self) -> f64 {
        (self.given.n - self.rank) as f64 / self.given.n as f64
    }

    pub fn text(&self, name: &str) -> String {
        let Findings { given, carried, rank, cycles, extended, cycles_left, .. } = self;
        let (n, message, rate) = (given.n, given.n - rank, self.rate());
        let (checks, bits) = weights(given);
        let mut lines = vec![
            ("file", fault::shown(name)),
            ("sent bits n", n.to_string()),
            ("given checks m", given.m.to_string()),
            ("carried splits", carried.to_string()),
            ("ones", given.ones().to_string()),
            ("weights of checks", tally(&checks)),
            ("weights of bits", tally(&bits)),
            ("rank", rank.to_string()),
            ("rate", format!("{rate:.4} ({message} of {n})")),
            ("message bits", ranges(&self.message_bits)),
            ("cycle count", cycles.to_string()),
        ];
        lines
            .extend(SET_NAMES.into_iter().zip(self.sets.iter().map(|sets| format!("{}{}", sets.count, sets.listed()))));
        lines.extend(self.remarks.iter().map(|remark| ("remark", remark.clone())));
        lines.extend([
            ("orthogonalised:", String::new()),
            ("splits made", extended.splits.to_string()),
            ("sum", extended.sum.to_string()),
            ("added bits k", extended.matrix.k.to_string()),
            ("cycles left", cycles_left.to_string()),
            ("ones", extended.matrix.ones().to_string()),
        ]);
        lines.iter().map(|(name, value)| format!("{}\n", format!("{name:25}{value}").trim_end())).collect()
    }

    pub fn json(&self, name: &str) -> String {
        let Findings { given, carried, rank, cycles, sets, extended, cycles_left, .. } = self;
        let (checks, bits) = weights(given);
        let after = json::object(&[
            ("complete", extended.complete.to_string()),
            ("splits", extended.splits.to_string()),
            ("sum", extended.sum.to_string()),
            ("k", extended.matrix.k.to_string()),
            ("cycles_left", cycles_left.to_string()),
            ("ones", extended.matrix.ones().to_string()),
        ]);
        let whole = json::object(&[
            ("file", json::string(name)),
            ("n", given.n.to_string()),
            ("m", given.m.to_string()),
            ("carried_splits", carried.to_string()),
            ("ones", given.ones().to_string()),
            ("check_weights", json::list(checks)),
            ("bit_weights", json::list(bits)),
            ("rank", rank.to_string()),
            ("rate", format!("{:.6}", self.rate())),
            ("message_bits", json::list(&self.message_bits)),
            ("cycles", cycles.to_string()),
            ("stopping_sets", json::list(sets.iter().map(Sets::json))),
            ("remarks", json::list(self.remarks.iter().map(|remark| json::string(remark)))),
            ("orthogonalised", after),
        ]);
        whole + "\n"
    }
}
