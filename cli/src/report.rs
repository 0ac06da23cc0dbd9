//! `parity report`: what is known of a matrix, on one page.

use crate::args::Args;
use crate::curve::{self, Measured, Over};
use crate::erasures::Setup;
use crate::fault::Fault;
use crate::files::{self, Format};
use crate::inspect::findings;
use crate::matrix::Matrix;
use crate::measure::Plan;
use crate::page::Page;
use crate::places;
use crate::stopping;
use parity::Refusal;
use std::path::Path;

/// Fewer words than a picture of its own has.
const WORDS: u64 = 1000;

/// The most stopping sets that are shown.
const SHOWN: usize = 4;

pub fn run(mut args: Args) -> Result<u8, Fault> {
    let (from, out) = (args.format("--from")?, args.path("--out")?);
    let plan = curve::plan(&mut args, WORDS)?;
    let [path] = args.files(["FILE"])?;
    let Some(out) = out else { return Err(Fault::usage("report needs --out and the name of a page; see --help")) };
    places::apart(&[("FILE", places::input(&path)), ("--out", places::output(&out))])?;
    let matrix = files::read(&path, from)?;
    let command = command(&path, from, &out, plan);
    let page = page(&matrix, &files::title(&path), command, plan, curve::threads());
    files::write(&out, page.map_err(|refusal| files::refused(&path, refusal))?.as_bytes())?;
    Ok(crate::DONE)
}

/// The page of a matrix, measured on so many threads.
pub fn page(matrix: &Matrix, name: &str, command: String, plan: Plan, threads: usize) -> Result<String, Refusal> {
    let found = findings(matrix)?;
    let splits = found.extended.matrix.splits()?;
    let listed = found.sets.iter().flat_map(|sets| &sets.first).take(SHOWN);
    let mut shown: Vec<Vec<usize>> = listed.map(|set| set.iter().map(|&bit| usize::from(bit)).collect()).collect();
    let is_searched = shown.is_empty();
    if is_searched {
        shown = stopping::found(&found.given)?;
        shown.truncate(SHOWN);
    }
    let measured = Measured::new(name, Setup::new(matrix)?, Over::Erasures, plan, threads)?;
    Ok(Page { name: name.to_string(), command, found, splits, shown, is_searched, measured, plan }.html())
}

/// The command that makes the page, with all that it depends on.
fn command(path: &Path, from: Option<Format>, out: &Path, plan: Plan) -> String {
    let word = |path: &Path| quoted(&path.to_string_lossy());
    let mut words = vec!["parity report".to_string(), word(path), format!("--out {}", word(out))];
    words.extend(from.map(|from| format!("--from {}", from.name())));
    words.push(format!("--words {} --seed {}", plan.words, plan.seed));
    words.extend(plan.errors.map(|errors| format!("--errors {errors}")));
    words.join(" ")
}

/// A name as a shell and the program take it: in quotes where it needs them, and no option.
fn quoted(name: &str) -> String {
    let word = if name.len() > 1 && name.starts_with('-') { format!("./{name}") } else { name.to_string() };
    let is_plain = |c: char| c.is_ascii_alphanumeric() || "-_./,:+@%=".contains(c);
    if !word.is_empty() && word.chars().all(is_plain) {
        word
    } else {
        format!("'{}'", word.replace('\'', "'\\''"))
    }
}
