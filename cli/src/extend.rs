//! `parity extend`: a matrix orthogonalised, with its splits in a record.

use crate::args::Args;
use crate::fault::Fault;
use crate::files::{self, Format};
use crate::matrix::Extended;
use crate::output::{self, OUTPUT};
use crate::places;
use parity::Refusal;
use std::path::Path;

pub fn run(mut args: Args) -> Result<u8, Fault> {
    let from = args.format("--from")?;
    let [input, out] = args.files(["FILE", "OUT"])?;
    let mut named = vec![("FILE", places::input(&input)), ("OUT", places::output(&out))];
    if !files::is_stream(&out) {
        named.push((OUTPUT, Path::new(places::OUTPUT)));
    }
    places::apart(&named)?;
    is_record(&out)?;
    let matrix = files::read(&input, from)?;
    let extended = matrix.extended().map_err(|refusal| files::refused(&input, refusal))?;
    let bytes = files::give(&extended.matrix, Format::Record).map_err(|what| Fault::file(&input, &what))?;
    let report = report(&extended).map_err(|refusal| files::refused(&input, refusal))?;
    files::write(&out, &bytes)?;
    if files::is_stream(&out) {
        output::message(&report);
    } else {
        output::text(&(report + "\n"))?;
    }
    Ok(if extended.complete { crate::DONE } else { crate::IN_PART })
}

/// Splits stand in records only: a name that says another format is refused.
fn is_record(out: &Path) -> Result<(), Fault> {
    match Format::by_extension(out) {
        None | Some(Format::Record) => Ok(()),
        Some(_) => Err(Fault::usage(&format!("{}: extend writes records only; name OUT with .rec", out.display()))),
    }
}

fn report(extended: &Extended) -> Result<String, Refusal> {
    let Extended { matrix, splits, sum, .. } = extended;
    Ok(format!("splits {splits}, sum {sum}, k {}, cycles left {}", matrix.k, matrix.count()?))
}
