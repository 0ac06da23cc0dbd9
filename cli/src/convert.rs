//! `parity convert`: a matrix from one format into another.

use crate::args::Args;
use crate::fault::Fault;
use crate::files::{self, Format};
use crate::places;

pub fn run(mut args: Args) -> Result<u8, Fault> {
    let (from, to, given) = (args.format("--from")?, args.format("--to")?, args.flag("--given"));
    let [input, output] = args.files(["IN", "OUT"])?;
    let to = Format::of(&output, to, "--to")?;
    places::apart(&[("IN", places::input(&input)), ("OUT", places::output(&output))])?;
    let mut matrix = files::read(&input, from)?;
    if given {
        matrix = matrix.given().map_err(|refusal| files::refused(&input, refusal))?;
    }
    let bytes = files::give(&matrix, to).map_err(|what| Fault::file(&input, &what))?;
    files::write(&output, &bytes)?;
    Ok(crate::DONE)
}
