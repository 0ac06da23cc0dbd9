//! Standard output and standard error; neither ends the program by a panic.

use crate::fault::Fault;
use std::io::{self, Write};

pub const OUTPUT: &str = "standard output";

/// A line on standard error. Where even that fails nothing can be said.
pub fn message(line: &str) {
    let _ = writeln!(io::stderr(), "{line}");
}

/// Writes bytes to standard output.
pub fn bytes(bytes: &[u8]) -> Result<(), Fault> {
    let mut out = io::stdout().lock();
    out.write_all(bytes).and_then(|_| out.flush()).map_err(|error| Fault::stream(OUTPUT, &error.to_string()))
}

/// Writes a text to standard output.
pub fn text(text: &str) -> Result<u8, Fault> {
    bytes(text.as_bytes())?;
    Ok(crate::DONE)
}
