//! The lines of standard input, each answered on standard output.

use crate::fault::Fault;
use crate::output::{self, OUTPUT};
use crate::words::Form;
use std::io::{self, ErrorKind, Read, Write};

pub const INPUT: &str = "standard input";

/// How many bytes of the input are asked for at once.
const PIECE: usize = 1 << 16;

/// So many lines that cannot be taken are named, and the further ones counted.
const NAMED: u64 = 10;

/// The lines so far that are not what the command reads.
#[derive(Default)]
pub struct BadLines(u64);

impl BadLines {
    pub fn add(&mut self, number: u64, what: &str) {
        self.0 += 1;
        if self.0 <= NAMED {
            output::message(&Fault::stream(&format!("{INPUT}:{number}"), what).to_string());
        }
    }

    pub fn count(&self) -> u64 {
        self.0
    }

    /// Says how many were not named.
    pub fn end(&self) {
        match self.0.saturating_sub(NAMED) {
            0 => {}
            1 => output::message(&Fault::stream(INPUT, "1 more line like these").to_string()),
            more => output::message(&Fault::stream(INPUT, &format!("{more} more lines like these")).to_string()),
        }
    }

    /// The exit status of a command whose other lines came to this one.
    pub fn status(&self, others: u8) -> u8 {
        if self.0 > 0 {
            crate::NO_WORD
        } else {
            others
        }
    }
}

/// Gives `answer` every line of standard input, by its number from 1 and without its ending, and the bytes behind which
/// it puts what goes to standard output. Every answer gets the ending of its line.
pub fn each(mut answer: impl FnMut(u64, &[u8], &mut Vec<u8>) -> Result<(), Fault>) -> Result<(), Fault> {
    let mut number = 0;
    stream(&mut io::stdin().lock(), &mut io::stdout().lock(), |line, out| {
        number += 1;
        let end = line.len() - usize::from(line.last() == Some(&b'\r'));
        answer(number, &line[..end], out)?;
        out.extend_from_slice(&line[end..]);
        out.push(b'\n');
        Ok(())
    })
}

/// Gives `answer` the bits of every line of a form, and the line. Another line comes out as it was, and is named.
pub fn of_form(
    form: Form,
    mut answer: impl FnMut(&mut Vec<u8>, &[u8], &mut Vec<u8>) -> Result<(), Fault>,
) -> Result<BadLines, Fault> {
    let (mut bits, mut bad) = (Vec::new(), BadLines::default());
    each(|number, line, out| match form.read(line, &mut bits) {
        Ok(()) => answer(&mut bits, line, out),
        Err(what) => {
            bad.add(number, &what);
            out.extend_from_slice(line);
            Ok(())
        }
    })?;
    bad.end();
    Ok(bad)
}

/// Gives every line, without its newline, to `answer`; what that puts for the lines at hand goes out before more is read,
/// and before a fault ends it.
fn stream(
    input: &mut impl Read,
    out: &mut impl Write,
    mut answer: impl FnMut(&[u8], &mut Vec<u8>) -> Result<(), Fault>,
) -> Result<(), Fault> {
    let (mut buffer, mut answers) = (vec![0; PIECE], Vec::new());
    // The first `filled` bytes are read and not yet answered; the first `seen` of them have no newline.
    let (mut filled, mut seen) = (0, 0);
    loop {
        if filled == buffer.len() {
            buffer.resize(2 * filled, 0);
        }
        let more = read(input, &mut buffer[filled..])?;
        if more == 0 {
            break;
        }
        filled += more;
        let mut start = 0;
        while let Some(place) = buffer[seen..filled].iter().position(|&byte| byte == b'\n') {
            answer(&buffer[start..seen + place], &mut answers)
                .or_else(|fault| write(out, &mut answers).and(Err(fault)))?;
            (start, seen) = (seen + place + 1, seen + place + 1);
        }
        write(out, &mut answers)?;
        buffer.copy_within(start..filled, 0);
        filled -= start;
        seen = filled;
    }
    if filled > 0 {
        answer(&buffer[..filled], &mut answers)?;
    }
    write(out, &mut answers)
}

fn read(input: &mut impl Read, buffer: &mut [u8]) -> Result<usize, Fault> {
    loop {
        match input.read(buffer) {
            Err(error) if error.kind() == ErrorKind::Interrupted => {}
            other => return other.map_err(|error| Fault::stream(INPUT, &error.to_string())),
        }
    }
}

fn write(out: &mut impl Write, answers: &mut Vec<u8>) -> Result<(), Fault> {
    let written = if answers.is_empty() { Ok(()) } else { out.write_all(answers).and_then(|_| out.flush()) };
    answers.clear();
    written.map_err(|error| Fault::stream(OUTPUT, &error.to_string()))
}
