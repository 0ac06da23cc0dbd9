//! What goes wrong, in one line.

use crate::files;
use std::fmt;
use std::path::Path;

/// A line for standard error, and the exit status that goes with it.
#[derive(Clone, PartialEq, Eq, Debug)]
pub struct Fault {
    status: u8,
    what: String,
}

/// What is wrong with a file of text, and on which of its lines, counted from 1.
#[derive(Clone, PartialEq, Eq, Debug)]
pub struct LineFault {
    pub line: usize,
    pub what: String,
}

impl LineFault {
    pub fn new(line: usize, what: String) -> LineFault {
        LineFault { line, what }
    }
}

impl Fault {
    /// Wrong arguments.
    pub fn usage(what: &str) -> Fault {
        Fault { status: crate::USAGE, what: what.to_string() }
    }

    /// A file that cannot be read, written or taken.
    pub fn file(path: &Path, what: &str) -> Fault {
        Fault::stream(&files::name(path), what)
    }

    /// A line of a file that cannot be taken.
    pub fn line(path: &Path, fault: &LineFault) -> Fault {
        Fault::stream(&format!("{}:{}", files::name(path), fault.line), &fault.what)
    }

    /// Standard input or output that fails.
    pub fn stream(name: &str, what: &str) -> Fault {
        Fault { status: crate::REFUSED, what: format!("{name}: {what}") }
    }

    /// What the program found and the library's answer do not go together.
    pub fn disagreement(name: &str, what: &str) -> Fault {
        Fault { status: crate::DISAGREES, ..Fault::stream(name, what) }
    }

    pub fn status(&self) -> u8 {
        self.status
    }
}

/// One line, whatever a file's name or an argument holds.
impl fmt::Display for Fault {
    fn fmt(&self, f: &mut fmt::Formatter<'_>) -> fmt::Result {
        write!(f, "parity: {}", shown(&self.what))
    }
}

/// A text with its control characters and byte order marks written out, so that it is one line.
pub fn shown(text: &str) -> String {
    let is_hidden = |c: char| c.is_control() || c == '\u{feff}';
    text.chars().flat_map(|c| if is_hidden(c) { c.escape_default().collect() } else { vec![c] }).collect()
}

/// The front of a piece of a file, for a message.
pub fn quoted(piece: &[u8]) -> String {
    const MOST: usize = 20;
    if let Some(mark) = byte_order_mark(piece) {
        return mark.to_string();
    }
    let front = String::from_utf8_lossy(&piece[..piece.len().min(MOST)]).into_owned();
    format!("'{}{}'", shown(&front), if piece.len() > MOST { ".." } else { "" })
}

/// The byte order mark at the front of a text, which editors put there unseen.
pub fn byte_order_mark(text: &[u8]) -> Option<&'static str> {
    match text {
        [0xEF, 0xBB, 0xBF, ..] => Some("a byte order mark (UTF-8)"),
        [0xFF, 0xFE, ..] | [0xFE, 0xFF, ..] => Some("a byte order mark (UTF-16)"),
        _ => None,
    }
}

/// The first character of a piece of a line, for a message.
pub fn character(piece: &[u8]) -> String {
    let length =
        |chunk: std::str::Utf8Chunk| chunk.valid().chars().next().map_or(chunk.invalid().len(), char::len_utf8);
    let first = piece.utf8_chunks().next().map_or(0, length);
    if byte_order_mark(piece).is_some() {
        quoted(piece)
    } else {
        quoted(&piece[..first])
    }
}
