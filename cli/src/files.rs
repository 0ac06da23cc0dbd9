//! Matrix files: which format a file has, reading and writing it.

use crate::args::Args;
use crate::fault::{byte_order_mark, Fault, LineFault};
use crate::lines::INPUT;
use crate::matrix::Matrix;
use crate::{alist, output, record, replace, text};
use parity::Refusal;
use std::fs::File;
use std::io::{self, Read};
use std::path::{Path, PathBuf};

/// No file of a matrix that can be taken is longer.
pub const LONGEST: usize = 1 << 20;

#[derive(Clone, Copy, PartialEq, Eq, Debug)]
pub enum Format {
    Alist,
    Text,
    Record,
}

impl Format {
    /// By its name, or by the extension that stands for it.
    pub fn named(name: &str) -> Option<Format> {
        match name {
            "alist" => Some(Format::Alist),
            "text" | "txt" => Some(Format::Text),
            "record" | "rec" => Some(Format::Record),
            _ => None,
        }
    }

    /// The name that `--from` and `--to` take.
    pub fn name(self) -> &'static str {
        match self {
            Format::Alist => "alist",
            Format::Text => "text",
            Format::Record => "record",
        }
    }

    /// The format of a file's extension.
    pub fn by_extension(path: &Path) -> Option<Format> {
        Format::named(&path.extension()?.to_str()?.to_ascii_lowercase())
    }

    /// The format named, or else the one of the file's extension.
    pub fn of(path: &Path, named: Option<Format>, option: &str) -> Result<Format, Fault> {
        if let Some(format) = named.or(Format::by_extension(path)) {
            return Ok(format);
        }
        let why = match path.extension() {
            _ if path.is_dir() => return Err(Fault::file(path, DIRECTORY)),
            _ if is_stream(path) => "a stream has no extension",
            Some(_) => "the extension is none of .alist, .txt and .rec",
            None => "there is no extension",
        };
        Err(Fault::usage(&format!("{}: {why}; say {option} alist, text or record", path.display())))
    }
}

/// `-` is standard input, and as an output standard output.
pub fn is_stream(path: &Path) -> bool {
    path == Path::new("-")
}

/// What an input is called in messages.
pub fn name(path: &Path) -> String {
    if is_stream(path) {
        INPUT.to_string()
    } else {
        path.display().to_string()
    }
}

/// What an input is called in a picture: the file without its folder.
pub fn title(path: &Path) -> String {
    match path.file_name() {
        Some(file) if !is_stream(path) => file.to_string_lossy().into_owned(),
        _ => name(path),
    }
}

/// The matrix of a file, in the format named or that of its extension.
pub fn read(path: &Path, named: Option<Format>) -> Result<Matrix, Fault> {
    let input = open(path)?;
    let format = Format::of(path, named, "--from")?;
    take(path, format, &bytes(path, input)?)
}

/// The matrix of a command that reads words from standard input.
pub fn read_beside_words(path: &Path, named: Option<Format>) -> Result<Matrix, Fault> {
    if is_stream(path) {
        return Err(Fault::usage("the words come from standard input, so that the matrix needs a file of its own"));
    }
    read(path, named)
}

/// The given matrix of a command on words that has no other option, and its file.
pub fn given_beside_words(mut args: Args) -> Result<(PathBuf, Matrix), Fault> {
    let from = args.format("--from")?;
    let [path] = args.files(["FILE"])?;
    let given = read_beside_words(&path, from)?.given().map_err(|refusal| refused(&path, refusal))?;
    Ok((path, given))
}

/// The matrix that the bytes of a file say.
pub fn take(path: &Path, format: Format, bytes: &[u8]) -> Result<Matrix, Fault> {
    if let Some(mark) = byte_order_mark(bytes).filter(|_| format != Format::Record) {
        let what = format!("{mark} stands before the text; save the file without it");
        return Err(Fault::line(path, &LineFault::new(1, what)));
    }
    let checks = match format {
        Format::Record => return record::read(bytes).map_err(|what| Fault::file(path, &what)),
        Format::Alist => alist::read(bytes),
        Format::Text => text::read(bytes),
    };
    let checks = checks.map_err(|fault| Fault::line(path, &fault))?;
    Matrix::of(&checks).map_err(|refusal| refused(path, refusal))
}

/// What a matrix is in a format: a matrix with splits in a record only.
pub fn give(matrix: &Matrix, format: Format) -> Result<Vec<u8>, String> {
    match format {
        Format::Record => matrix.record().map(|words| record::bytes(&words)).map_err(|refusal| refusal.to_string()),
        _ if matrix.k > 0 => {
            Err(format!("the {} splits of the matrix can stand in a record only; --given takes them back", matrix.k))
        }
        Format::Text if matrix.m == 0 => Err("a matrix without checks has no line of text".to_string()),
        Format::Text => Ok(text::write(matrix).into_bytes()),
        Format::Alist => Ok(alist::write(matrix).into_bytes()),
    }
}

/// A refusal of the library for the matrix of a file.
pub fn refused(path: &Path, refusal: Refusal) -> Fault {
    Fault::file(path, &refusal.to_string())
}

fn open(path: &Path) -> Result<Box<dyn Read>, Fault> {
    if is_stream(path) {
        return Ok(Box::new(io::stdin()));
    }
    let file = File::open(path).map_err(|error| Fault::file(path, &error.to_string()))?;
    if file.metadata().is_ok_and(|found| found.is_dir()) {
        return Err(Fault::file(path, DIRECTORY));
    }
    Ok(Box::new(file))
}

fn bytes(path: &Path, input: Box<dyn Read>) -> Result<Vec<u8>, Fault> {
    let mut bytes = Vec::new();
    let read = input.take(LONGEST as u64 + 1).read_to_end(&mut bytes);
    read.map_err(|error| Fault::file(path, &error.to_string()))?;
    if bytes.len() > LONGEST {
        return Err(Fault::file(path, &format!("more than {LONGEST} bytes, and no matrix of {MATRIX} needs them")));
    }
    Ok(bytes)
}

const MATRIX: &str = "120 bits and 120 checks";

const DIRECTORY: &str = "a directory, and not a file";

/// Every file that the program writes.
pub fn write(path: &Path, bytes: &[u8]) -> Result<(), Fault> {
    if is_stream(path) {
        return output::bytes(bytes);
    }
    replace::write(path, bytes).map_err(|error| Fault::file(path, &error.to_string()))
}
