//! Where paths lead: an output is no other file that is named.

use crate::fault::Fault;
use crate::files::is_stream;
use std::ffi::OsString;
use std::fs;
use std::io::ErrorKind;
use std::os::unix::fs::MetadataExt;
use std::path::{Path, PathBuf};

/// No chain of symbolic links is followed further.
const LINKS: usize = 40;

/// The paths of standard input and of standard output.
const INPUT: &str = "/dev/stdin";
pub const OUTPUT: &str = "/dev/stdout";

/// Where an input is read, and where an output is written; `-` is a stream.
pub fn input(path: &Path) -> &Path {
    if is_stream(path) {
        Path::new(INPUT)
    } else {
        path
    }
}

pub fn output(path: &Path) -> &Path {
    if is_stream(path) {
        Path::new(OUTPUT)
    } else {
        path
    }
}

/// A file by its device and its number there; one that does not exist yet by those of its folder, and its name.
type Place = (u64, u64, OsString);

/// Refuses files, each with what it is to the command, of which two are one. Devices and pipes may be named twice.
pub fn apart(files: &[(&str, &Path)]) -> Result<(), Fault> {
    let places: Vec<Option<Place>> = files.iter().map(|(_, path)| place(path)).collect();
    for (later, place) in places.iter().enumerate() {
        if let Some(first) = places[..later].iter().position(|other| place.is_some() && other == place) {
            let shown = |(what, path): (&str, &Path)| format!("{what} {}", path.display());
            let (first, later) = (shown(files[first]), shown(files[later]));
            return Err(Fault::usage(&format!(
                "{first} and {later} are the same file; an output needs one of its own"
            )));
        }
    }
    Ok(())
}

/// The place of a regular file, or of one that can be made; reading or writing says what is wrong with another path.
fn place(path: &Path) -> Option<Place> {
    match fs::metadata(path) {
        Ok(found) if found.is_file() => Some((found.dev(), found.ino(), OsString::new())),
        Err(error) if error.kind() == ErrorKind::NotFound => {
            let end = end(path)?;
            let found = fs::metadata(folder(&end)).ok()?;
            Some((found.dev(), found.ino(), end.file_name()?.to_owned()))
        }
        _ => None,
    }
}

/// The path behind all symbolic links, where a file may be or not. There is none in /proc, where the link of a
/// descriptor is no path.
pub fn end(path: &Path) -> Option<PathBuf> {
    let mut path = path.to_path_buf();
    for _ in 0..LINKS {
        if folder(&path).canonicalize().is_ok_and(|folder| folder.starts_with("/proc")) {
            return None;
        }
        match fs::read_link(&path) {
            Ok(target) => path = folder(&path).join(target),
            Err(_) => return Some(path),
        }
    }
    None
}

/// The folder of a file.
pub fn folder(path: &Path) -> &Path {
    match path.parent() {
        Some(parent) if parent != Path::new("") => parent,
        _ => Path::new("."),
    }
}
