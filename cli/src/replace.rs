//! Files are written beside their place and renamed, so that a write that fails or is cut short leaves the old file.

use crate::places;
use std::fs::{self, File, Metadata, OpenOptions, Permissions};
use std::io::{self, ErrorKind, Write};
use std::os::unix::fs::{fchown, MetadataExt, OpenOptionsExt, PermissionsExt};
use std::path::{Path, PathBuf};
use std::process;

/// How many names are tried for the file beside.
const TRIES: u32 = 1000;

/// Writes a file whole. A symbolic link stays, and its target is replaced; a device or a pipe is written directly.
pub fn write(path: &Path, bytes: &[u8]) -> io::Result<()> {
    let may_be_replaced = match fs::metadata(path) {
        Ok(found) => found.is_file(),
        Err(error) if error.kind() == ErrorKind::NotFound => true,
        Err(error) => return Err(error),
    };
    match places::end(path) {
        Some(end) if may_be_replaced => replace(&end, bytes),
        _ => direct(path, bytes),
    }
}

/// Where standard output is a file, what stands there stays.
fn direct(path: &Path, bytes: &[u8]) -> io::Result<()> {
    OpenOptions::new().append(true).open(path)?.write_all(bytes)
}

fn replace(path: &Path, bytes: &[u8]) -> io::Result<()> {
    let old = old(path)?;
    let (beside, file) = beside(path, old.as_ref().map_or(0o666, mode))?;
    let done = fill(file, old.as_ref(), bytes).and_then(|()| fs::rename(&beside, path));
    done.inspect_err(|_| drop(fs::remove_file(&beside)))
}

/// What is known of the file that is replaced, if there is one. It is opened: one that is protected stays.
fn old(path: &Path) -> io::Result<Option<Metadata>> {
    match OpenOptions::new().write(true).open(path) {
        Ok(file) => file.metadata().map(Some),
        Err(error) if error.kind() == ErrorKind::NotFound => Ok(None),
        Err(error) => Err(error),
    }
}

fn mode(of: &Metadata) -> u32 {
    of.mode() & 0o777
}

/// A new file in the folder of another; it takes the name of none.
fn beside(path: &Path, mode: u32) -> io::Result<(PathBuf, File)> {
    for number in 0..TRIES {
        let beside = places::folder(path).join(format!(".parity-{}-{number}", process::id()));
        match OpenOptions::new().write(true).create_new(true).mode(mode).open(&beside) {
            Err(error) if error.kind() == ErrorKind::AlreadyExists => {}
            opened => return opened.map(|file| (beside, file)),
        }
    }
    Err(ErrorKind::AlreadyExists.into())
}

/// Writes the bytes, with the permissions of the old file, and its owner and group as far as they can be given.
fn fill(mut file: File, old: Option<&Metadata>, bytes: &[u8]) -> io::Result<()> {
    file.write_all(bytes)?;
    if let Some(old) = old {
        let _ = fchown(&file, None, Some(old.gid()));
        let _ = fchown(&file, Some(old.uid()), None);
        file.set_permissions(Permissions::from_mode(mode(old)))?;
    }
    file.sync_all()
}
