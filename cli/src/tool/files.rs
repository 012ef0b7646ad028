//! Reading and writing whole files.

use std::fs::{self, File, Metadata};
use std::io::{ErrorKind, Read};
use std::os::unix::fs::MetadataExt;
use std::path::Path;

use super::failure::Failure;
use super::text::grouped;
use super::writing;

/// The longest file that is read, 64 MiB. The longest seal file that an audit
/// can accept has 262,144 items of 50 bytes, a fifth of it.
pub const READ_LIMIT: u64 = 64 << 20;

/// All bytes of a file of at most [`READ_LIMIT`].
pub fn read(path: &Path) -> Result<Vec<u8>, Failure> {
    let metadata = fs::metadata(path).map_err(|error| cannot("read", path, &error))?;
    if metadata.is_dir() {
        return Err(Failure::file(path, "is a folder, not a file"));
    }
    let file = File::open(path).map_err(|error| cannot("read", path, &error))?;
    let mut bytes = Vec::new();
    // One byte past the limit tells a file that is too long.
    file.take(READ_LIMIT + 1)
        .read_to_end(&mut bytes)
        .map_err(|error| cannot("read", path, &error))?;
    match bytes.len() as u64 > READ_LIMIT {
        true => Err(too_long(path)),
        false => Ok(bytes),
    }
}

fn too_long(path: &Path) -> Failure {
    let limit = grouped(READ_LIMIT);
    Failure::file(
        path,
        format!("has more than the {limit} bytes that are read"),
    )
}

/// Whether the two paths lead to one file, whatever names and links they take.
pub fn are_same(one: &Path, other: &Path) -> bool {
    let place = |path| {
        let metadata = fs::metadata(path).ok()?;
        Some((metadata.dev(), metadata.ino()))
    };
    place(one).is_some_and(|one| place(other) == Some(one))
}

/// Whether these bytes are all that the file at the path holds.
pub fn holds(path: &Path, bytes: &[u8]) -> bool {
    let as_long = |metadata: Metadata| metadata.is_file() && metadata.len() == bytes.len() as u64;
    fs::metadata(path).is_ok_and(as_long) && fs::read(path).is_ok_and(|held| held == bytes)
}

/// Writes a new file, readable to its owner alone: it may hold keys. If `force`
/// says so, it takes the place of a file that is there. Where it can't be
/// written whole nothing of it stays, and what was there stays as it was.
pub fn write(path: &Path, bytes: &[u8], force: bool) -> Result<(), Failure> {
    let written = match force && is_replaceable(path)? {
        true => writing::replace(path, bytes),
        false => writing::create(path, bytes),
    };
    written.map_err(|error| cannot("write", path, &error))?;
    writing::sync_folder(path).map_err(|error| {
        let reason = format!("is written, but its folder cannot be synced: {error}");
        Failure::file(path, reason)
    })
}

/// Whether a file is there that may be replaced; an error if something else is.
fn is_replaceable(path: &Path) -> Result<bool, Failure> {
    let metadata = match fs::symlink_metadata(path) {
        Err(error) if error.kind() == ErrorKind::NotFound => return Ok(false),
        Err(error) => return Err(cannot("write", path, &error)),
        Ok(metadata) => metadata,
    };
    let left = |what| Failure::file(path, format!("is {what}, and is left as it is"));
    why_left(&metadata).map_or(Ok(true), |what| Err(left(what)))
}

/// What is never replaced: a device, what is behind a link, and a file that
/// somebody has guarded, which a rename would not ask about.
fn why_left(metadata: &Metadata) -> Option<&'static str> {
    let kind = metadata.file_type();
    if kind.is_symlink() {
        Some("a link")
    } else if kind.is_dir() {
        Some("a folder")
    } else if !kind.is_file() {
        Some("no regular file")
    } else {
        let guarded = metadata.permissions().readonly();
        guarded.then_some("write-protected")
    }
}

pub fn is_there(path: &Path) -> Failure {
    Failure::file(path, "is there already, and is left as it is")
}

fn cannot(what: &str, path: &Path, error: &std::io::Error) -> Failure {
    match error.kind() {
        ErrorKind::NotFound => Failure::file(path, "no such file or folder"),
        ErrorKind::NotADirectory => Failure::file(path, "a folder of this path is a file"),
        ErrorKind::AlreadyExists => is_there(path),
        _ => Failure::file(path, format!("cannot {what} it: {error}")),
    }
}
