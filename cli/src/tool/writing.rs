//! Files that are synced before they count as written. A failure leaves nothing
//! of them.

use std::fs::{self, File, OpenOptions};
use std::io::{self, ErrorKind, Write};
use std::os::unix::fs::OpenOptionsExt;
use std::path::{Path, PathBuf};
use std::process;

/// A file where nothing is, with these bytes.
pub fn create(path: &Path, bytes: &[u8]) -> io::Result<()> {
    fill(path, new_file(path)?, bytes)
}

/// A file with these bytes takes the place of the one that is there. It is
/// written beside it, so that a failure leaves the old one as it was.
pub fn replace(path: &Path, bytes: &[u8]) -> io::Result<()> {
    let (beside, file) = new_file_beside(path)?;
    fill(&beside, file, bytes)?;
    fs::rename(&beside, path).inspect_err(|_| remove(&beside))
}

/// Readable to its owner alone, and never through a link.
fn new_file(path: &Path) -> io::Result<File> {
    let mut options = OpenOptions::new();
    options.write(true).create_new(true).mode(0o600).open(path)
}

/// The first free name of this process in the path's folder, and its file. It
/// is made without the path's own name, which may be as long as a name can be.
fn new_file_beside(path: &Path) -> io::Result<(PathBuf, File)> {
    let mut number = 0_u32;
    loop {
        let name = format!(".pahyndoi-{}-{number}.new", process::id());
        let beside = path.with_file_name(name);
        match new_file(&beside) {
            Err(error) if error.kind() == ErrorKind::AlreadyExists => number += 1,
            result => return result.map(|file| (beside, file)),
        }
    }
}

fn fill(path: &Path, mut file: File, bytes: &[u8]) -> io::Result<()> {
    let filled = file.write_all(bytes).and_then(|()| file.sync_all());
    filled.inspect_err(|_| remove(path))
}

/// What matters to the reader is the first error.
fn remove(path: &Path) {
    let _ = fs::remove_file(path);
}

/// A new name outlasts a loss of power if its folder is synced. Some file
/// systems can't do that, and a folder may be closed to reading; there is
/// nothing to be done about it.
pub fn sync_folder(path: &Path) -> io::Result<()> {
    let folder = File::open(path.with_file_name("."));
    match folder.and_then(|folder| folder.sync_all()) {
        Err(error) if cannot_sync(error.kind()) => Ok(()),
        result => result,
    }
}

fn cannot_sync(kind: ErrorKind) -> bool {
    matches!(
        kind,
        ErrorKind::InvalidInput | ErrorKind::Unsupported | ErrorKind::PermissionDenied
    )
}

#[cfg(test)]
mod tests {
    use super::*;

    /// A folder can't be replaced by a file.
    #[test]
    fn file_that_cannot_take_its_place_is_removed() {
        let folder = std::env::temp_dir().join(format!("pahyndoi-writing-{}", process::id()));
        let path = folder.join("store");
        fs::create_dir_all(&path).unwrap();
        assert!(replace(&path, b"new").is_err());
        assert_eq!(fs::read_dir(&folder).unwrap().count(), 1);
        fs::remove_dir_all(&folder).unwrap();
    }

    #[test]
    fn only_what_cannot_be_synced_at_all_is_passed_over() {
        for kind in [
            ErrorKind::InvalidInput,
            ErrorKind::Unsupported,
            ErrorKind::PermissionDenied,
        ] {
            assert!(cannot_sync(kind));
        }
        for kind in [ErrorKind::StorageFull, ErrorKind::Other] {
            assert!(!cannot_sync(kind));
        }
    }
}
