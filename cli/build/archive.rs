//! Links a static library of `crates/`, made by `rt` where it is missing or
//! older than its sources.

use std::env;
use std::fs;
use std::io;
use std::iter;
use std::path::{Path, PathBuf};
use std::process::{Command, Stdio};
use std::time::SystemTime;

/// Ends the build script, with the reason where the work failed.
pub fn finish(work: Result<(), String>) {
    if let Err(reason) = work {
        eprintln!("{reason}");
        std::process::exit(1);
    }
}

pub fn link(name: &str) -> Result<(), String> {
    let package = PathBuf::from(variable("CARGO_MANIFEST_DIR")?);
    let mut above = package.ancestors();
    let root = above
        .find(|folder| folder.join("crates.txt").is_file())
        .ok_or_else(|| format!("no crates.txt above {}", package.display()))?;
    let proved = root.join("crates").join(name);
    let folder = proved.join("out");
    let archive = folder.join(format!("lib{name}.a"));
    let sources = sources(root);
    // The archive stands in the package's own library file, so a new one must
    // have that made again.
    for path in sources.iter().chain([&archive]) {
        println!("cargo::rerun-if-changed={}", path.display());
    }
    if !is_fresh(&archive, &sources) {
        prove(&proved, &archive)?;
    }
    println!("cargo::rustc-link-search=native={}", folder.display());
    println!("cargo::rustc-link-lib=static={name}");
    Ok(())
}

pub fn variable(name: &str) -> Result<String, String> {
    env::var(name).map_err(|error| format!("{name}: {error}"))
}

/// What an archive is proved and made of: the crates' list and their sources,
/// without what `rt` keeps beside these in each crate's folder `out`.
fn sources(root: &Path) -> Vec<PathBuf> {
    let crates = fs::read_dir(root.join("crates"));
    let parts = crates.into_iter().flatten().flatten().flat_map(|entry| {
        let folder = entry.path();
        ["src", "specs", "proofs"].map(|part| folder.join(part))
    });
    iter::once(root.join("crates.txt"))
        .chain(parts.filter(|part| part.is_dir()))
        .collect()
}

/// Proving again takes long, so an archive newer than all sources stays.
fn is_fresh(archive: &Path, sources: &[PathBuf]) -> bool {
    match modified(archive) {
        Some(made) => sources.iter().filter_map(|path| newest(path)).max() < Some(made),
        None => false,
    }
}

/// The latest time of change of a file, or of a folder and all below it. A
/// folder's own time tells of files removed from it.
fn newest(path: &Path) -> Option<SystemTime> {
    let below = fs::read_dir(path).into_iter().flatten().flatten();
    below
        .filter_map(|entry| newest(&entry.path()))
        .chain(modified(path))
        .max()
}

fn modified(path: &Path) -> Option<SystemTime> {
    fs::symlink_metadata(path).ok()?.modified().ok()
}

fn prove(folder: &Path, archive: &Path) -> Result<(), String> {
    let mut command = Command::new("rt");
    command.arg("lib").current_dir(folder);
    run(&mut command).map_err(|reason| {
        format!(
            "{} is missing or older than its sources in crates/, and \
             'rt lib' in {} did not make it: {reason}",
            archive.display(),
            folder.display(),
        )
    })?;
    match archive.is_file() {
        true => Ok(()),
        false => Err(format!("rt made no {}", archive.display())),
    }
}

/// What the command prints goes to stderr: cargo reads stdout.
pub fn run(command: &mut Command) -> Result<(), String> {
    let status = command
        .stdout(Stdio::from(io::stderr()))
        .status()
        .map_err(|error| format!("cannot run {:?}: {error}", command.get_program()))?;
    match status.success() {
        true => Ok(()),
        false => Err(format!("{command:?} failed: {status}")),
    }
}
