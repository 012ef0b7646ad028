//! Has the static library `pahyndoi` made where it is missing or older than
//! its sources, links it, and compiles the benchmark's rival.

#[path = "build/archive.rs"]
mod archive;

use std::fs;
use std::io;
use std::path::{Path, PathBuf};
use std::process::Command;

use archive::{run, variable};

fn main() {
    archive::finish(build());
}

fn build() -> Result<(), String> {
    archive::link("pahyndoi")?;
    compile_rival(Path::new("benches/rival/sha256.c"))
}

/// The rival is a library of its own: only the benchmark names it.
fn compile_rival(source: &Path) -> Result<(), String> {
    let out = PathBuf::from(variable("OUT_DIR")?);
    let object = out.join("rival.o");
    let library = out.join("libpahyndoi_rival.a");
    println!("cargo::rerun-if-changed={}", source.display());
    run(Command::new("cc")
        .args(["-O3", "-fPIC", "-Wall", "-Wextra", "-c"])
        .arg(source)
        .arg("-o")
        .arg(&object))?;
    remove(&library)?;
    run(Command::new("ar").arg("crs").arg(&library).arg(&object))?;
    println!("cargo::rustc-link-search=native={}", out.display());
    Ok(())
}

/// `ar` adds to an archive that is there already.
fn remove(path: &Path) -> Result<(), String> {
    match fs::remove_file(path) {
        Err(error) if error.kind() != io::ErrorKind::NotFound => {
            Err(format!("{}: {error}", path.display()))
        }
        _ => Ok(()),
    }
}
