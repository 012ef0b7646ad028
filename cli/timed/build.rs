//! Has the static library `timed` made where it is missing or older than its
//! sources, and links it.

#[path = "../build/archive.rs"]
mod archive;

fn main() {
    archive::finish(archive::link("timed"));
}
