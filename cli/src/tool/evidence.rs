//! The five files of an audit.

use std::path::{Path, PathBuf};

use pahyndoi::Material;

use super::arguments::Arguments;
use super::failure::Failure;
use super::files;
use super::json::Value;
use super::text::exact;

/// The flag that names each file, and the file's name in a folder.
const PARTS: [(&str, &str); 5] = [
    ("--device", "device.store"),
    ("--auditor", "auditor.store"),
    ("--logs", "logs.bin"),
    ("--lengths", "lengths.bin"),
    ("--seal", "seal.bin"),
];

/// Each file's path, in the order of [`PARTS`]: its flag's, else its place in
/// the folder.
pub fn paths(arguments: &Arguments) -> Result<[PathBuf; 5], Failure> {
    let folder = arguments.operand();
    let path = |(flag, name): (&str, &str)| {
        let in_folder = folder.map(|folder| folder.join(name));
        arguments.path(flag).map(PathBuf::from).or(in_folder)
    };
    let found = PARTS.map(path);
    let missing = PARTS.iter().zip(&found).filter(|(_, path)| path.is_none());
    let missing: Vec<&str> = missing.map(|((flag, _), _)| *flag).collect();
    match missing.is_empty() {
        true => Ok(found.map(Option::unwrap_or_default)),
        false => Err(arguments.wrong(format!(
            "give a folder, or a file with {}",
            missing.join(", ")
        ))),
    }
}

/// For machines: each file's path under the name of its flag.
pub fn names(paths: &[PathBuf; 5]) -> Vec<(&'static str, Value)> {
    let names = PARTS.iter().map(|(flag, _)| flag.trim_start_matches('-'));
    let paths = paths.iter().map(exact);
    names.zip(paths.map(Value::Text)).collect()
}

#[derive(Clone, Debug, PartialEq, Eq)]
pub struct Evidence {
    pub device: Vec<u8>,
    pub auditor: Vec<u8>,
    pub logs: Vec<u8>,
    /// 4 bytes a phase, little-endian.
    pub lengths: Vec<u8>,
    pub seal: Vec<u8>,
}

impl Evidence {
    /// Reads the files at these paths, in the order of [`PARTS`].
    pub fn read(paths: &[PathBuf; 5]) -> Result<Evidence, Failure> {
        let [device, auditor, logs, lengths, seal] = paths;
        Ok(Evidence {
            device: files::read(device)?,
            auditor: files::read(auditor)?,
            logs: files::read(logs)?,
            lengths: files::read(lengths)?,
            seal: files::read(seal)?,
        })
    }

    /// Writes new files into the folder; none if one is there already, be it
    /// a link that leads nowhere.
    pub fn write(&self, folder: &Path) -> Result<(), Failure> {
        let contents = [
            &self.device,
            &self.auditor,
            &self.logs,
            &self.lengths,
            &self.seal,
        ];
        let paths = PARTS.map(|(_, name)| folder.join(name));
        if let Some(path) = paths.iter().find(|path| path.symlink_metadata().is_ok()) {
            return Err(files::is_there(path));
        }
        for (path, bytes) in paths.iter().zip(contents) {
            files::write(path, bytes, false)?;
        }
        Ok(())
    }

    pub fn material(&self) -> Material<'_> {
        Material {
            device_store: &self.device,
            auditor_store: &self.auditor,
            logs: &self.logs,
            lengths: &self.lengths,
            seal_file: &self.seal,
        }
    }
}
