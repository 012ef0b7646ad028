//! A folder for one test, made anew, and gone behind it. It lies outside the checkout: tests put links into it, and `rt ci` refuses a checkout
//! with a link in it.

use std::path::PathBuf;
use std::{env, fs, process};

use crate::run::{Run, run};

pub struct Folder(PathBuf);

impl Folder {
    /// The name is the test's own.
    pub fn new(name: &str) -> Folder {
        let path = env::temp_dir()
            .join(format!("pahyndoi-tool-{}", process::id()))
            .join(name);
        if path.exists() {
            fs::remove_dir_all(&path).expect("an old folder goes");
        }
        fs::create_dir_all(&path).expect("a new folder comes");
        Folder(path)
    }

    pub fn path(&self, name: &str) -> String {
        let path = self.0.join(name);
        path.to_str().expect("UTF-8").to_string()
    }

    pub fn whole(&self) -> &str {
        self.0.to_str().expect("UTF-8")
    }

    pub fn write(&self, name: &str, bytes: &[u8]) -> String {
        fs::write(self.path(name), bytes).expect("a file is written");
        self.path(name)
    }

    pub fn read(&self, name: &str) -> Vec<u8> {
        fs::read(self.path(name)).expect("a file is read")
    }

    /// Audits the folder, with these further arguments.
    pub fn audit(&self, arguments: &[&str]) -> Run {
        run(&[&["audit", self.whole()], arguments].concat())
    }

    /// Looks a byte of the folder's material up, with these further arguments.
    pub fn item(&self, phase: &str, offset: &str, arguments: &[&str]) -> Run {
        let asked = ["--phase", phase, "--offset", offset];
        run(&[&["item", self.whole()], &asked[..], arguments].concat())
    }
}

impl Drop for Folder {
    fn drop(&mut self) {
        let _ = fs::remove_dir_all(&self.0);
    }
}
