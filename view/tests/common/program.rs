//! Calls of the program, and files for it.
#![allow(dead_code)]

use std::fs;
use std::path::{Path, PathBuf};
use std::process::{self, Command, Stdio};

/// Status, standard output and standard error.
pub type Ended = (Option<i32>, String, String);

/// The program with these words, and with a file as its standard input.
pub fn hallview_from(input: Option<&Path>, words: &[&str]) -> Ended {
    let stdin = input.map_or(Stdio::null(), |path| fs::File::open(path).unwrap().into());
    let output = Command::new(env!("CARGO_BIN_EXE_hallview"))
        .args(words)
        .stdin(stdin)
        .output()
        .unwrap();
    let text = |bytes| String::from_utf8(bytes).unwrap();
    (
        output.status.code(),
        text(output.stdout),
        text(output.stderr),
    )
}

pub fn hallview(words: &[&str]) -> Ended {
    hallview_from(None, words)
}

/// The first line on standard error of a call that fails and prints nothing else.
pub fn problem(words: &[&str]) -> String {
    let (status, printed, said) = hallview(words);
    assert_eq!((status, printed.as_str()), (Some(1), ""), "{words:?}");
    said.lines().next().unwrap().to_string()
}

/// A file of the repository's samples.
pub fn sample(name: &str) -> String {
    format!("{}/../sample/{name}", env!("CARGO_MANIFEST_DIR"))
}

/// A folder that a test has for itself, and that goes with it.
pub struct Folder(PathBuf);

impl Folder {
    pub fn new(test: &str) -> Folder {
        let folder = std::env::temp_dir().join(format!("hallview-{}-{test}", process::id()));
        fs::create_dir(&folder).unwrap();
        Folder(folder)
    }

    pub fn path(&self, name: &str) -> PathBuf {
        self.0.join(name)
    }

    /// The path of a file as a word.
    pub fn name(&self, name: &str) -> String {
        self.path(name).to_str().unwrap().to_string()
    }

    /// Writes a file, and gives its path as a word.
    pub fn written(&self, name: &str, bytes: impl AsRef<[u8]>) -> String {
        fs::write(self.path(name), bytes).unwrap();
        self.name(name)
    }

    /// The names of the files in it, in order.
    pub fn files(&self) -> Vec<String> {
        let entries = fs::read_dir(&self.0).unwrap();
        let name = |entry: fs::DirEntry| entry.file_name().into_string().unwrap();
        let mut names: Vec<String> = entries.map(|entry| name(entry.unwrap())).collect();
        names.sort();
        names
    }
}

impl Drop for Folder {
    fn drop(&mut self) {
        let _ = fs::remove_dir_all(&self.0);
    }
}
