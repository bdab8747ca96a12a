//! bench/dump.c, compiled with warnings as errors. Needs `cc`.

use card::root;
use std::env;
use std::fs;
use std::path::{Path, PathBuf};
use std::process::{self, Command, Output};

/// A new folder for a test of this name, outside the tree, where whoever runs a program finds it. It goes with the value.
pub struct Folder {
    pub path: PathBuf,
}

impl Drop for Folder {
    fn drop(&mut self) {
        let _ = fs::remove_dir_all(&self.path);
    }
}

impl Folder {
    pub fn new(test: &str) -> Self {
        let path = env::temp_dir().join(format!("card-dump-{test}-{}", process::id()));
        fs::create_dir_all(&path).unwrap();
        Self { path }
    }

    pub fn join(&self, name: impl AsRef<Path>) -> PathBuf {
        self.path.join(name)
    }

    /// The names of its files, sorted.
    pub fn names(&self) -> Vec<String> {
        let names = fs::read_dir(&self.path).unwrap();
        let name = |entry: Result<fs::DirEntry, _>| entry.unwrap().file_name().into_string();
        let mut names: Vec<_> = names.map(|entry| name(entry).unwrap()).collect();
        names.sort();
        names
    }
}

/// Compiles a source of the repository.
pub fn compile(source: &str, arguments: &[&str], program: &Path) {
    let output = Command::new("cc")
        .args(["-std=c11", "-O2", "-Wall", "-Wextra", "-Wpedantic"])
        .args(["-Wconversion", "-Werror"])
        .args(arguments)
        .arg(root().join(source))
        .arg("-o")
        .arg(program)
        .output()
        .expect("cc starts");
    assert!(output.status.success(), "{}", text(&output.stderr));
}

pub fn text(bytes: &[u8]) -> String {
    String::from_utf8(bytes.to_vec()).unwrap()
}

/// What a program complained of, and its exit status.
pub fn complaint(output: &Output) -> (String, Option<i32>) {
    (text(&output.stderr), output.status.code())
}

/// How `dump` ends where it fails: status 2, and these lines.
pub fn failed(lines: &[&str]) -> (String, Option<i32>) {
    let lines = lines.iter().map(|line| format!("{line}\n"));
    (lines.collect(), Some(2))
}
