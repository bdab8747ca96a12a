//! What the repository stores of the second implementation, the input and output of each test
//! program and the samples, is what it makes today, byte for byte (CONTRIBUTING.md, "Tests").

use std::collections::BTreeMap;
use std::fs;
use std::path::{Path, PathBuf};
use std::process::Command;

/// Each generator, the words that it takes in the folder where it is run, and the folder whose
/// files it makes.
const GENERATORS: [(&str, &[&str], &str); 6] = [
    (
        env!("CARGO_BIN_EXE_crc_vectors"),
        &["stdin", "stdout"],
        "crates/crc_vectors",
    ),
    (
        env!("CARGO_BIN_EXE_image_vectors"),
        &["stdin", "stdout"],
        "crates/image_vectors",
    ),
    (
        env!("CARGO_BIN_EXE_walk_vectors"),
        &["stdin", "stdout"],
        "crates/walk_vectors",
    ),
    (
        env!("CARGO_BIN_EXE_sheet_vectors"),
        &["stdin", "stdout"],
        "crates/sheet_vectors",
    ),
    (
        env!("CARGO_BIN_EXE_text_vectors"),
        &["stdin", "stdout"],
        "crates/text_vectors",
    ),
    (env!("CARGO_BIN_EXE_samples"), &["."], "samples"),
];

/// The files of a folder, its folders left out.
fn files(folder: &Path) -> BTreeMap<String, Vec<u8>> {
    let mut files = BTreeMap::new();
    for entry in fs::read_dir(folder).unwrap() {
        let entry = entry.unwrap();
        if entry.path().is_file() {
            let name = entry.file_name().into_string().unwrap();
            files.insert(name, fs::read(entry.path()).unwrap());
        }
    }
    files
}

/// A new empty folder for the files that are made for another.
fn temporary(folder: &str) -> PathBuf {
    let temporary = Path::new(env!("CARGO_TARGET_TMPDIR"))
        .join("stored")
        .join(folder);
    let _ = fs::remove_dir_all(&temporary);
    fs::create_dir_all(&temporary).unwrap();
    temporary
}

#[test]
fn stored_as_made_today() {
    let root = Path::new(env!("CARGO_MANIFEST_DIR")).join("../..");
    for (generator, words, folder) in GENERATORS {
        let temporary = temporary(folder);
        let status = Command::new(generator)
            .args(words)
            .current_dir(&temporary)
            .status()
            .unwrap();
        assert!(status.success(), "{generator} {status}");
        let (made, stored) = (files(&temporary), files(&root.join(folder)));
        assert!(
            made.keys().eq(stored.keys()),
            "{folder} has {:?}, and made are {:?}",
            stored.keys(),
            made.keys()
        );
        for (name, bytes) in made {
            assert!(bytes == stored[&name], "{folder}/{name} is made otherwise");
        }
    }
}
