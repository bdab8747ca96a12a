//! Transcripts of the bench tool: each line that begins with `$ ` is run at the root, and what it
//! writes and its exit status must be as stored. `TRANSCRIPTS=write cargo test -p card` stores
//! them anew, so they guard against change alone; tests/facts.rs holds verdicts in every layout and
//! edition, header fields, counts, tables, Magic Packet blocks, modes of power blocks, named blocks, walks and
//! columns to the second implementation, tests/sheets.rs sheets of both forms, and tests/sentences.rs
//! what is said of older drivers.

use card::{root, shell, temporary};
use std::fs;
use std::path::PathBuf;

fn folder() -> PathBuf {
    root().join("tests/card/transcripts")
}

fn replay(name: &str) {
    let path = folder().join(format!("{name}.txt"));
    let stored = fs::read_to_string(&path).unwrap();
    assert!(stored.starts_with("$ "), "transcripts/{name}.txt");
    let folder = temporary(name);
    let mut replayed = String::new();
    for command in stored.lines().filter_map(|line| line.strip_prefix("$ ")) {
        let run = shell(command, &folder);
        replayed += &format!("$ {command}\n{}(status {})\n\n", run.written, run.status);
    }
    if std::env::var_os("TRANSCRIPTS").is_some() {
        fs::write(path, replayed).unwrap();
    } else {
        assert_eq!(replayed, stored, "transcripts/{name}.txt");
    }
}

/// A test for each transcript, and the names of all.
macro_rules! transcripts {
    ($($(#[$meaning:meta])* $name:ident),+ $(,)?) => {
        $($(#[$meaning])* #[test] fn $name() { replay(stringify!($name)); })+
        const NAMES: &[&str] = &[$(stringify!($name)),+];
    };
}

transcripts! {
    /// Document 02, request 12: cards of version 1 in each edition, read, walked, drawn, made sheets of and written again, and
    /// refused; and what `--edition` takes.
    edition,
    /// Files that are written: whole, and never over one that exists unless forced.
    files,
    /// The forms of hexadecimal text, and what is none of them.
    inputs,
    /// Cards with a Magic Packet block: read, laid out otherwise, written, and with another block.
    magic,
    /// Demand 3 in words: levels that walk alike, that do while a link is down, and that differ.
    older,
    /// Cards with power blocks: read, also by a reader that does not know them, walked, drawn, written, and
    /// refused for a mode that two blocks have.
    power,
    /// A sample of every chip, and the replacement card.
    read,
    /// Document 01, 'Why a call is refused', and document 02: every number that a card, a sheet or a report can
    /// cause, and the list of all.
    refusals,
    /// Document 02, request 6: cards of 512 bytes, sizes that are said to be others, and what `--size` takes.
    size,
    usage,
    walk,
    /// Document 02, request 7: sheets of both forms, made, written and converted, and taken for the other form.
    wide,
}

/// The transcripts that are stored are those that are replayed.
#[test]
fn every_transcript() {
    let mut stored: Vec<_> = fs::read_dir(folder())
        .unwrap()
        .map(|entry| entry.unwrap().file_name().into_string().unwrap())
        .collect();
    stored.sort();
    let replayed: Vec<_> = NAMES.iter().map(|name| format!("{name}.txt")).collect();
    assert_eq!(stored, replayed);
}

/// "every number": but those that no command can cause (docs/DECISIONS.md, 'The bench tool'), and
/// the list has all. There is no 28, "Refusal 22 is retired", and 34 to 37 are of requests that have not landed.
#[test]
fn every_refusal() {
    let stored = fs::read_to_string(folder().join("refusals.txt")).unwrap();
    for number in 1..=38 {
        let is_number = ![22, 28, 34, 35, 36, 37].contains(&number);
        let is_caused = stored.contains(&format!("REFUSED {number}: "));
        let can_be_caused = is_number && ![12, 20, 21].contains(&number);
        assert_eq!(is_caused, can_be_caused, "{number}");
        let is_listed = stored.contains(&format!("\n  {number:>2}  "));
        assert_eq!(is_listed, is_number, "{number}");
    }
}

/// "The outputs read well at 80 columns."
#[test]
fn eighty_columns() {
    for entry in fs::read_dir(folder()).unwrap() {
        let path = entry.unwrap().path();
        for line in fs::read_to_string(&path).unwrap().lines() {
            let names_a_file = line.starts_with("$ ") || line.starts_with("card: ");
            let fits = line.chars().count() <= 80;
            assert!(fits || names_a_file, "{}: {line}", path.display());
        }
    }
}
