//! What the documents say of the tree: lines of at most 140 columns, one meaning for a name,
//! theorems in one file of a crate, and an edit or a computed theorem for each promise.

use std::collections::{BTreeMap, BTreeSet};
use std::fs;
use std::path::{Path, PathBuf};

const MOST_COLUMNS: usize = 140;

fn root() -> PathBuf {
    Path::new(env!("CARGO_MANIFEST_DIR")).join("../..")
}

/// The files below a folder with one of these endings, but for what is built.
fn files(folder: &Path, endings: &[&str]) -> Vec<PathBuf> {
    let mut found = Vec::new();
    for entry in fs::read_dir(folder).unwrap() {
        let path = entry.unwrap().path();
        if path.is_dir() {
            if !path.ends_with("target") && !path.ends_with("out") {
                found.extend(files(&path, endings));
            }
        } else if endings
            .iter()
            .any(|&ending| path.extension().is_some_and(|it| it == ending))
        {
            found.push(path);
        }
    }
    found
}

#[test]
fn no_line_is_over_140_columns() {
    let mut seen = 0;
    for folder in ["crates", "tests", "include", "examples", "bench", "fuzz"] {
        for path in files(
            &root().join(folder),
            &["rt", "antt", "edit", "rs", "c", "h"],
        ) {
            let text = fs::read_to_string(&path).unwrap();
            for (line, number) in text.lines().zip(1..) {
                let columns = line.chars().count();
                assert!(
                    columns <= MOST_COLUMNS,
                    "{}:{number}: {columns}",
                    path.display()
                );
            }
            seen += 1;
        }
    }
    assert!(seen > 300, "only {seen} files were read");
}

/// A theorem is a type of its own, `abbrev pub Name : Type 0`, in specs/Claims.antt (docs/ARCHITECTURE.md).
#[test]
fn theorems_stand_in_claims() {
    let mut theorems = 0;
    for path in files(&root().join("crates"), &["antt"]) {
        let text = fs::read_to_string(&path).unwrap();
        let stated = text
            .lines()
            .filter(|line| {
                line.starts_with("abbrev pub ")
                    && line.ends_with(" : Type 0")
                    && !line.contains('→')
            })
            .count();
        assert!(
            stated == 0 || path.ends_with("specs/Claims.antt"),
            "{}",
            path.display()
        );
        theorems += stated;
    }
    assert!(theorems > 30, "only {theorems} theorems were found");
}

/// The name that a line of a specification, or of laws, declares at its top level.
fn declared(line: &str) -> Option<&str> {
    let (before, _) = line.split_once(" : ")?;
    let marks = ["unfoldable ", "abbrev ", "pub ", "record ", "data "];
    let mut rest = before;
    while let Some(mark) = marks.iter().find(|&&mark| rest.starts_with(mark)) {
        rest = &rest[mark.len()..];
    }
    let is_name = line.starts_with(|it: char| it.is_alphabetic())
        && !line.starts_with("use ")
        && !line.starts_with("module ");
    is_name.then(|| rest.split(' ').next()).flatten()
}

/// The item that a line of code declares: what it is, and its name.
fn item(line: &str) -> Option<(&str, &str)> {
    let mut rest = line.trim_start();
    for mark in ["pub(crate) ", "pub ", "extern \"C\" "] {
        rest = rest.strip_prefix(mark).unwrap_or(rest);
    }
    let (sort, rest) = rest.split_once(' ')?;
    let is_item = ["fn", "struct", "enum", "const", "static"].contains(&sort);
    let name = rest.split(|it: char| !it.is_alphanumeric() && it != '_');
    is_item.then_some((sort, name.into_iter().next()?))
}

/// The type that a line of code declares.
fn type_of(line: &str) -> Option<&str> {
    let (sort, name) = item(line)?;
    ["struct", "enum"].contains(&sort).then_some(name)
}

/// Where each name is declared, in the files with an ending, as `named` finds them in a line.
fn declarations(
    ending: &str,
    named: impl Fn(&Path, &str) -> Option<String>,
) -> BTreeMap<String, BTreeSet<PathBuf>> {
    let crates = root().join("crates");
    let mut places: BTreeMap<String, BTreeSet<PathBuf>> = BTreeMap::new();
    for path in files(&crates, &[ending]) {
        let file = path.strip_prefix(&crates).unwrap();
        let text = fs::read_to_string(&path).unwrap();
        for name in text.lines().filter_map(|line| named(file, line)) {
            places.entry(name).or_default().insert(file.to_owned());
        }
    }
    places
}

/// Whether a file's crate is one of the library's, which stand first in crates.txt.
fn is_of_library(file: &Path) -> bool {
    let listed = fs::read_to_string(root().join("crates.txt")).unwrap();
    let (library, _) = listed.split_once("\n# The bench tool.").unwrap();
    let owner = file.iter().next().unwrap().to_str().unwrap();
    library
        .lines()
        .any(|line| line.split([' ', ':']).next() == Some(owner))
}

/// Words that several modules have for what is theirs: they are written behind the module's name, as `magic::read`.
const BEHIND_THEIR_MODULE: [(&str, &str); 8] = [
    (
        "judge",
        "of a leaf's blocks, of a Magic Packet block, of an image",
    ),
    ("read", "the Magic Packet block; the media table"),
    ("write", "the Magic Packet block; a sheet's image"),
    ("of", "the CRC that the module is about"),
    ("from", "an answer to C, of what the call gives"),
    ("TABLE", "its table"),
    ("next", "an iterator's"),
    ("srom_crc", "the library's call, and the same exported"),
];

/// The files of a function's proof, in proofs/FUNCTION.
const PROOF_FILES: [&str; 3] = ["Proof.antt", "Invariants.antt", "Answers.antt"];

/// One name has one meaning in the specifications and the laws of all crates, to which the code's types belong (CONTRIBUTING.md).
/// A function's own proof files have the checker's names: they stand in a folder of its name, and laws do not.
#[test]
fn a_name_is_declared_once() {
    let mut places = declarations("antt", |file, line| {
        let is_of_function =
            PROOF_FILES.iter().any(|it| file.ends_with(it)) && file.iter().count() > 3;
        let name = declared(line).filter(|_| !is_of_function);
        name.map(str::to_owned)
    });
    for (name, paths) in declarations("rt", |_, line| Some(type_of(line)?.to_owned())) {
        places.entry(name).or_default().extend(paths);
    }
    assert!(places.len() > 1500, "only {} names", places.len());
    places.retain(|_, paths| paths.len() > 1);
    assert!(places.is_empty(), "declared more than once: {places:#?}");
}

/// And so has one of the library's functions and constants.
#[test]
fn an_item_is_declared_once() {
    let mut places = declarations("rt", |file, line| {
        Some(item(line).filter(|_| is_of_library(file))?.1.to_owned())
    });
    assert!(places.len() > 200, "only {} items", places.len());
    places.retain(|_, paths| paths.len() > 1);
    for (word, meaning) in BEHIND_THEIR_MODULE {
        let paths = places.remove(word);
        assert!(paths.is_some(), "{word}, {meaning}: no longer twice");
    }
    assert!(places.is_empty(), "declared more than once: {places:#?}");
}

/// Each row of docs/PROMISES.md names what would fail without it, and each edit stands in a row.
#[test]
fn promises_are_guarded() {
    let edits: BTreeSet<String> = files(&root().join("crates"), &["edit"])
        .iter()
        .map(|path| path.file_stem().unwrap().to_str().unwrap().to_owned())
        .collect();
    let promises = fs::read_to_string(root().join("docs/PROMISES.md")).unwrap();
    let mut named = BTreeSet::new();
    let mut rows = 0;
    for line in promises.lines().filter(|line| line.starts_with("| ")) {
        let cells: Vec<_> = line.trim_matches(['|', ' ']).split(" | ").collect();
        assert_eq!(cells.len(), 3, "{line}");
        if cells[2] == "guarded by" {
            continue;
        }
        let words: Vec<_> = cells[2].split([' ', ',', ';']).collect();
        let guards: Vec<_> = words.iter().filter(|&&word| edits.contains(word)).collect();
        let guarded =
            !guards.is_empty() || words.contains(&"computed") || cells[2].contains("tests/");
        assert!(guarded, "nothing guards: {line}");
        for word in words
            .iter()
            .filter(|word| word.contains('_') && !word.contains('/'))
        {
            assert!(edits.contains(*word), "no edit is called {word}");
        }
        named.extend(guards.into_iter().map(|&word| word.to_owned()));
        rows += 1;
    }
    assert!(rows > 30, "only {rows} rows were read");
    let unnamed: Vec<_> = edits.difference(&named).collect();
    assert!(unnamed.is_empty(), "in no row: {unnamed:?}");
}

/// The sizes of a ROM, and what follows from them: where leaves end, where the SROM CRC and the Magic Packet block stand.
const GEOMETRY: [&str; 11] = [
    "92", "94", "96", "124", "128", "476", "478", "480", "508", "510", "512",
];

/// Where a number of these means something else: a file or folder of crates/, the number, and what it is there.
const OTHER_MEANINGS: [(&str, &str, &str); 15] = [
    ("format", "128", "the top bit of a block's first byte"),
    ("block", "128", "the same, and the most bytes of a block"),
    (
        "block/proofs/Phy.antt",
        "510",
        "the most bytes of 255 words",
    ),
    ("sheet/specs", "128", "the top bit of a block's first byte"),
    ("sheet/proofs/Blocks.antt", "128", "the same"),
    ("writer/src/entries.rt", "128", "the same"),
    ("writer/proofs/Openings.antt", "128", "the same"),
    (
        "maker/proofs/Turns.antt",
        "128",
        "the same, and the most bytes of a block",
    ),
    ("survey/proofs", "128", "the most bytes of a block"),
    ("report/src/words.rt", "128", "room for a refusal's words"),
    ("hexadecimal/specs/Group.antt", "124", "the character '|'"),
    (
        "format/specs/Cases.antt",
        "92",
        "the bytes of case j's second block",
    ),
    (
        "leaf/specs/Cases.antt",
        "124",
        "where case j's first block ends",
    ),
    (
        "worked/specs",
        "92",
        "document 01's and 02's own words in a case",
    ),
    ("worked/specs", "124", "the same"),
];

/// The two sizes stand in one list of `rom`, and what follows from them beside it: nothing else names one of the numbers,
/// in code, specifications or proofs. Comments may.
#[test]
fn only_rom_names_the_geometry() {
    let crates = root().join("crates");
    let (mut seen, mut found) = (0, Vec::new());
    let mut met = [false; OTHER_MEANINGS.len()];
    for path in files(&crates, &["antt", "rt"]) {
        let file = path.strip_prefix(&crates).unwrap();
        if file.starts_with("rom") {
            continue;
        }
        seen += 1;
        let text = fs::read_to_string(&path).unwrap();
        let mark = if file.extension().is_some_and(|it| it == "rt") {
            "//"
        } else {
            "--"
        };
        for (line, number) in text.lines().zip(1..) {
            let code = line.split(mark).next().unwrap_or("");
            let words = code.split(|c: char| !c.is_alphanumeric());
            for word in words.filter(|word| GEOMETRY.contains(word)) {
                let is_other = |(place, other, _): &(&str, &str, &str)| {
                    file.starts_with(place) && *other == word
                };
                match OTHER_MEANINGS.iter().position(is_other) {
                    Some(place) => met[place] = true,
                    None => found.push(format!("{}:{number}: {word}", file.display())),
                }
            }
        }
    }
    assert!(seen > 400, "only {seen} files were read");
    let unmet: Vec<_> = OTHER_MEANINGS
        .iter()
        .zip(met)
        .filter(|(_, met)| !met)
        .collect();
    assert!(unmet.is_empty(), "no longer there: {unmet:?}");
    assert!(found.is_empty(), "{}", found.join("\n"));
}
