//! The commands of README.md that build, link and run from C and from Rust, run as they stand there; but for the one that makes the
//! archive, which has run before these tests: they are linked with it.

use std::path::Path;
use std::process::Command;

/// The indented lines between the line that begins with `from` and the next that begins with `to`.
fn commands(readme: &str, from: &str, to: &str) -> Vec<String> {
    readme
        .lines()
        .skip_while(|line| !line.starts_with(from))
        .take_while(|line| !line.starts_with(to))
        .filter_map(|line| line.strip_prefix("    $ "))
        .filter(|line| *line != "(cd crates/srom && rt lib)")
        .map(str::to_owned)
        .collect()
}

fn run(from: &str, to: &str) -> String {
    let root = Path::new(env!("CARGO_MANIFEST_DIR")).join("../..");
    let readme = std::fs::read_to_string(root.join("README.md")).unwrap();
    let commands = commands(&readme, from, to);
    assert!(commands.len() >= 2, "README.md has commands for {from}");
    let mut printed = String::new();
    for command in commands {
        let output = Command::new("sh")
            .args(["-e", "-c", &command])
            .current_dir(&root)
            .output()
            .unwrap();
        assert!(
            output.status.success(),
            "{command}\n{}",
            String::from_utf8_lossy(&output.stderr)
        );
        printed += &String::from_utf8_lossy(&output.stdout);
    }
    printed
}

/// Document 01, 'The walk': first in table order that is up, and then another.
#[test]
fn from_c() {
    let printed = run("From C", "From Rust");
    assert!(printed.contains("links 1000: block 0"), "{printed}");
}

/// samples/README.md: the table 3@57 4@48 2@33.
#[test]
fn from_rust() {
    let printed = run("From Rust", "## ");
    let entries: Vec<_> = printed
        .lines()
        .map(|line| line.split(':').next().unwrap())
        .collect();
    assert_eq!(
        entries,
        [
            "kind 3 at byte 57",
            "kind 4 at byte 48",
            "kind 2 at byte 33"
        ]
    );
}
