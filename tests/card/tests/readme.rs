//! The bench tool's commands of README.md and docs/REPLACEMENT-CARD.md, run as they stand there. Those for C and
//! Rust are run in tests/library; `.ci/run` is what runs this, and `dump` wants a card.

use card::{root, shell};
use std::path::Path;

/// Each command with the lines that are shown below it.
fn commands(readme: &str) -> Vec<(String, String)> {
    let mut commands: Vec<(String, String)> = Vec::new();
    let mut is_open = false;
    for line in readme.lines() {
        if let Some(command) = line.strip_prefix("    $ ./card") {
            commands.push((format!("./card{command}"), String::new()));
            is_open = true;
        } else if is_open && (line.is_empty() || line.starts_with("    ")) {
            let shown = &mut commands.last_mut().unwrap().1;
            *shown += line.strip_prefix("    ").unwrap_or(line);
            shown.push('\n');
        } else {
            is_open = false;
        }
    }
    commands
}

fn run_as_shown(page: &str, fewest: usize) {
    let page = std::fs::read_to_string(root().join(page)).unwrap();
    let commands = commands(&page);
    assert!(commands.len() >= fewest, "{commands:?}");
    assert!(commands[0].1.contains("STEPPED OVER"), "{commands:?}");
    for (command, shown) in commands {
        let run = shell(&command, Path::new("/nowhere"));
        assert_eq!(run.status, 0, "{command}\n{}", run.written);
        if !shown.trim().is_empty() {
            assert_eq!(run.written.trim_end(), shown.trim_end(), "{command}");
        }
    }
}

#[test]
fn readme() {
    run_as_shown("README.md", 8);
}

#[test]
fn replacement_card() {
    run_as_shown("docs/REPLACEMENT-CARD.md", 2);
}
