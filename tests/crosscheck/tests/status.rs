//! The program's status and output.

use std::process::{Command, Output};

fn run(arguments: &[&str]) -> Output {
    Command::new(env!("CARGO_BIN_EXE_crosscheck"))
        .args(arguments)
        .output()
        .expect("the program starts")
}

/// Status 2 and a line on how to use it.
#[test]
fn bad_usage() {
    for arguments in [&[][..], &["1"], &["one", "1"], &["1", "1", "1", "1"]] {
        let output = run(arguments);
        assert_eq!(output.status.code(), Some(2), "{arguments:?}");
        assert!(output.stderr.starts_with(b"usage: crosscheck SECONDS SEED"));
    }
}

/// The rounds decide where they are given; the same seed and rounds give the same table.
#[test]
fn same_table() {
    let [first, again, other] = ["1", "1", "2"].map(|seed| run(&["0", seed, "20"]));
    assert_eq!(first.status.code(), Some(0));
    assert_eq!(first.stdout, again.stdout);
    assert_ne!(first.stdout, other.stdout);
    let text = String::from_utf8(first.stdout).expect("the table is text");
    assert!(text.contains("seed 1, rounds 20, "), "{text}");
    assert!(text.ends_with(" differences 0\n"), "{text}");
}

/// The cells of the row that begins with a word, in the table of 20 rounds. A number that is 0
/// leaves its cell empty.
fn cells(first: &str) -> Vec<u64> {
    let text = String::from_utf8(run(&["0", "1", "20"]).stdout).expect("the table is text");
    let mut rows = text.lines().map(str::split_whitespace);
    let row = rows.find_map(|mut cells| (cells.next() == Some(first)).then_some(cells));
    let row = row.unwrap_or_else(|| panic!("no row {first}\n{text}"));
    row.map(|cell| cell.parse().expect("a number")).collect()
}

/// Document 02, request 4: lists of looks under 0xFFFF are held to 0x8800, and some of them would part
/// under 0x0800.
#[test]
fn looks_under_an_empty_connection_word() {
    let cells = cells("0xffff");
    assert_eq!(cells.len(), 4, "{cells:?}");
    assert_eq!(cells[0], 20, "{cells:?}");
}

/// Document 02, request 5: lists under a fixed type are compared "whenever the newest choice is an
/// entry that it lists, or there is none", and others are not; and 32 is answered.
#[test]
fn lists_under_a_fixed_type() {
    let [lists, with_choice, without, looks] = cells("fixed")[..] else {
        panic!("an empty cell");
    };
    assert!(with_choice + without < lists && looks > with_choice);
    assert_eq!(cells("32").len(), 1);
}

/// Document 02, request 6, "Let the ROM's size be a parameter": calls are drawn in every layout of both
/// sizes, each size in at least a third of them, and with sizes that no ROM has.
#[test]
fn calls_of_every_layout() {
    let text = String::from_utf8(run(&["0", "1", "20"]).stdout).expect("the table is text");
    let (_, behind) = text.split_once("\nlayout").expect("a table of layouts");
    let titles = behind.lines().next().expect("a row of titles");
    let titles: Vec<_> = titles.split_whitespace().collect();
    assert_eq!(titles.join(" "), "128 128 magic 512 512 magic other none");
    let (_, rest) = behind.split_once("\ncalls").expect("a row of calls");
    let row = rest.lines().next().expect("it has cells");
    let calls: Vec<u64> = row
        .split_whitespace()
        .map(|it| it.parse().unwrap())
        .collect();
    let [small, small_magic, large, large_magic, other, _] = calls[..] else {
        panic!("an empty cell: {calls:?}");
    };
    let all: u64 = calls.iter().sum();
    assert!(text.contains(&format!("calls {all}, ")), "{text}");
    for (plain, magic) in [(small, small_magic), (large, large_magic)] {
        assert!(3 * (plain + magic) >= all, "{calls:?}");
        assert!(plain > 0 && magic > 0 && other > 0, "{calls:?}");
    }
}

/// Document 02, request 12: calls of version 1 are drawn in both editions, accepted in both, and each cause of
/// a refusal that it brings is told at the end, 11 for each of the codes, 14 and 38.
#[test]
fn calls_of_both_editions() {
    let text = String::from_utf8(run(&["0", "1", "400"]).stdout).expect("the table is text");
    let (_, told) = text
        .split_once("\nof version 1: ")
        .expect("what is told at the end");
    let told = told.lines().next().expect("a line");
    let counts: Vec<_> = told
        .split(", ")
        .map(|count| count.rsplit_once(' ').expect("a title and a number"))
        .collect();
    let titles: Vec<_> = counts.iter().map(|(title, _)| *title).collect();
    assert_eq!(
        titles.join(", "),
        "1.01 calls, 1.00 calls, 1.01 accepted, 1.00 accepted, \
         11 0x0200, 11 0x0203, 11 0x0204, 11 0x0205, 14 version 1, 38"
    );
    let is_often = |(_, often): &(&str, &str)| often.parse::<u64>().expect("a number") > 20;
    assert!(counts.iter().all(is_often), "{told}");
}

/// Document 02, request 7, "The writer and the sheet maker take both": calls with sheets are drawn in both
/// forms, each in at least a third of them, in every layout and without one; "24, 33 and 12 only", and 33
/// of the writer, are told at the end.
#[test]
fn calls_of_both_forms() {
    let [narrow, wide] = ["narrow", "wide"].map(cells);
    assert_eq!((narrow.len(), wide.len()), (6, 6));
    let [of_narrow, of_wide] = [&narrow, &wide].map(|calls| calls.iter().sum::<u64>());
    assert!(of_narrow <= 2 * of_wide && of_wide <= 2 * of_narrow);
    let text = String::from_utf8(run(&["0", "1", "400"]).stdout).expect("the table is text");
    let (_, told) = text
        .split_once("\n\nwiden ")
        .expect("what is told at the end");
    let words: Vec<_> = told
        .lines()
        .take(3)
        .flat_map(str::split_whitespace)
        .collect();
    let numbers = words.iter().filter_map(|word| word.parse::<u64>().ok());
    let numbers: Vec<_> = numbers.collect();
    let [24, a, 12, b, 24, c, 33, d, 12, e, 33, f] = numbers[..] else {
        panic!("{told}");
    };
    assert!([a, b, c, d, e, f].iter().all(|&often| often > 20), "{told}");
}
