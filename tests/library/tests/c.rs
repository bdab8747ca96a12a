//! The header and the example driver, as a C or C++ author meets them: compiled with warnings as errors, linked to the
//! archive, and run. Needs `cc` and `c++`.

use library::Part;
use library::lent::hex;
use second::calls;
use second::crc::{self, Checksum};
use second::edition::{CORRECTED, FIRST_VERSION, Rules, taken_as};
use second::images::{Card, Leaf, Sample, block};
use second::layout::{LARGE, LAYOUTS, Layout, MAGIC_LENGTH, SIZES, SMALL, magic_offset};
use second::magic::{self, Magic, MagicAnswer};
use second::random::Random;
use second::reader::{
    self, Answer, Arguments, CHIPS, COMPACT, MEDIA_21041, NEWEST_LEVEL, NO_DEFAULT,
};
use second::sheet::{self, FORMS, Form, LONGEST_SHEET, LONGEST_WIDE_SHEET, Made};
use second::walk::{
    AUTOSENSE, AUTOSENSE_NWAY, AUTOSENSE_ONCE, Autosense, EMPTY_CONNECTION, NONE, ROW_LENGTH, Rows,
    Walk, Walked, Way,
};
use std::collections::{BTreeMap, BTreeSet};
use std::fs;
use std::mem::{offset_of, size_of};
use std::path::{Path, PathBuf};
use std::process::{Command, Output};

fn root() -> PathBuf {
    Path::new(env!("CARGO_MANIFEST_DIR")).join("../..")
}

/// A place for what a test builds.
fn scratch(name: &str) -> PathBuf {
    Path::new(env!("CARGO_TARGET_TMPDIR")).join(name)
}

fn run(command: &mut Command) -> Output {
    let output = command.output().expect("the command starts");
    assert!(
        output.status.code().is_some(),
        "{command:?} was ended by a signal"
    );
    output
}

fn compile(compiler: &str, arguments: &[&str], source: &Path, program: &Path) {
    let output = run(Command::new(compiler)
        .args(["-Wall", "-Wextra", "-Werror", "-I"])
        .arg(root().join("include"))
        .args(arguments)
        .arg(source)
        .arg(root().join("crates/srom/out/libsrom.a"))
        .arg("-o")
        .arg(program));
    assert!(
        output.status.success(),
        "{}",
        String::from_utf8_lossy(&output.stderr)
    );
}

fn lines(output: &Output) -> Vec<String> {
    String::from_utf8_lossy(&output.stdout)
        .lines()
        .map(str::to_owned)
        .collect()
}

/// What C and C++ make of each struct: name, field or `size`, number.
fn layout_source() -> String {
    let structs = [
        ("srom_layout", &["size", "magic"][..]),
        ("srom_checksum", &["number", "value"]),
        (
            "srom_arguments",
            &["chip", "controller", "level", "layout", "first_edition"],
        ),
        (
            "srom_answer",
            &[
                "number",
                "connection",
                "control",
                "address",
                "blocks",
                "listed",
                "resets",
                "skipped",
                "power",
                "default_number",
            ],
        ),
        ("srom_magic", &["password", "address", "command"]),
        ("srom_magic_answer", &["number", "magic"]),
        ("srom_rows", &["listed", "active_invalid", "fixed"]),
        (
            "srom_walk",
            &[
                "loaded",
                "connection",
                "blocks",
                "rows",
                "default_number",
                "settled",
                "selected",
                "looks",
                "switches",
            ],
        ),
        ("srom_walked", &["number", "walk"]),
        ("srom_made", &["number", "length"]),
        ("srom_part", &["start", "length"]),
    ];
    let mut body = String::new();
    for (name, fields) in structs {
        body += &format!("    printf(\"{name} size %zu\\n\", sizeof({name}));\n");
        for field in fields {
            body += &format!("    printf(\"{name} {field} %zu\\n\", offsetof({name}, {field}));\n");
        }
    }
    main_source(&body)
}

/// A program that takes these steps.
fn main_source(body: &str) -> String {
    format!(
        "#include <srom.h>\n#include <stdio.h>\n\nint main(void)\n{{\n{body}    return 0;\n}}\n"
    )
}

/// The same of the types through which the other tests hold the archive to the second implementation.
fn layout_expected() -> Vec<String> {
    macro_rules! layout {
        ($name:literal, $type:ty, $($field:ident),+) => {
            vec![
                format!(concat!($name, " size {}"), size_of::<$type>()),
                $(format!(concat!($name, " ", stringify!($field), " {}"), offset_of!($type, $field))),+
            ]
        };
    }
    [
        layout!("srom_layout", Layout, size, magic),
        layout!("srom_checksum", Checksum, number, value),
        layout!(
            "srom_arguments",
            Arguments,
            chip,
            controller,
            level,
            layout,
            first_edition
        ),
        layout!(
            "srom_answer",
            Answer,
            number,
            connection,
            control,
            address,
            blocks,
            listed,
            resets,
            skipped,
            power,
            default_number
        ),
        layout!("srom_magic", Magic, password, address, command),
        layout!("srom_magic_answer", MagicAnswer, number, magic),
        layout!("srom_rows", Rows, listed, active_invalid, fixed),
        layout!(
            "srom_walk",
            Walk,
            loaded,
            connection,
            blocks,
            rows,
            default_number,
            settled,
            selected,
            looks,
            switches
        ),
        layout!("srom_walked", Walked, number, walk),
        layout!("srom_made", Made, number, length),
        layout!("srom_part", Part, start, length),
    ]
    .concat()
}

fn header_in(compiler: &str, standard: &str, extension: &str) {
    let source = scratch(&format!("layout.{extension}"));
    let program = scratch(&format!("layout-{extension}"));
    fs::write(&source, layout_source()).unwrap();
    compile(compiler, &[standard], &source, &program);
    assert_eq!(lines(&run(&mut Command::new(&program))), layout_expected());
}

#[test]
fn header_is_c11() {
    header_in("cc", "-std=c11", "c");
}

#[test]
fn header_is_cpp17() {
    header_in("c++", "-std=c++17", "cc");
}

/// The header's names for document 01's refusals, by their numbers, and document 02's from 29 on. There is no 28, 22 "is
/// retired", and 34 to 37 are of requests that have not landed.
const REFUSALS: [&str; 33] = [
    "ACCEPTED",
    "BAD_IMAGE_LENGTH",
    "BAD_VERSION",
    "BAD_SROM_CRC",
    "BAD_ID_CRC",
    "BAD_COUNT",
    "NO_CONTROLLER",
    "NO_CHIP",
    "BAD_LEVEL",
    "BAD_ADDRESS",
    "LEAF_OUTSIDE",
    "BAD_CONNECTION",
    "ARRAY_TOO_SHORT",
    "BLOCK_OUTSIDE",
    "BAD_BLOCK_TYPE",
    "BAD_BLOCK_LENGTH",
    "BAD_BLOCK_CODE",
    "BAD_ADVERTISEMENT",
    "CLASHING_BLOCKS",
    "BAD_REPORT",
    "WALK_FRESH",
    "WALK_LOADED",
    "TOO_MANY_LOOKS",
    "BAD_SHEET",
    "BAD_SHEET_ENTRY",
    "LEAF_TOO_LONG",
    "NOT_TIDY",
    "BAD_MAGIC_CRC",
    "BAD_MAGIC_RESERVED",
    "REPEATED_MODE",
    "NO_FIXED_MEDIUM",
    "SHEET_TOO_LARGE",
    "FIRST_VERSION_CHIP",
];

/// Each number that the header names is the second implementation's, or the documents'.
#[test]
fn header_numbers() {
    let mut expected = vec![
        ("SMALL_SIZE".to_owned(), SMALL.into()),
        ("LARGE_SIZE".to_owned(), LARGE.into()),
        ("LONGEST_SHEET".to_owned(), LONGEST_SHEET),
        ("LONGEST_WIDE_SHEET".to_owned(), LONGEST_WIDE_SHEET),
        ("NEWEST_LEVEL".to_owned(), NEWEST_LEVEL.into()),
        ("NONE".to_owned(), NONE.into()),
        ("KIND_COMPACT".to_owned(), COMPACT.into()),
        ("KIND_21041".to_owned(), MEDIA_21041.into()),
        ("AUTOSENSE".to_owned(), AUTOSENSE.into()),
        ("AUTOSENSE_ONCE".to_owned(), AUTOSENSE_ONCE.into()),
        ("AUTOSENSE_NWAY".to_owned(), AUTOSENSE_NWAY.into()),
        ("EMPTY_CONNECTION".to_owned(), EMPTY_CONNECTION.into()),
    ];
    expected.extend(CHIPS.map(|chip| (chip.to_string(), chip.into())));
    let numbers = (0..=21).chain(23..=27).chain(29..=33).chain([38]);
    assert_eq!(numbers.clone().count(), REFUSALS.len());
    expected.extend(REFUSALS.map(str::to_owned).into_iter().zip(numbers));
    assert_eq!(NONE, NO_DEFAULT);
    let header = fs::read_to_string(root().join("include/srom.h")).unwrap();
    let named = header
        .split(['{', ',', '}'])
        .filter(|piece| piece.contains(" = "));
    assert_eq!(named.count(), expected.len(), "the header names others");
    let show = |(name, _): &(String, usize)| format!("    printf(\"%d\\n\", SROM_{name});\n");
    let (source, program) = (scratch("numbers.c"), scratch("numbers"));
    fs::write(
        &source,
        main_source(&expected.iter().map(show).collect::<String>()),
    )
    .unwrap();
    compile("cc", &["-std=c11"], &source, &program);
    let numbers = lines(&run(&mut Command::new(&program)));
    assert_eq!(numbers.len(), expected.len());
    for (number, (name, expected)) in numbers.iter().zip(expected) {
        assert_eq!(*number, expected.to_string(), "SROM_{name}");
    }
}

/// The cells of each row of the table that stands first in a section of the manual, but for its titles.
fn header_table(section: &str) -> Vec<Vec<String>> {
    let header = fs::read_to_string(root().join("include/srom.h")).unwrap();
    let section = format!("/* ---- {section} ---- */");
    let rows = header
        .lines()
        .skip_while(|line| *line != section)
        .skip_while(|line| !line.starts_with(" *     "))
        .skip(1)
        .map_while(|line| line.strip_prefix(" *     "));
    let cells = |row: &str| {
        let cells = row.split("  ").map(str::trim);
        cells
            .filter(|cell| !cell.is_empty())
            .map(str::to_owned)
            .collect()
    };
    rows.map(cells).collect()
}

/// A column of the table, which says where each field stands.
fn header_places(section: &str, column: usize) -> Vec<String> {
    let rows = header_table(section).into_iter();
    rows.map(|row| row[column].replace(" * N", "N")).collect()
}

/// A field of two bytes.
fn pair(first: usize) -> String {
    format!("{first}, {}", first + 1)
}

/// A field of so many bytes.
fn range(first: usize, size: usize) -> String {
    format!("{first} to {}", first + size - 1)
}

/// Document 02, requests 1 and 6: the manual says where the layout's parts stand as the second implementation has them.
#[test]
fn header_layouts() {
    let cells = |name: &str, of: fn(Layout) -> String| {
        let columns = LAYOUTS.into_iter().map(of);
        [name.to_owned()].into_iter().chain(columns).collect()
    };
    let expected: [Vec<String>; 6] = [
        cells("leaves end before", |it| it.leaf_limit().to_string()),
        cells("the maker's bytes", |it| pair(it.leaf_limit())),
        cells("SROM CRC", |it| pair(it.srom_crc_offset())),
        cells("which covers", |it| range(0, it.srom_crc_offset())),
        cells("controllers", |it| range(1, it.most_controllers())),
        cells("the block", |it| match it.magic {
            true => range(it.board_end(), MAGIC_LENGTH),
            false => "none".to_owned(),
        }),
    ];
    assert_eq!(header_table("Layout"), expected);
}

/// Document 000, section 4, by the field sizes: the manual's table has a row for each field of the block, and a column for
/// each size.
#[test]
fn header_magic_block() {
    for (column, size) in SIZES.into_iter().enumerate() {
        let start = magic_offset(size);
        let expected = [
            range(start + magic::PASSWORD_OFFSET, 6),
            range(start + magic::ADDRESS_OFFSET, 6),
            pair(start + magic::COMMAND_OFFSET),
            range(start + magic::RESERVED.start, 16),
            (start + magic::CRC_OFFSET).to_string(),
            (start + magic::LAST_RESERVED).to_string(),
        ];
        let places = header_places("The Magic Packet block", column);
        assert_eq!(places, expected, "{size}");
    }
}

/// Document 02, request 6, "Blocks rise to 255 and walk rows with them": each row of the header has a flag for block 254.
#[test]
fn header_rows() {
    let header = fs::read_to_string(root().join("include/srom.h")).unwrap();
    let (_, rows) = header.split_once("typedef struct srom_rows {").unwrap();
    let (rows, _) = rows.split_once('}').unwrap();
    assert_eq!(rows.matches(&format!("[{ROW_LENGTH}];")).count(), 3);
    assert_eq!(rows.matches("uint8_t ").count(), 3);
    assert_eq!(ROW_LENGTH, 256);
}

/// Document 01, 'The sheet', and document 02, request 7: the manual's table has a row for each field, and a column for each form,
/// at the byte where the second implementation has it.
#[test]
fn header_sheet_layout() {
    for (column, form) in FORMS.into_iter().enumerate() {
        let size = |first: usize| match form {
            Form::Narrow => first.to_string(),
            Form::Wide => pair(first),
        };
        let place = |narrow| form.place(narrow);
        let expected = [
            size(sheet::COUNT),
            size(form.total()),
            range(place(sheet::ID), 16),
            (place(sheet::ID) + 16).to_string(),
            place(sheet::VERSION).to_string(),
            range(place(sheet::ADDRESS), 6),
            place(sheet::DEVICE).to_string(),
            pair(place(sheet::CHIP)),
            pair(place(sheet::CONNECTION)),
            place(sheet::CONTROL).to_string(),
            pair(place(sheet::MAKER)),
            place(sheet::KINDS).to_string(),
            format!("{} + 2N", place(sheet::KINDS)),
            format!("{} + 3N", place(sheet::KINDS)),
        ];
        assert_eq!(header_places("Sheets", column), expected, "{form:?}");
    }
}

/// Document 02, request 12: the manual's table has both editions' codes, the chips whose row has them, and what a walk takes each
/// as.
#[test]
fn header_editions() {
    let expected = CORRECTED.map(|(first, later)| {
        let mut chips = CHIPS.to_vec();
        let has = |chip, code, first_edition| {
            let rules = Rules {
                chip,
                version: FIRST_VERSION,
                first_edition,
            };
            !rules.lack_chip() && rules.permit(code)
        };
        chips.retain(|&chip| has(chip, first, true) && has(chip, later, false));
        let chips: Vec<_> = chips.iter().map(u16::to_string).collect();
        let code = |code: u16| format!("0x{code:04x}");
        vec![
            code(first),
            code(later),
            chips.join(", "),
            code(taken_as(first)),
        ]
    });
    assert_eq!(header_table("Editions"), expected);
}

/// What the manual says of the longest sheets is what the second implementation finds.
#[test]
fn header_longest_sheets() {
    let header = fs::read_to_string(root().join("include/srom.h")).unwrap();
    let header = header.replace("\n * ", " ");
    let [narrow, wide] = FORMS.map(|form| form.longest(Layout::PLAIN));
    let large = Form::Wide.longest(Layout::LARGE_PLAIN);
    assert_eq!(
        [narrow, wide, large],
        [34 + 3 * 91 + 91, 400, 36 + 3 * 255 + 471]
    );
    for said in [
        "34 + 3 * 91 + 91, which is SROM_LONGEST_SHEET, and 400 in the wide form",
        "36 + 3 * 255 + 471, which is SROM_LONGEST_WIDE_SHEET",
        "of an image of 128 bytes that has 400",
    ] {
        assert!(header.contains(said), "{said}");
    }
}

/// What tests/fields.c prints of a walk.
fn walk_fields(walk: &Walk) -> String {
    let row = |row: &[u8]| row.iter().map(u8::to_string).collect::<String>();
    format!(
        " {} {} {} {} {} {} {} {} {} {} {}",
        u8::from(walk.loaded),
        walk.connection,
        walk.blocks,
        row(&walk.rows.listed),
        row(&walk.rows.active_invalid),
        row(&walk.rows.fixed),
        walk.default_number,
        u8::from(walk.settled),
        walk.selected,
        walk.looks,
        walk.switches
    )
}

/// What tests/fields.c prints of a sheet that was made.
fn made_fields(made: Made, buffer: &[u8]) -> String {
    let sheet = hex(&buffer[..made.length]);
    format!("made {} {} {sheet}", made.number, made.length)
}

/// What tests/fields.c prints for an image, from the second implementation.
fn fields_expected(image: &[u8], arguments: Arguments) -> Vec<String> {
    let Arguments {
        chip,
        layout,
        first_edition,
        ..
    } = arguments;
    let (answer, _) = reader::read_all(image, arguments);
    let part = reader::view(image, arguments, 0);
    let start = part.as_ptr().addr() - image.as_ptr().addr();
    let mut expected = Vec::new();
    let longer = [image, &[0]].concat();
    for image in [image, &longer] {
        let crcs = [
            crc::srom_crc(image, layout),
            crc::id_crc(image, layout.size),
            crc::magic_crc(image, layout.size),
        ];
        expected.extend(crcs.map(|crc| format!("checksum {} {}", crc.number, crc.value)));
    }
    let values = answer.values().map(|value| value.to_string()).join(" ");
    expected.push(format!("answer {values}"));
    expected.push(format!("part {start} {}", part.len()));
    let MagicAnswer { number, magic } = magic::read_magic(image, layout.size);
    let (password, address) = (hex(&magic.password), hex(&magic.address));
    expected.push(format!(
        "magic {number} {password} {address} {}",
        magic.command
    ));
    let other = Magic {
        password: [1, 2, 3, 4, 5, 6],
        address: magic.password,
        command: magic.command.wrapping_add(7),
    };
    for mut copy in [image.to_vec(), longer] {
        let number = magic::write_magic(other, &mut copy, layout.size);
        expected.push(format!("block {number} {}", hex(&copy)));
    }
    let mut walk = Autosense::default();
    for call in ["load", "look", "look", "clear"] {
        let report = [u8::from(walk.walk().looks == 1); ROW_LENGTH];
        let number = match call {
            "load" => walk.load(image, arguments),
            "look" => walk.look(&report),
            _ => walk.clear(),
        };
        expected.push(format!("walked {number}{}", walk_fields(&walk.walk())));
    }
    for form in FORMS {
        let mut buffer = [0; 2048];
        let made = sheet::make(image, chip, form, layout, first_edition, &mut buffer);
        expected.push(made_fields(made, &buffer));
        let sheet = &buffer[..made.length];
        let mut copy = image.to_vec();
        copy.iter_mut()
            .take(90)
            .skip(30)
            .for_each(|byte| *byte = 0xFF);
        let number = sheet::write(sheet, form, layout, first_edition, &mut copy);
        expected.push(format!("written {number} {}", hex(&copy)));
        for room in [60, 2048] {
            for read in FORMS {
                let mut other = vec![0; room];
                let made = sheet::convert(sheet, read, &mut other);
                expected.push(made_fields(made, &other));
            }
        }
    }
    expected
}

/// The fields of the header's structs are those that the archive fills: each has the second implementation's value after every
/// call, and more than one value over all of them, for images of both sizes and of wrong ones.
fn fields_in(compiler: &str, standard: &str, extension: &str) {
    let source = scratch(&format!("fields.{extension}"));
    let program = scratch(&format!("fields-{extension}"));
    fs::copy(root().join("tests/library/tests/fields.c"), &source).unwrap();
    compile(compiler, &[standard], &source, &program);
    let file = scratch(&format!("fields-{extension}.rom"));
    let mut random = Random::new(21143);
    let mut values: BTreeMap<(String, usize), BTreeSet<String>> = BTreeMap::new();
    for _ in 0..200 {
        let Sample { card, arguments } = calls::sample(&mut random);
        let image = card.image();
        fs::write(&file, &image).unwrap();
        let output = run(Command::new(&program)
            .arg(&file)
            .args(arguments.to_string().split(' ')));
        let found = lines(&output);
        assert_eq!(found, fields_expected(&image, arguments));
        for line in found {
            let (name, fields) = line.split_once(' ').unwrap();
            for (field, value) in fields.split(' ').enumerate() {
                values
                    .entry((name.to_owned(), field))
                    .or_default()
                    .insert(value.to_owned());
            }
        }
    }
    for (field, values) in values {
        assert!(1 < values.len(), "{field:?} is always {values:?}");
    }
}

#[test]
fn fields_in_c11() {
    fields_in("cc", "-std=c11", "c");
}

#[test]
fn fields_in_cpp17() {
    fields_in("c++", "-std=c++17", "cc");
}

fn probe(arguments: &[&str]) -> Output {
    static ONCE: std::sync::Once = std::sync::Once::new();
    let program = scratch("probe");
    ONCE.call_once(|| {
        compile(
            "cc",
            &["-std=c11"],
            &root().join("examples/driver/probe.c"),
            &program,
        );
    });
    run(Command::new(program).current_dir(root()).args(arguments))
}

/// The line of an entry, from the second implementation's table and view.
fn entry_line(image: &[u8], arguments: Arguments, entry: usize, kind: u16, offset: u16) -> String {
    let bytes: String = reader::view(image, arguments, entry)
        .iter()
        .map(|byte| format!(" {byte:02x}"))
        .collect();
    format!("  entry {entry}: type {kind} at byte {offset}:{bytes}")
}

/// Document 01, 'Levels and the table', on the mission's card: its entries, and an exit status that says that a medium is
/// selected.
#[test]
fn probe_lists_the_replacement_card() {
    let image = fs::read(root().join("samples/replacement-card.rom")).unwrap();
    let arguments = Arguments::newest(21143);
    let output = probe(&["samples/replacement-card.rom", "21143", "0", "0000"]);
    let mut expected = vec!["address 0000f8001700, connection type 0x0800".to_owned()];
    for (entry, (kind, offset)) in [(3, 57), (4, 48), (2, 33)].into_iter().enumerate() {
        expected.push(entry_line(&image, arguments, entry, kind, offset));
    }
    expected.push("  0 resets, 0 power blocks, 1 blocks of unknown types stepped over".to_owned());
    assert_eq!(lines(&output)[..5], expected);
    assert_eq!(output.status.code(), Some(0));
}

/// Document 02, request 3: power blocks are counted, and not listed.
#[test]
fn probe_counts_power_blocks() {
    let output = probe(&["samples/power-21143.rom", "21143", "0", "00000"]);
    let printed = lines(&output);
    let listed = printed.iter().filter(|line| line.starts_with("  entry "));
    assert_eq!(listed.count(), 3);
    let counts = "  0 resets, 2 power blocks, 0 blocks of unknown types stepped over";
    assert!(printed.iter().any(|line| line == counts));
    assert_eq!(output.status.code(), Some(0));
}

/// The kinds of steps that a look takes (document 01, 'The walk', steps 1 and 2), before the walk is settled and after; those
/// under a fixed type (document 02, request 5); and refusals.
#[derive(Debug, Clone, Copy, PartialEq, Eq, PartialOrd, Ord)]
enum Step {
    NoneBefore,
    NoneAfter,
    DefaultBefore,
    DefaultAgainBefore,
    DefaultAfter,
    DefaultAgainAfter,
    /// A link is up, but of a block that is not listed, or of one with Active_Invalid.
    DefaultForUnlisted,
    DefaultForInvalid,
    FirstBefore,
    /// The default, which was selected while no link was up.
    FirstOnDefault,
    FirstAfter,
    FirstAfterNone,
    StaysUp,
    StaysUpOnDefault,
    StaysOnce,
    StaysInvalid,
    /// Under a fixed type, from no block, and again with its link up or another's.
    FixedFirst,
    FixedUp,
    FixedDown,
    RefusedReport,
    RefusedFixed,
}

use Step::*;

/// Whether the second implementation's look, from one state to the next, is a step of this kind.
fn is_step(step: Step, before: &Walk, links: &[u8], number: u8, after: &Walk) -> bool {
    let is_up = |block: u8| links.get(usize::from(block)) == Some(&1);
    let is_invalid = |block: usize| before.rows.active_invalid[block] == 1;
    let is_listed = |block: usize| before.rows.listed[block] == 1;
    let mut ups = (0..links.len()).filter(|&block| links[block] == 1);
    let (from, to) = (before.selected, after.selected);
    let is_once = Way::of(before.connection) == Way::Once;
    let is_fixed = Way::of(before.connection) == Way::Fixed && after.settled;
    let was_default = from == before.default_number;
    let on_default = to == before.default_number && to != NONE && !is_up(to);
    let with_none_up = on_default && ups.clone().next().is_none();
    let first = to != NONE && is_up(to) && after.settled;
    let first_before = first && !before.settled;
    let first_after = first && before.settled && from != to;
    let stays = before.settled && from == to && to != NONE;
    let stays_down = stays && !is_up(to);
    let is_it = match step {
        RefusedReport => return number == 19,
        RefusedFixed => return number == 32,
        NoneBefore => to == NONE && !after.settled,
        NoneAfter => to == NONE && before.settled,
        DefaultBefore => with_none_up && !after.settled && !was_default,
        DefaultAgainBefore => with_none_up && !after.settled && was_default,
        DefaultAfter => with_none_up && before.settled && !was_default,
        DefaultAgainAfter => with_none_up && before.settled && was_default && !is_once,
        DefaultForUnlisted => on_default && ups.any(|block| !is_listed(block)),
        DefaultForInvalid => on_default && before.settled && ups.any(is_invalid),
        FirstBefore => first_before && from != to,
        FirstOnDefault => first_before && from == to && was_default,
        FirstAfter => first_after && from != NONE,
        FirstAfterNone => first_after && from == NONE,
        StaysUp => stays && is_up(to) && !was_default,
        StaysUpOnDefault => stays && is_up(to) && was_default,
        StaysOnce => stays_down && is_once && !is_invalid(to.into()),
        StaysInvalid => stays_down && !is_once && is_invalid(to.into()),
        FixedFirst => is_fixed && from == NONE && !is_up(to),
        FixedUp => is_fixed && from == to && is_up(to),
        FixedDown => is_fixed && from == to && !is_up(to) && ups.next().is_some(),
    };
    number == 0 && is_it
}

/// What the probe says of a step to this state.
fn sentence(step: Step, number: u8, after: &Walk) -> String {
    let block = after.selected;
    let what = match step {
        RefusedReport | RefusedFixed => return format!("refused {number}"),
        NoneBefore | NoneAfter => {
            "no medium, since none that may be taken is up and there is no default".to_owned()
        }
        DefaultBefore | DefaultAgainBefore | DefaultAfter | DefaultAgainAfter
        | DefaultForUnlisted | DefaultForInvalid => {
            format!("block {block}, the default, since none that may be taken is up")
        }
        FirstBefore | FirstOnDefault | FirstAfter | FirstAfterNone => {
            format!("block {block}, the first in table order that may be taken and is up")
        }
        StaysUp | StaysUpOnDefault => format!("stays on block {block}, whose link is up"),
        StaysOnce => format!("stays on block {block}, since the connection type senses once"),
        StaysInvalid => format!("stays on block {block}, since it has Active_Invalid"),
        FixedFirst | FixedUp | FixedDown => {
            format!("block {block}, the first in table order that has the fixed medium")
        }
    };
    let settled = if after.settled {
        "settled"
    } else {
        "not settled"
    };
    format!("{what}; {settled}")
}

/// An image's file and chip, and looks at it: the links, and the kind of the step.
type Scene = (PathBuf, u16, Vec<(&'static str, Step)>);

fn scenes() -> Vec<Scene> {
    let sample = |name: &str| root().join("samples").join(name);
    let made = |name: &str, connection| {
        let blocks = vec![block::sia(0, None, 1, 2), block::symbol(3, 0, 0, 0x4000)];
        let file = scratch(name);
        fs::write(&file, Card::tidy(21143, connection, blocks).image()).unwrap();
        file
    };
    let sensed_once = vec![
        ("00", DefaultBefore),
        ("00", DefaultAgainBefore),
        ("10", FirstBefore),
        ("01", StaysOnce),
        ("00", StaysOnce),
    ];
    vec![
        (
            sample("replacement-card.rom"),
            21143,
            vec![
                ("0000", DefaultBefore),
                ("0000", DefaultAgainBefore),
                ("0100", DefaultForUnlisted),
                ("1001", FirstBefore),
                ("1001", StaysUp),
                ("1000", FirstAfter),
                ("0000", DefaultAfter),
                ("0000", DefaultAgainAfter),
                ("1010", StaysUpOnDefault),
                ("101", RefusedReport),
            ],
        ),
        (
            sample("replacement-card.rom"),
            21143,
            vec![("0000", DefaultBefore), ("1010", FirstOnDefault)],
        ),
        (
            sample("case-b.rom"),
            21143,
            vec![
                ("000", NoneBefore),
                ("101", FirstBefore),
                ("010", NoneAfter),
                ("100", FirstAfterNone),
            ],
        ),
        (
            sample("case-b.rom"),
            21143,
            vec![("001", FirstBefore), ("000", NoneAfter)],
        ),
        (
            sample("21145.rom"),
            21145,
            vec![
                ("00", NoneBefore),
                ("10", FirstBefore),
                ("00", StaysOnce),
                ("01", StaysOnce),
                ("10", StaysUp),
                ("20", RefusedReport),
            ],
        ),
        (
            sample("21143.rom"),
            21143,
            vec![
                ("01000", FirstBefore),
                ("00000", StaysInvalid),
                ("10110", StaysInvalid),
            ],
        ),
        (
            sample("21143.rom"),
            21143,
            vec![("10000", FirstBefore), ("01000", DefaultForInvalid)],
        ),
        // "If settled": a default that is selected before does not make it stay.
        (
            made("probe-once.rom", AUTOSENSE_ONCE),
            21143,
            sensed_once.clone(),
        ),
        (
            made("probe-empty.rom", EMPTY_CONNECTION),
            21143,
            sensed_once,
        ),
        (
            sample("boiler-house.rom"),
            21143,
            vec![
                ("1101", FixedFirst),
                ("0010", FixedUp),
                ("0100", FixedDown),
                ("0020", RefusedReport),
            ],
        ),
        (
            sample("missing-medium.rom"),
            21143,
            vec![("111", RefusedFixed)],
        ),
    ]
}

/// Document 01, 'The walk', and document 02, requests 4 and 5: the probe says of each kind of step what happened, and every kind
/// is met.
#[test]
fn probe_tells_every_step() {
    let mut told = BTreeSet::new();
    for (file, chip, looks) in scenes() {
        let image = fs::read(&file).unwrap();
        let mut walk = Autosense::default();
        assert_eq!(walk.load(&image, Arguments::newest(chip)), 0);
        let (mut expected, mut status) = (Vec::new(), 1);
        for &(links, step) in &looks {
            let report: Vec<u8> = links.bytes().map(|digit| digit - b'0').collect();
            let before = walk.walk();
            let number = walk.look(&report);
            let after = walk.walk();
            assert!(
                is_step(step, &before, &report, number, &after),
                "{file:?} {links}: {step:?}"
            );
            expected.push(format!("links {links}: {}", sentence(step, number, &after)));
            told.insert(step);
            status = i32::from(number != 0 || after.selected == NONE);
        }
        let mut words = vec![file.to_str().unwrap().to_owned()];
        words.extend([chip.to_string(), "0".to_owned()]);
        words.extend(looks.iter().map(|&(links, _)| links.to_owned()));
        let words: Vec<_> = words.iter().map(String::as_str).collect();
        let output = probe(&words);
        let printed = lines(&output);
        assert_eq!(printed[printed.len() - looks.len()..], expected, "{file:?}");
        assert_eq!(output.status.code(), Some(status), "{file:?}");
    }
    // The last kind is the refusal under a fixed type.
    assert_eq!(told.len(), RefusedFixed as usize + 1, "met: {told:?}");
}

/// Document 02, request 1, on a wake-up card: its media table in that layout, and what its block says.
#[test]
fn probe_shows_a_magic_packet_block() {
    let name = "samples/magic-21143.rom";
    let image = fs::read(root().join(name)).unwrap();
    let arguments = Arguments::newest(21143).laid_out(Layout::MAGIC);
    let output = probe(&[name, "21143", "0", "magic", "10000"]);
    let (answer, entries) = reader::read_all(&image, arguments);
    let Magic {
        password,
        address,
        command,
    } = magic::read_magic(&image, arguments.layout.size).magic;
    let mut expected = vec![format!(
        "address {:012x}, connection type 0x{:04x}",
        answer.address, answer.connection
    )];
    for (entry, (kind, offset)) in entries.into_iter().enumerate() {
        expected.push(entry_line(&image, arguments, entry, kind, offset));
    }
    expected.push("  1 resets, 0 power blocks, 0 blocks of unknown types stepped over".to_owned());
    expected.push(format!(
        "wakes by address {}, password {}, command 0x{command:04x}",
        hex(&address),
        hex(&password)
    ));
    let printed = lines(&output);
    assert_eq!(printed[..printed.len() - 1], expected);
    assert_eq!(output.status.code(), Some(0));
}

/// The caller says that the block is there: without the word its card is refused with 3, and with it one that has none.
#[test]
fn probe_goes_by_the_layout() {
    for words in [
        &["samples/magic-21143.rom", "21143", "0"][..],
        &["samples/21143.rom", "21143", "0", "magic"],
    ] {
        let output = probe(words);
        assert_eq!(lines(&output), ["refused 3"]);
        assert_eq!(output.status.code(), Some(1));
    }
    let output = probe(&["samples/damaged-magic-crc.rom", "21143", "0", "magic"]);
    assert_eq!(lines(&output), ["refused 29"]);
}

/// Document 02, request 12: the caller names the edition. A card of 0x0203 is read with the word and not without it, and its look
/// selects the medium of 0x0205, 100BASE-TX full duplex; a card of 0x0205 is read without it.
#[test]
fn probe_goes_by_the_edition() {
    let file = scratch("probe-edition.rom");
    for (code, first_edition) in CORRECTED[1..]
        .iter()
        .flat_map(|&(first, later)| [(first, true), (later, false)])
    {
        let blocks = [5, 3].map(|code| block::compact(code, 0, 0));
        let mut card = Card::tidy(21140, code, blocks.to_vec());
        card.version = FIRST_VERSION;
        fs::write(&file, card.image()).unwrap();
        let words = [file.to_str().unwrap(), "21140", "0", "first", "00"];
        let [with, without] = [&words[..], &[&words[..3], &words[4..]].concat()].map(probe);
        let (right, wrong) = match first_edition {
            true => (with, without),
            false => (without, with),
        };
        assert_eq!(lines(&wrong), ["refused 11"], "{code:#06x}");
        let printed = lines(&right);
        assert!(
            printed[0].ends_with(&format!("0x{code:04x}")),
            "{printed:?}"
        );
        let last = printed.last().unwrap();
        assert!(last.starts_with("links 00: block 0, "), "{last}");
    }
}

#[test]
fn probe_names_a_refusal() {
    for (name, number) in [("case-d", 14), ("damaged-power", 31)] {
        let output = probe(&[&format!("samples/{name}.rom"), "21143", "0"]);
        assert_eq!(lines(&output), [format!("refused {number}")]);
        assert_eq!(output.status.code(), Some(1));
    }
}

#[test]
fn probe_refuses_a_bad_report() {
    let output = probe(&["samples/case-b.rom", "21143", "0", "00"]);
    assert_eq!(lines(&output).last().unwrap(), "links 00: refused 19");
    assert_eq!(output.status.code(), Some(1));
}

/// Document 02, request 6: the file's length is the ROM's size. A leaf behind byte 255 is listed, with and without a Magic
/// Packet block; of 255 blocks the last is selected, and the rows have its flag.
#[test]
fn probe_reads_a_large_rom() {
    let file = scratch("probe-large.rom");
    let name = file.to_str().unwrap();
    let blocks = vec![block::sia(0, None, 1, 2), block::symbol(3, 0, 0, 0x4000)];
    let leaf = Leaf::new(400, 21143, 0x0800, blocks);
    for layout in [Layout::LARGE_PLAIN, Layout::LARGE_MAGIC] {
        let card = Card::new(2, vec![leaf.clone()]).laid_out(&mut Random::new(1), layout);
        let image = card.image();
        fs::write(&file, &image).unwrap();
        let arguments = Arguments::newest(21143).laid_out(layout);
        let words = [name, "21143", "0", "magic", "10"];
        let words = match layout.magic {
            true => words.to_vec(),
            false => words.into_iter().filter(|&it| it != "magic").collect(),
        };
        let output = probe(&words);
        let expected: Vec<_> = [(4, 410), (2, 403)]
            .into_iter()
            .enumerate()
            .map(|(entry, (kind, offset))| entry_line(&image, arguments, entry, kind, offset))
            .collect();
        assert_eq!(lines(&output)[1..3], expected);
        assert_eq!(output.status.code(), Some(0));
    }
    let image = Card::longest(&mut Random::new(1), Layout::LARGE_PLAIN).image();
    fs::write(&file, image).unwrap();
    let links = "0".repeat(254) + "1";
    let output = probe(&[name, "21041", "0", &links]);
    let told = "block 254, the first in table order that may be taken and is up; settled";
    assert!(lines(&output).last().unwrap().ends_with(told));
    assert_eq!(output.status.code(), Some(0));
}

#[test]
fn probe_wants_a_file_of_128_or_512_bytes() {
    let file = scratch("probe-other.rom");
    for length in [0, 127, 129, 256, 511, 513, 640, 1024] {
        fs::write(&file, vec![0; length]).unwrap();
        let output = probe(&[file.to_str().unwrap(), "21143", "0"]);
        assert_eq!(output.status.code(), Some(2), "{length}");
        assert!(!output.stderr.is_empty());
    }
    for length in [128, 512] {
        fs::write(&file, vec![0; length]).unwrap();
        let output = probe(&[file.to_str().unwrap(), "21143", "0"]);
        assert_eq!(lines(&output), ["refused 2"], "{length}");
    }
}
