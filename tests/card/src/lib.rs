//! The bench tool `./card`, run from the root of the repository.

use second::crc::{magic_crc, srom_crc};
use second::edition::taken_as;
use second::layout::{LARGE, Layout, SIZES, SMALL, magic_offset};
use second::magic::{CRC_OFFSET, LAST_RESERVED, RESERVED};
use second::reader::{Arguments, EXTENDED, POWER, controller_offset, first_leaf, starts};
use second::sheet::Form;
use std::fs;
use std::ops::Range;
use std::path::{Path, PathBuf};
use std::process::Command;
use std::sync::Once;

/// What a command wrote to standard output and standard error together, and its exit status.
#[derive(Debug, PartialEq, Eq)]
pub struct Run {
    pub written: String,
    pub status: i32,
}

impl Run {
    /// What a refused call says, and that it leaves no file.
    pub fn assert_refused(&self, number: u8, out: &Path) {
        let refused = format!("REFUSED {number}: ");
        let Run { written, status } = self;
        assert!(written.starts_with(&refused), "{number}\n{written}");
        assert_eq!(*status, 1, "{written}");
        assert!(!out.exists(), "{}", out.display());
    }

    /// What is said first of a file that is written, and what it holds.
    pub fn assert_written(&self, out: &Path, bytes: &[u8]) {
        let accepted = format!("ACCEPTED  {} bytes are written\n", bytes.len());
        let Run { written, status } = self;
        assert!(written.starts_with(&accepted), "{written}");
        assert_eq!(*status, 0, "{written}");
        assert_eq!(fs::read(out).unwrap(), bytes, "{}", out.display());
    }
}

pub fn root() -> PathBuf {
    Path::new(env!("CARGO_MANIFEST_DIR")).join("../..")
}

/// Runs a line of shell at the root. `$TMP` is a folder, and is written so wherever the line wrote
/// its path.
pub fn shell(line: &str, temporary: &Path) -> Run {
    let output = Command::new("sh")
        .args(["-c", &format!("{{ {line}\n}} 2>&1")])
        .current_dir(root())
        .env("TMP", temporary)
        .output()
        .unwrap();
    let written = String::from_utf8_lossy(&output.stdout);
    Run {
        written: written.replace(temporary.to_str().unwrap(), "$TMP"),
        status: output.status.code().unwrap_or(-1),
    }
}

/// The words that name the arguments of a reading of an image.
pub fn words(arguments: Arguments, image: &[u8]) -> String {
    let Arguments {
        chip,
        controller,
        level,
        layout,
        first_edition,
    } = arguments;
    format!(
        "{chip} --controller {controller} --level {level}{}{}",
        options(layout, image),
        edition_option(first_edition)
    )
}

/// The option that names an edition, behind other words: "1.01 where it is not given".
pub fn edition_option(first_edition: bool) -> &'static str {
    if first_edition { " --edition 1.00" } else { "" }
}

/// An edition, as 000 numbers it.
pub fn edition(first_edition: bool) -> &'static str {
    if first_edition { "1.00" } else { "1.01" }
}

/// The options that name a layout of an image, behind other words: its size where the image's length says another.
pub fn options(layout: Layout, image: &[u8]) -> String {
    let size = if layout.size == size_by_length(image) {
        String::new()
    } else {
        format!(" --size {}", layout.size)
    };
    let magic = if layout.magic { " --magic" } else { "" };
    format!("{size}{magic}")
}

/// "The size is the file's length where that is 128 or 512"; any other counts as the smaller (docs/DECISIONS.md, 'The bench
/// tool').
pub fn size_by_length(image: &[u8]) -> u16 {
    let is_length = |size: &u16| usize::from(*size) == image.len();
    SIZES.into_iter().find(is_length).unwrap_or(SMALL)
}

/// How a verdict names the arguments of a reading that `words` asks for. "`--size N` says otherwise, and the verdict then
/// tells which"; so it does of the larger size.
pub fn asked(arguments: Arguments, image: &[u8]) -> String {
    let Arguments {
        chip,
        controller,
        level,
        layout: Layout { size, magic },
        ..
    } = arguments;
    let is_named = size != SMALL || size != size_by_length(image);
    let size = if is_named {
        format!(", size {size}")
    } else {
        String::new()
    };
    let magic = if magic { ", Magic Packet layout" } else { "" };
    format!("chip {chip}, controller {controller}, level {level}{size}{magic}")
}

/// Runs the tool with words that need no quotes.
pub fn card(words: &str) -> Run {
    card_in(Path::new("/nowhere"), words)
}

/// The same, where `$TMP` is a folder. The tool is run as its launcher runs it, which sees first, and once, that it is built.
pub fn card_in(temporary: &Path, words: &str) -> Run {
    static BUILT: Once = Once::new();
    BUILT.call_once(|| assert_eq!(shell("./card help", temporary).status, 0));
    let run = format!("status=$(crates/card/out/card {words} 3>&1 >&4 4>&-)");
    shell(&format!("exec 4>&1; {run}; exit ${{status:-2}}"), temporary)
}

/// What is shown of a refusal that the layout has a say in, and of the CRC and the reserved bytes of the
/// Magic Packet block.
pub fn reasons(image: &[u8], layout: Layout, number: u8) -> Vec<String> {
    if number == 1 {
        let length = image.len();
        return vec![format!(
            "the image has {length} bytes; a ROM has {SMALL} or {LARGE}"
        )];
    }
    let leaf_limit = layout.leaf_limit();
    let magic = magic_offset(layout.size);
    match number {
        3 => {
            let at = layout.srom_crc_offset();
            let stored = u16::from_le_bytes([image[at], image[at + 1]]);
            let computed = srom_crc(image, layout).value;
            let (high, last) = (at + 1, at - 1);
            vec![format!(
                "SROM CRC, bytes {at} and {high}: 0x{stored:04x} stored, 0x{computed:04x} of bytes 0 to {last}"
            )]
        }
        5 | 6 => {
            let most = layout.most_controllers();
            let count = image[19];
            let at = controller_offset(count.into());
            let reserved = image.get(at).unwrap_or(&0);
            vec![format!(
                "controller count (1 to {most}), byte 19: {count}; reserved byte (0), byte {at}: 0x{reserved:02x}"
            )]
        }
        10 => {
            let least = first_leaf(image[19].into());
            vec![format!(
                "a leaf of this card starts at byte {least} or later, and ends before byte {leaf_limit}"
            )]
        }
        13 => vec![format!("leaves end before byte {leaf_limit}")],
        29 => {
            let at = magic + CRC_OFFSET;
            let (stored, computed) = (image[at], magic_crc(image, layout.size).value);
            vec![format!(
                "Magic CRC, byte {at}: 0x{stored:02x} stored, 0x{computed:02x} of the block's other bytes"
            )]
        }
        30 => RESERVED
            .chain([LAST_RESERVED])
            .map(|inside| magic + inside)
            .filter(|&at| image[at] != 0)
            .map(|at| format!("reserved byte, byte {at}: 0x{:02x}", image[at]))
            .collect(),
        _ => vec![],
    }
}

/// The fixed connection types by their names in 000 ('Selected Connection Type'), but without '(Twisted Pair)', '(Symbol
/// Scrambler)' and '(Fiber)', and with 'full duplex' for 'Full_Duplex' and 'link pass' for 'Link Pass'.
const FIXED_NAMES: [(u16, &str); 18] = [
    (0x0000, "10BaseT"),
    (0x0100, "10BaseT with Nway"),
    (0x0204, "10BaseT full duplex"),
    (0x0400, "10BaseT without link pass test"),
    (0x0001, "10Base2 (BNC)"),
    (0x0002, "10Base5 (AUI)"),
    (0x0003, "100BaseTx"),
    (0x0205, "100BaseTx full duplex"),
    (0x0006, "100BaseT4"),
    (0x0007, "100BaseFx"),
    (0x0208, "100BaseFx full duplex"),
    (0x0009, "MII 10BaseT"),
    (0x020A, "MII 10BaseT full duplex"),
    (0x000D, "MII 100BaseTx"),
    (0x020E, "MII 100BaseTx full duplex"),
    (0x000F, "MII 100BaseT4"),
    (0x0010, "MII 100BaseFx"),
    (0x0211, "MII 100BaseFx full duplex"),
];

/// The name of a fixed connection type, by what it is taken as; none of one that is autosensed.
pub fn fixed_name(connection: u16) -> Option<&'static str> {
    let mut names = FIXED_NAMES.iter();
    names
        .find(|(it, _)| *it == taken_as(connection))
        .map(|(_, name)| *name)
}

/// What is said of a connection type, behind the words that begin its line: `read` and `walk` name both codes ('0x0200, in
/// edition 1.00 what 0x0204 is since'), and then the rest has a line of its own.
pub fn connection_lines(begin: &str, connection: u16, words: &str) -> String {
    match taken_as(connection) {
        taken if taken == connection => format!("{begin}0x{connection:04x}, {words}"),
        taken => format!(
            "{begin}0x{connection:04x}, in edition 1.00 what 0x{taken:04x} is since,\n{:1$}{words}",
            "",
            begin.len()
        ),
    }
}

/// A power block: its number, its places and its mode byte.
#[derive(Debug, Clone)]
pub struct PowerBlock {
    pub number: usize,
    pub places: Range<usize>,
    pub mode: u8,
}

/// The power blocks of a leaf that a reader of level 6 accepts: "length 2g+3; a mode byte, g, g words"
/// (document 02, request 3), so that the mode stands behind length and type.
pub fn power_blocks(image: &[u8], arguments: Arguments) -> Vec<PowerBlock> {
    let level_6 = Arguments {
        level: 6,
        ..arguments
    };
    let starts = starts(image, level_6).unwrap_or_default();
    let block = |(number, start): (usize, usize)| PowerBlock {
        number,
        places: start..start + 1 + usize::from(image[start] & !EXTENDED),
        mode: image[start + 2],
    };
    let is_power = |&(_, start): &(usize, usize)| {
        image[start] & EXTENDED != 0 && u16::from(image[start + 1]) == POWER
    };
    let blocks = starts.into_iter().enumerate();
    blocks.filter(is_power).map(block).collect()
}

/// A new empty folder for a test of this name.
pub fn temporary(name: &str) -> PathBuf {
    let folder = Path::new(env!("CARGO_MANIFEST_DIR"))
        .join("../target/card")
        .join(name);
    let _ = fs::remove_dir_all(&folder);
    fs::create_dir_all(&folder).unwrap();
    folder.canonicalize().unwrap()
}

/// The sample images: each file's name, the newest reader's arguments for its chip, layout and edition, and
/// its bytes, as samples/README.md lists them.
pub fn samples() -> Vec<(String, Arguments, Vec<u8>)> {
    let image = |row: Row| {
        let [chip, layout, edition, ..] = row.cells.as_slice() else {
            panic!(
                "samples/README.md has no chip, layout and edition for {}",
                row.name
            );
        };
        let newest = Arguments::newest(chip.parse().unwrap());
        let arguments = newest
            .laid_out(layout_named(layout))
            .in_edition(edition == "1.00");
        (row.name, arguments, row.bytes)
    };
    rows(".rom").into_iter().map(image).collect()
}

/// The sample sheets: each file's name, its form, the layout that it is written in, and its bytes.
pub fn sample_sheets() -> Vec<(String, Form, Layout, Vec<u8>)> {
    let sheet = |row: Row| {
        let [_, form, layout, ..] = row.cells.as_slice() else {
            panic!("samples/README.md has no form and layout for {}", row.name);
        };
        let form = match form.as_str() {
            "narrow" => Form::Narrow,
            "wide" => Form::Wide,
            _ => panic!("samples/README.md has no form for {}", row.name),
        };
        (row.name, form, layout_named(layout), row.bytes)
    };
    rows(".sheet").into_iter().map(sheet).collect()
}

fn layout_named(name: &str) -> Layout {
    match name {
        "128 plain" => Layout::PLAIN,
        "128 magic" => Layout::MAGIC,
        "512 plain" => Layout::LARGE_PLAIN,
        "512 magic" => Layout::LARGE_MAGIC,
        _ => panic!("samples/README.md has a layout {name}"),
    }
}

/// A row of samples/README.md: the file's name, the cells behind it, and the file's bytes.
struct Row {
    name: String,
    cells: Vec<String>,
    bytes: Vec<u8>,
}

/// The rows of the files whose names end so. Each row names a file, and each such file has one row.
fn rows(ending: &str) -> Vec<Row> {
    let folder = root().join("samples");
    let readme = fs::read_to_string(folder.join("README.md")).unwrap();
    let row = |line: &str| {
        let cells = line.split(" | ").map(|cell| cell.trim_start_matches("| "));
        let mut cells = cells.map(str::to_string);
        let name = cells.next().unwrap();
        let bytes = fs::read(folder.join(&name));
        let bytes = bytes.unwrap_or_else(|error| panic!("samples/{name}: {error}"));
        Row {
            name,
            cells: cells.collect(),
            bytes,
        }
    };
    let is_named = |line: &&str| {
        let name = line.strip_prefix("| ").and_then(|it| it.split(' ').next());
        name.is_some_and(|name| name.ends_with(ending))
    };
    let rows: Vec<_> = readme.lines().filter(is_named).map(row).collect();
    let mut names: Vec<_> = rows.iter().map(|row| row.name.clone()).collect();
    names.sort();
    assert_eq!(
        files(&folder, ending),
        names,
        "samples/README.md has other rows"
    );
    rows
}

/// The names of a folder's files that end so, sorted.
fn files(folder: &Path, ending: &str) -> Vec<String> {
    let names = fs::read_dir(folder).unwrap();
    let mut names: Vec<_> = names
        .map(|entry| entry.unwrap().file_name().into_string().unwrap())
        .filter(|name| name.ends_with(ending))
        .collect();
    names.sort();
    names
}
