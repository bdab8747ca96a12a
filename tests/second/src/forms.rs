//! Bytes as text, as programs print them: each form is laid out from the manual of the program that
//! it is named after.

use std::fmt::Write;

/// The bytes of a row.
const ROW: usize = 16;

/// The bytes of a row of `xxd -p`.
const PLAIN_ROW: usize = 30;

#[derive(Clone, Copy, Debug, PartialEq, Eq)]
pub enum Form {
    /// `ethtool -e`: headings, then offset and bytes.
    Ethtool,
    /// Diagnostic programs of old: a heading, then the number of the row's first word, and words;
    /// and behind them other lines.
    Numbered,
    /// `xxd`: bytes in pairs, and their characters.
    Xxd,
    /// `xxd -p`: bytes alone.
    Plain,
    /// `hexdump -C`: bytes, and their characters; a line of '*' for rows like the one before.
    Canonical,
    /// `od -A x -t x1`: bytes, with such lines.
    Octal,
    /// `hexdump`: words, with such lines.
    Words,
}

pub const FORMS: [Form; 7] = [
    Form::Ethtool,
    Form::Numbered,
    Form::Xxd,
    Form::Plain,
    Form::Canonical,
    Form::Octal,
    Form::Words,
];

impl Form {
    /// Whether it has words, and so an even number of bytes.
    pub fn is_words(self) -> bool {
        matches!(self, Form::Numbered | Form::Words)
    }

    /// The bytes in this form.
    pub fn text(self, bytes: &[u8]) -> String {
        match self {
            Form::Ethtool => {
                let headings = "Offset\t\tValues\n------\t\t------\n";
                headings.to_string() + &rows(bytes, ethtool_row)
            }
            Form::Numbered => {
                let heading = format!("EEPROM contents ({} words):\n", bytes.len() / 2);
                heading + &rows(bytes, numbered_row) + " ID block CRC 0xe1 (vs. 0xe1).\n"
            }
            Form::Xxd => rows(bytes, xxd_row),
            Form::Plain => bytes
                .chunks(PLAIN_ROW)
                .map(|row| hexadecimal(row, "") + "\n")
                .collect(),
            Form::Canonical => squeezed(bytes, canonical_row, |end| format!("{end:08x}\n")),
            Form::Octal => squeezed(
                bytes,
                |offset, row| format!("{offset:06x} {}\n", hexadecimal(row, " ")),
                |end| format!("{end:06x}\n"),
            ),
            Form::Words => squeezed(
                bytes,
                |offset, row| format!("{offset:07x}{}\n", words(row)),
                |end| format!("{end:07x}\n"),
            ),
        }
    }
}

fn hexadecimal(bytes: &[u8], between: &str) -> String {
    let digits: Vec<_> = bytes.iter().map(|byte| format!("{byte:02x}")).collect();
    digits.join(between)
}

/// Each word behind a blank, its low byte last.
fn words(row: &[u8]) -> String {
    row.chunks(2).fold(String::new(), |mut text, word| {
        write!(text, " {:02x}{:02x}", word[1], word[0]).unwrap();
        text
    })
}

/// Each byte as its character, or a dot.
fn characters(row: &[u8]) -> String {
    let character = |&byte: &u8| match byte {
        b' '..=b'~' => char::from(byte),
        _ => '.',
    };
    row.iter().map(character).collect()
}

fn ethtool_row(offset: usize, row: &[u8]) -> String {
    format!("0x{offset:04x}:\t\t{} \n", hexadecimal(row, " "))
}

fn numbered_row(offset: usize, row: &[u8]) -> String {
    format!("0x{:02x}: {}\n", offset / 2, words(row))
}

fn xxd_row(offset: usize, row: &[u8]) -> String {
    let pairs: Vec<_> = row.chunks(2).map(|pair| hexadecimal(pair, "")).collect();
    format!(
        "{offset:08x}: {:<39}  {}\n",
        pairs.join(" "),
        characters(row)
    )
}

fn canonical_row(offset: usize, row: &[u8]) -> String {
    let halves: Vec<_> = row.chunks(8).map(|half| hexadecimal(half, " ")).collect();
    format!(
        "{offset:08x}  {:<48}  |{}|\n",
        halves.join("  "),
        characters(row)
    )
}

fn rows(bytes: &[u8], line: impl Fn(usize, &[u8]) -> String) -> String {
    let offsets = (0..).step_by(ROW);
    offsets
        .zip(bytes.chunks(ROW))
        .map(|(offset, row)| line(offset, row))
        .collect()
}

/// Rows with one line of '*' for those that are like the one before, and the offset of the end.
fn squeezed(
    bytes: &[u8],
    line: impl Fn(usize, &[u8]) -> String,
    end: impl Fn(usize) -> String,
) -> String {
    let mut text = String::new();
    let mut before: &[u8] = &[];
    let mut is_squeezed = false;
    for (offset, row) in (0..).step_by(ROW).zip(bytes.chunks(ROW)) {
        if row != before {
            text += &line(offset, row);
        } else if !is_squeezed {
            text += "*\n";
        }
        is_squeezed = row == before;
        before = row;
    }
    text + &end(bytes.len())
}
