//! Writes texts of each form, whole and damaged, to one file, and to another what must be decoded
//! of each: `text_vectors INPUT OUTPUT`.

use second::forms::{FORMS, Form};
use second::layout::SMALL;
use second::random::Random;
use std::{env, fs, io, process};

/// The bytes of an image.
const ROM: usize = SMALL as usize;

/// A text is filled up to so many bytes with blanks.
const ROOM: usize = 1024;

/// What can be wrong with a text (crates/hexadecimal, src/lib.rt).
const NO_OFFSET: u8 = 1;
const WRONG_OFFSET: u8 = 2;
const NO_BYTE: u8 = 3;
const TOO_MANY: u8 = 4;
const NO_BYTES: u8 = 5;

struct Vector {
    text: String,
    problem: u8,
    /// The lines that are read, up to the one with which something is wrong.
    lines: usize,
    bytes: Vec<u8>,
}

fn main() -> io::Result<()> {
    let arguments: Vec<_> = env::args_os().skip(1).collect();
    let [input, output] = arguments.as_slice() else {
        eprintln!("usage: text_vectors INPUT OUTPUT");
        process::exit(2);
    };
    let vectors = vectors();
    let texts: Vec<_> = vectors.iter().map(filled).collect();
    let lines: String = vectors.iter().map(line).collect();
    fs::write(input, texts.concat())?;
    fs::write(output, lines)
}

fn filled(vector: &Vector) -> Vec<u8> {
    let mut text = vector.text.clone().into_bytes();
    assert!(text.len() <= ROOM, "{}", vector.text);
    text.resize(ROOM, b' ');
    text
}

/// The problem, the lines and the bytes. A text that is fine is read to the end of what fills it up.
fn line(vector: &Vector) -> String {
    let lines = match vector.problem {
        0 | NO_BYTES => filled(vector).split_inclusive(|&it| it == b'\n').count(),
        _ => vector.lines,
    };
    let digits: String = vector.bytes.iter().map(|it| format!("{it:02x}")).collect();
    format!("{} {lines} {digits}\n", vector.problem)
}

fn fine(text: String, bytes: &[u8]) -> Vector {
    Vector {
        text,
        problem: 0,
        lines: 0,
        bytes: bytes.to_vec(),
    }
}

fn wrong(text: String, problem: u8, lines: usize, bytes: &[u8]) -> Vector {
    Vector {
        text,
        problem,
        lines,
        bytes: bytes.to_vec(),
    }
}

fn vectors() -> Vec<Vector> {
    let mut random = Random::new(13);
    let mut vectors = Vec::new();
    for form in FORMS {
        vectors.extend(whole(form, &mut random));
        vectors.extend(damaged(form, &mut random));
    }
    vectors.extend(others());
    vectors
}

/// Random bytes with rows of zeros among them, and with ends of lines as DOS has them.
fn whole(form: Form, random: &mut Random) -> Vec<Vector> {
    let mut bytes: [u8; ROM] = random.bytes();
    bytes[32..80].fill(0);
    let mut vectors = vec![
        fine(form.text(&bytes), &bytes),
        fine(form.text(&[0; ROM]), &[0; ROM]),
    ];
    for length in [1, 15, 16, 76, 87] {
        if !form.is_words() || length % 2 == 0 {
            let bytes = &random.bytes::<ROM>()[..length];
            vectors.push(fine(form.text(bytes), bytes));
        }
    }
    let short = &bytes[..64];
    vectors.push(fine(form.text(short).replace('\n', "\r\n"), short));
    vectors
}

/// A row's third line lost, and a digit of it changed to none.
fn damaged(form: Form, random: &mut Random) -> Vec<Vector> {
    let bytes: [u8; 64] = random.bytes();
    let text = form.text(&bytes);
    let lines: Vec<_> = text.lines().collect();
    let third = match form {
        Form::Ethtool => 4,
        Form::Numbered => 3,
        _ => 2,
    };
    let mut lost = lines.clone();
    lost.remove(third);
    let mut changed: Vec<_> = lines.iter().map(|line| line.to_string()).collect();
    let place = changed[third].rfind(&last_digits(form, &bytes)).unwrap();
    changed[third].replace_range(place..place + 1, "g");
    let all_but = |text: Vec<String>| text.join("\n") + "\n";
    if form == Form::Plain {
        // Without offsets nobody can tell; what is left is decoded. The third line has the last four bytes.
        let before = [&bytes[..60]].concat();
        return vec![
            fine(
                all_but(lost.iter().map(|it| it.to_string()).collect()),
                &before,
            ),
            wrong(all_but(changed), NO_BYTE, third + 1, &bytes[..63]),
        ];
    }
    let last = if form.is_words() { 46 } else { 47 };
    vec![
        wrong(
            all_but(lost.iter().map(|it| it.to_string()).collect()),
            WRONG_OFFSET,
            third + 1,
            &bytes[..32],
        ),
        wrong(all_but(changed), NO_BYTE, third + 1, &bytes[..last]),
    ]
}

/// The digits of the last byte or word of the third row.
fn last_digits(form: Form, bytes: &[u8]) -> String {
    match form {
        Form::Numbered | Form::Words => format!("{:02x}{:02x}", bytes[47], bytes[46]),
        Form::Plain => format!("{:02x}", bytes[63]),
        _ => format!("{:02x}", bytes[47]),
    }
}

/// Texts that are none, and places where a form could be taken for another.
fn others() -> Vec<Vector> {
    let text = str::to_string;
    vec![
        wrong(String::new(), NO_BYTES, 0, &[]),
        wrong(text("pan 3: card replaced on Tuesday"), NO_BYTES, 0, &[]),
        wrong(text("the bytes:\n11 10 0b 50\n"), NO_BYTES, 0, &[]),
        fine(text("1110 0b50"), &[0x11, 0x10, 0x0b, 0x50]),
        fine(text("\n\n  11 100b\n\t50\n"), &[0x11, 0x10, 0x0b, 0x50]),
        fine(
            text("00000000: 11 10 0b 50  .. P\n"),
            &[0x11, 0x10, 0x0b, 0x50],
        ),
        fine(
            text("0000000: 1110 0b50  .. P\n"),
            &[0x11, 0x10, 0x0b, 0x50],
        ),
        fine(
            text("000000 11 10 0b 50  >...P<\n"),
            &[0x11, 0x10, 0x0b, 0x50],
        ),
        fine(
            text(" 0x00: 1011 500b\n 0x02: 0001\n"),
            &[0x11, 0x10, 0x0b, 0x50, 1, 0],
        ),
        wrong(text("00000010: 1110\n"), WRONG_OFFSET, 1, &[]),
        wrong(
            text("0000000 11 10\n0000020 0b\n"),
            WRONG_OFFSET,
            2,
            &[0x11, 0x10],
        ),
        wrong(
            text("000000 11 10\n*\n000010\n"),
            WRONG_OFFSET,
            3,
            &[0x11, 0x10],
        ),
        wrong(
            text("00000000: 1110\n0002 0b50\n"),
            NO_OFFSET,
            2,
            &[0x11, 0x10],
        ),
        wrong(
            text("0x0000: 11 10\n00000002: 0b50\n"),
            NO_OFFSET,
            2,
            &[0x11, 0x10],
        ),
        wrong(text("11 1 0\n"), NO_BYTE, 1, &[0x11]),
        wrong(text("11 10 0\n"), NO_BYTE, 1, &[0x11, 0x10]),
        wrong(text("000000 1110 0b\n"), NO_BYTE, 1, &[0x10, 0x11]),
        wrong(text("0x0000: 11 100b\n"), NO_BYTE, 1, &[0x11, 0x10]),
        wrong(
            text("0000000 0100 0000 0000 0000 0000 0000 0000 0000\n*\n0000810\n"),
            TOO_MANY,
            3,
            &[&[0, 1][..], &[0; 14]].concat(),
        ),
    ]
}
