//! Hexadecimal text: an image laid out in each form decodes to itself, and so does what the
//! programs print that the forms are named after.

use card::{card_in, root, samples, shell, temporary};
use second::forms::{FORMS, Form};
use second::layout::{Layout, SMALL};
use second::random::Random;
use second::sheet::{Form::Wide, LONGEST_WIDE_SHEET};
use second::sheets::Sheet;
use std::fs;
use std::io::Write;
use std::path::Path;
use std::process::{Command, Stdio};
use std::thread;

/// The bytes of a text that the test program reads: what is left over is blanks.
const ROOM: usize = 1024;

const RANDOM_IMAGES: usize = 10_000;

/// What crates/text_vectors prints of texts: a problem or 0, and the bytes in hexadecimal.
fn decoded(texts: &[String]) -> Vec<(u8, String)> {
    let mut program = Command::new(root().join("crates/text_vectors/out/text_vectors"))
        .stdin(Stdio::piped())
        .stdout(Stdio::piped())
        .spawn()
        .expect("crates/text_vectors/out/text_vectors, which `rt ci` builds");
    let mut input = program.stdin.take().unwrap();
    let output = thread::scope(|scope| {
        scope.spawn(move || {
            for text in texts {
                assert!(text.len() <= ROOM, "{text}");
                let mut bytes = text.clone().into_bytes();
                bytes.resize(ROOM, b' ');
                input.write_all(&bytes).unwrap();
            }
        });
        program.wait_with_output().unwrap()
    });
    let line = |line: &str| {
        let words: Vec<_> = line.split(' ').collect();
        let [problem, _, bytes] = words.as_slice() else {
            panic!("{line}");
        };
        (problem.parse().unwrap(), bytes.to_string())
    };
    String::from_utf8(output.stdout)
        .unwrap()
        .lines()
        .map(line)
        .collect()
}

fn digits(bytes: &[u8]) -> String {
    bytes.iter().map(|byte| format!("{byte:02x}")).collect()
}

/// Random bytes; every other image has a run of zeros, for which some forms have a line of '*'.
fn random_image(random: &mut Random, number: usize) -> Vec<u8> {
    let mut image = random.bytes::<128>().to_vec();
    if number % 2 == 1 {
        let start = random.below(128);
        let end = start + random.below(129 - start);
        image[start..end].fill(0);
    }
    image
}

/// Every sample of which the test program has room for the text, and 10,000 random images, in every form. A form of words has an
/// even number of bytes, so the sample that is a byte short is in the others alone.
#[test]
fn an_image_decodes_to_itself() {
    let images = samples().into_iter().map(|(.., image)| image);
    let mut images: Vec<_> = images.filter(|image| !is_large(image)).collect();
    assert!(images.len() >= 30, "{} samples", images.len());
    let mut random = Random::new(2026);
    images.extend((0..RANDOM_IMAGES).map(|number| random_image(&mut random, number)));
    for form in FORMS {
        let fits = |image: &&Vec<u8>| !form.is_words() || image.len() % 2 == 0;
        let images: Vec<_> = images.iter().filter(fits).collect();
        let texts: Vec<_> = images.iter().map(|image| form.text(image)).collect();
        let decoded = decoded(&texts);
        assert_eq!(decoded.len(), images.len(), "{form:?}");
        for ((image, text), decoded) in images.iter().zip(&texts).zip(decoded) {
            assert_eq!(decoded, (0, digits(image)), "{form:?}\n{text}");
        }
    }
}

fn is_large(image: &[u8]) -> bool {
    image.len() > usize::from(SMALL)
}

/// What `./card read` says of a larger sample in each form is what it says of the sample.
#[test]
fn a_large_image_is_read_in_each_form() {
    let folder = temporary("large_forms");
    let mut count = 0;
    for (name, arguments, image) in samples() {
        let arguments = card::words(arguments, &image);
        let read = |file: &str| card_in(&folder, &format!("read {file} {arguments}"));
        let fits = |form: &&Form| is_large(&image) && (!form.is_words() || image.len() % 2 == 0);
        for form in FORMS.iter().filter(fits) {
            fs::write(folder.join("text"), form.text(&image)).unwrap();
            let raw = read(&format!("samples/{name}"));
            assert_eq!(read("$TMP/text"), raw, "{form:?} {name}");
            count += 1;
        }
    }
    assert!(count >= 6 * FORMS.len() - 4, "{count} texts");
}

/// The longest sheet in each form of text is written to the image of the sheet itself.
#[test]
fn a_long_sheet_is_read_in_each_form() {
    let folder = temporary("sheet_forms");
    let longest = Sheet::longest(&mut Random::new(1), Layout::LARGE_PLAIN, false).bytes(Wide);
    assert_eq!(longest.len(), LONGEST_WIDE_SHEET);
    fs::write(folder.join("raw"), &longest).unwrap();
    let written = |file: &str, out: &str| {
        let words = format!("write $TMP/{file} $TMP/{out} --wide --size 512 --force");
        let run = card_in(&folder, &words);
        assert_eq!(run.status, 0, "{}", run.written);
        fs::read(folder.join(out)).unwrap()
    };
    let image = written("raw", "raw.rom");
    for form in FORMS {
        fs::write(folder.join("text"), form.text(&longest)).unwrap();
        assert_eq!(written("text", "text.rom"), image, "{form:?}");
    }
}

/// A program, the words that have it print a file, and the form that it prints.
const PROGRAMS: [(&str, &str, Form); 5] = [
    ("xxd", "xxd", Form::Xxd),
    ("xxd", "xxd -p", Form::Plain),
    ("hexdump", "hexdump", Form::Words),
    ("hexdump", "hexdump -C", Form::Canonical),
    ("od", "od -A x -t x1", Form::Octal),
];

fn is_installed(program: &str) -> bool {
    shell(&format!("command -v {program}"), Path::new("/nowhere")).status == 0
}

/// What `./card read` says of what a program prints of a sample is what it says of the sample; and
/// the forms are laid out here as the programs print them. A program that is not installed is passed
/// over, and said.
#[test]
fn what_programs_print() {
    let folder = temporary("forms");
    for (program, words, form) in PROGRAMS {
        if !is_installed(program) {
            eprintln!("{program} is not installed: {words} is not tried");
            continue;
        }
        for (name, arguments, image) in samples() {
            let printed = shell(&format!("{words} samples/{name}"), &folder);
            assert_eq!(printed.status, 0, "{words} {name}");
            if form.is_words() && image.len() % 2 == 1 {
                continue;
            }
            assert_eq!(printed.written, form.text(&image), "{words} {name}");
            fs::write(folder.join("printed"), printed.written).unwrap();
            let arguments = card::words(arguments, &image);
            let read = |file: &str| card_in(&folder, &format!("read {file} {arguments}"));
            let raw = read(&format!("samples/{name}"));
            assert_eq!(read("$TMP/printed"), raw, "{words} {name}");
        }
    }
}
