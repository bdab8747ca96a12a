//! The bits that are sent to the part and the words that come back, over the model of tests/dump/part.c; and the file that
//! is written. 002, 7.4.1: a command of three bits, 110, an address of 6 or 8, and a word of 16; Table 8-71 has CSR9's bits.

use dump::{Folder, compile, complaint, failed, text};
use second::random::Random;
use std::fs::{self, File};
use std::os::unix::fs::PermissionsExt;
use std::path::PathBuf;
use std::process::{Command, Output};

const SELECT: u32 = 1 << 0;
const CLOCK: u32 = 1 << 1;
const DATA_IN: u32 = 1 << 2;
const SERIAL_ROM: u32 = 1 << 11;
const READ_OPERATION: u32 = 1 << 14;

/// Both sizes of parts, by their address bits.
const WIDTHS: [u32; 2] = [6, 8];

/// The model as a program, a folder for what it reads and writes.
struct Model {
    folder: Folder,
    image: PathBuf,
    out: PathBuf,
}

impl Model {
    fn new(test: &str) -> Self {
        let folder = Folder::new(test);
        compile("tests/dump/part.c", &[], &folder.join("part"));
        let [image, out] = ["image", "out"].map(|name| folder.join(name));
        Self { folder, image, out }
    }

    /// Reads an image out of a part with a fault, and writes it.
    fn run(&self, bits: u32, fault: &str, image: &[u8], options: &[&str]) -> Output {
        fs::write(&self.image, image).unwrap();
        Command::new(self.folder.join("part"))
            .arg(bits.to_string())
            .args(fault.split(' '))
            .arg(&self.out)
            .args(options)
            .stdin(File::open(&self.image).unwrap())
            .output()
            .unwrap()
    }

    /// What is said where a reading fails; nothing is written then.
    fn complaint(&self, bits: u32, fault: &str, image: &[u8]) -> (String, Option<i32>) {
        let output = self.run(bits, fault, image, &[]);
        assert!(!self.out.exists());
        complaint(&output)
    }
}

fn image(random: &mut Random, bits: u32) -> Vec<u8> {
    random.row(2 << bits)
}

/// "every word is read twice and must agree": what the part holds is what is written.
#[test]
fn reads_every_word() {
    let model = Model::new("words");
    let mut random = Random::new(1);
    for bits in WIDTHS {
        for _ in 0..50 {
            let image = image(&mut random, bits);
            let output = model.run(bits, "none 0", &image, &["--force"]);
            assert_eq!(complaint(&output), (String::new(), Some(0)), "{bits}");
            assert_eq!(fs::read(&model.out).unwrap(), image, "{bits}");
        }
    }
}

/// The bits of each command, as the part takes them: those at its data pin when the clock rises while it is selected.
fn commands(trace: &str) -> Vec<Vec<u32>> {
    let mut commands = Vec::new();
    // Whoever was here before has left it selected.
    let mut before = SELECT;
    for step in trace.split_whitespace() {
        let (value, then) = step.split_once('w').expect("each change is waited for");
        let value = u32::from_str_radix(value, 16).unwrap();
        let pins = value & (SELECT | CLOCK | DATA_IN);
        assert_eq!(value - pins, SERIAL_ROM | READ_OPERATION, "{step}");
        let is_clocked = (before | pins) & CLOCK != 0;
        let has_moved = (before ^ pins) & (SELECT | DATA_IN) != 0;
        assert!(!(is_clocked && has_moved), "{before:x} {pins:x}");
        let rises = pins & !before & CLOCK != 0;
        assert_eq!(then, if rises { "r" } else { "" }, "{step}");
        if pins & !before & SELECT != 0 {
            commands.push(Vec::new());
        }
        if rises {
            let command: &mut Vec<_> = commands.last_mut().expect("it is selected");
            command.push(pins / DATA_IN);
        }
        before = pins;
    }
    assert_eq!(before, 0, "it is left alone");
    commands
}

/// A number's bits, the highest first.
fn bits_of(number: u32, bits: u32) -> impl Iterator<Item = u32> {
    (0..bits).rev().map(move |bit| number >> bit & 1)
}

fn read_command(address: u32, bits: u32, data: u32) -> Vec<u32> {
    let command = [1, 1, 0].into_iter().chain(bits_of(address, bits));
    command.chain(bits_of(0, data)).collect()
}

/// "It writes nothing to the ROM": READ is all that is sent, once for the width, with an address alone, and then for each
/// word, in order, twice. Pins change while the clock is low, and the data pin is sampled while it is high.
#[test]
fn sends_read_alone() {
    let model = Model::new("commands");
    for bits in WIDTHS {
        let output = model.run(
            bits,
            "none 0",
            &image(&mut Random::new(2), bits),
            &["--force"],
        );
        let words = (0..1 << bits).map(|word| read_command(word, bits, 16));
        let mut expected = vec![read_command(0, bits, 0)];
        expected.extend(words.clone().chain(words));
        assert_eq!(commands(&text(&output.stdout)), expected, "{bits}");
    }
}

/// "wakes the one that is meant (CFDD, memory space)": bits 31, sleep, and 30, snooze, of the one are cleared (Table 8-29),
/// bit 1 of the other is set, and no other bit is changed.
#[test]
fn wakes() {
    let model = Model::new("wakes");
    for (found, awake) in [
        (["0000", "80000000"], "0002 00000000\n"),
        (["0000", "40000000"], "0002 00000000\n"),
        (["0147", "00000000"], "0147 00000000\n"),
        (["fffd", "ffffffff"], "ffff 3fffffff\n"),
    ] {
        let mut part = Command::new(model.folder.join("part"));
        let output = part.arg("awake").args(found).output().unwrap();
        assert_eq!(text(&output.stdout), awake);
    }
}

/// "a part that answers nothing (all ones or all zeros)": at its pin, which is found before any word is read.
#[test]
fn answers_nothing() {
    let model = Model::new("nothing");
    let instead = "      of several chips on a card one has the ROM; or the card may be loose";
    for bits in WIDTHS {
        let image = image(&mut Random::new(3), bits);
        for (fault, pin) in [("ones 0", 1), ("zeros 0", 0)] {
            let what = format!(
                "card: the ROM of 0000:00:04.0 answers nothing: its data pin stays at {pin}"
            );
            assert_eq!(
                model.complaint(bits, fault, &image),
                failed(&[&what, instead])
            );
        }
    }
}

/// The same where it answers, and has nothing to say.
#[test]
fn has_nothing() {
    let model = Model::new("empty");
    for bits in WIDTHS {
        for (byte, word) in [(0xFF, "0xffff"), (0, "0x0000")] {
            let what = format!("card: every word of the ROM of 0000:00:04.0 is {word}");
            let instead = "      the part is empty, or it answers nothing";
            let mut image = vec![byte; 2 << bits];
            assert_eq!(
                model.complaint(bits, "none 0", &image),
                failed(&[&what, instead])
            );
            // One bit is enough.
            image[(2 << bits) - 1] ^= 1;
            let output = model.run(bits, "none 0", &image, &["--force"]);
            assert_eq!(complaint(&output), (String::new(), Some(0)));
            assert_eq!(fs::read(&model.out).unwrap(), image);
            fs::remove_file(&model.out).unwrap();
        }
    }
}

/// "how many address bits the part has it finds by itself (6 or 8)".
#[test]
fn other_widths() {
    let model = Model::new("widths");
    let image = image(&mut Random::new(4), 8);
    for bits in [2, 3, 4, 5, 7] {
        let what = format!("card: the ROM of 0000:00:04.0 answers behind {bits} address bits");
        let expected = failed(&[&what, "      a part has 6 or 8 of them"]);
        assert_eq!(model.complaint(bits, "none 0", &image), expected);
    }
    for bits in [9, 10, 16] {
        let (said, status) = model.complaint(bits, "none 0", &image);
        assert!(said.contains("its data pin stays at 1"), "{bits}: {said}");
        assert_eq!(status, Some(2));
    }
}

/// "every word is read twice and must agree": each is found that does not, or is not answered.
#[test]
fn faulty_words() {
    let model = Model::new("faulty");
    let instead = "      the card may be loose in its slot";
    for bits in WIDTHS {
        let image = image(&mut Random::new(5), bits);
        for word in 0..1 << bits {
            let rom = format!("card: word {word} of the ROM of 0000:00:04.0");
            let was = u16::from_le_bytes([image[2 * word], image[2 * word + 1]]);
            let mut read = [was, was ^ 0x100];
            if word == 0 {
                // The part counts the command that finds its width too.
                read.reverse();
            }
            let what = format!(
                "{rom} is read as 0x{:04x} and then as 0x{:04x}",
                read[0], read[1]
            );
            let found = model.complaint(bits, &format!("unsteady {word}"), &image);
            assert_eq!(found, failed(&[&what, instead]));
            let what = format!("{rom} is not answered");
            let found = model.complaint(bits, &format!("silent {word}"), &image);
            assert_eq!(found, failed(&[&what, instead]));
        }
    }
}

/// "OUT is written as the other commands write": whole, and never over another file unless that is forced.
#[test]
fn files() {
    let mut model = Model::new("files");
    let [first, second] = [6, 7].map(|seed| image(&mut Random::new(seed), 6));
    let run = |image: &[u8], options| complaint(&model.run(6, "none 0", image, options));
    assert_eq!(run(&first, &[]), (String::new(), Some(0)));
    assert_eq!(fs::read(&model.out).unwrap(), first);
    let mode = fs::metadata(&model.out).unwrap().permissions().mode();
    assert_eq!(mode & 0o777, 0o644);

    let exists = format!("{}: File exists", model.out.display());
    assert_eq!(run(&second, &[]), failed(&[&exists]));
    assert_eq!(fs::read(&model.out).unwrap(), first);
    assert_eq!(run(&second, &["--force"]), (String::new(), Some(0)));
    assert_eq!(fs::read(&model.out).unwrap(), second);
    assert_eq!(model.folder.names(), ["image", "out", "part"]);

    model.out = model.folder.join("nowhere/out");
    let missing = format!("{}: No such file or directory", model.out.display());
    assert_eq!(model.complaint(6, "none 0", &first), failed(&[&missing]));
}
