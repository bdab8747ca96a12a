//! The Magic Packet block of the library against the second implementation, and both returns.

use library::compare::{self, agreed};
use library::families::{Family, Numbers, numbers_table, show, tallies, total_row};
use library::lent::hex;
use library::{Magic, MagicAnswer};
use second::crc::lay_magic_crc;
use second::images::{MAGIC_DAMAGES, MagicBlock, WRONG_SIZES};
use second::layout::{SIZES, magic_offset};
use second::random::Random;

/// The numbers that the block's reader can answer, and its writer.
const READ_NUMBERS: [usize; 4] = [0, 1, 29, 30];
const WRITE_NUMBERS: [usize; 2] = [0, 1];

/// How often the reader and the writer answered each number.
#[derive(Default)]
struct Tally {
    reads: Numbers,
    writes: Numbers,
}

impl Tally {
    /// Compares a reading. What is accepted, written to another image with the same bytes before the
    /// block, gives the image.
    fn compare_read(&mut self, random: &mut Random, image: &[u8], size: u16) {
        let MagicAnswer { number, magic } = agreed(compare::read_magic(image, size));
        self.reads.count(image, size, number);
        if number == 0 {
            let (mut again, board) = (random.row(image.len()), magic_offset(size));
            again[..board].copy_from_slice(&image[..board]);
            assert_eq!(library::write_magic(magic, &mut again, size), 0);
            assert_eq!(again, image, "{}", hex(image));
        } else {
            assert_eq!(magic, Magic::default(), "{}", hex(image));
        }
    }

    /// Compares a writing. What is accepted is read back, and the bytes before the block stay; a
    /// refusal leaves all of them.
    fn compare_write(&mut self, magic: Magic, before: &[u8], size: u16) {
        let (number, image) = agreed(compare::write_magic(magic, before, size));
        self.writes.count(before, size, number);
        if number == 0 {
            let board = magic_offset(size);
            assert_eq!(image[..board], before[..board], "{}", hex(before));
            let read = library::read_magic(&image, size);
            assert_eq!(read, MagicAnswer { number, magic }, "{}", hex(before));
        } else {
            assert_eq!(image, before);
        }
    }
}

/// Right blocks and damaged ones, behind any bytes.
fn blocks() -> Tally {
    let (mut tally, mut random) = (Tally::default(), Random::new(1));
    for round in 0..40_000 {
        let block = match round % 4 {
            0 | 1 => MagicBlock::valid(&mut random),
            other => MagicBlock::damaged(&mut random, MAGIC_DAMAGES[other - 2]),
        };
        let size = random.pick(&SIZES);
        let mut image = random.row(size.into());
        tally.compare_write(block.magic, &image, size);
        block.lay(&mut image);
        tally.compare_read(&mut random, &image, size);
    }
    tally
}

/// "29 Magic CRC differs", "30 one of bytes 110 to 125, or 127, is not 0": each byte of an image with
/// a right block changed to every value, before and after the CRC is mended.
fn changed_bytes() -> Tally {
    let (mut tally, mut random) = (Tally::default(), Random::new(2));
    for size in SIZES {
        let mut image = random.row(size.into());
        MagicBlock::valid(&mut random).lay(&mut image);
        for offset in 0..image.len() {
            for value in 0..=255 {
                let mut changed = image.clone();
                changed[offset] = value;
                tally.compare_read(&mut random, &changed, size);
                lay_magic_crc(&mut changed);
                tally.compare_read(&mut random, &changed, size);
            }
        }
    }
    tally
}

/// "a length other than the stated size, or a stated size other than those two": every length up to
/// 600 and two that are a size in their low bits, of images whose block is right as far as it is one,
/// each stated as it is and as sizes that it has not.
fn lengths() -> Tally {
    let (mut tally, mut random) = (Tally::default(), Random::new(3));
    for size in SIZES {
        let mut image = random.row(usize::from(size) + (1 << 16));
        MagicBlock::valid(&mut random).lay(&mut image[..size.into()]);
        for length in (0..600).chain([image.len()]) {
            let stated = WRONG_SIZES.into_iter().chain(SIZES).chain([length as u16]);
            for stated in stated {
                tally.compare_read(&mut random, &image[..length], stated);
                let magic = MagicBlock::valid(&mut random).magic;
                tally.compare_write(magic, &image[..length], stated);
            }
        }
    }
    tally
}

/// "its reader (1, 29, 30 only) and its writer (1 only; it alters bytes 96 to 127 only)": each number
/// is met a thousand times at each size, and no other. The table of them is shown.
#[test]
fn library_reads_and_writes_as_second() {
    let families: [Family<Tally>; 3] = [
        ("blocks", blocks),
        ("bytes", changed_bytes),
        ("lengths", lengths),
    ];
    let tallies = tallies(families);
    let names = families.map(|(name, _)| name);
    let mut wrong = Vec::new();
    let reads = tallies.each_ref().map(|tally| &tally.reads);
    let writes = tallies.each_ref().map(|tally| &tally.writes);
    show(&numbers_table(
        "read",
        &names,
        reads,
        [&READ_NUMBERS, &READ_NUMBERS, &[1]],
        &mut wrong,
    ));
    show(&numbers_table(
        "write",
        &names,
        writes,
        [&WRITE_NUMBERS, &WRITE_NUMBERS, &[1]],
        &mut wrong,
    ));
    let calls = |tally: &Tally| tally.reads.calls() + tally.writes.calls();
    show(&total_row("calls", &tallies.each_ref().map(calls)));
    assert!(wrong.is_empty(), "{wrong:?}");
}

/// "By the field sizes, not the figure's offsets, the password is at 96, the address at 102, the
/// command at 108", or "a Magic block at 480, whose inner offsets all move by 384". The CRC was worked
/// out apart, by a polynomial division.
#[test]
fn worked_block() {
    let magic = Magic {
        password: [0x11, 0x12, 0x13, 0x14, 0x15, 0x16],
        address: [0x00, 0x00, 0xF8, 0x21, 0x22, 0x23],
        command: 0x0162,
    };
    let mut block = [0; 32];
    block[..6].copy_from_slice(&magic.password);
    block[6..12].copy_from_slice(&magic.address);
    block[12..14].copy_from_slice(&[0x62, 0x01]);
    block[30] = 0xF8;
    for (size, start) in [(128, 96), (512, 480)] {
        let before = vec![0xA5; size.into()];
        let mut image = before.clone();
        assert_eq!(library::write_magic(magic, &mut image, size), 0);
        assert_eq!(image[start..], block);
        assert_eq!(image[..start], before[..start]);
    }
}
