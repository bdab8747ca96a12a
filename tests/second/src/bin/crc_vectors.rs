//! Writes 420 records, each an image and the size that is stated of it, to one file, and to another
//! what each must give: `crc_vectors INPUT OUTPUT`. A line has the SROM CRC, the ID CRC, the SROM CRC
//! of the layout with a Magic Packet block, that block's CRC, and what the block says or why it is
//! refused.
//!
//! A record has the image's length and the stated size (words, low byte first), and the image.

use second::crc::{id_crc, lay_crcs, magic_crc, srom_crc};
use second::images::{Image, MAGIC_DAMAGES, MagicBlock, WRONG_SIZES};
use second::layout::{LAYOUTS, Layout, SIZES};
use second::magic::read_magic;
use second::random::Random;
use std::{env, fs, io, process};

const RECORD_COUNT: usize = 420;
const RANDOM_COUNT: usize = 80;

/// One bit is set in one byte of so many.
const BIT_STEP: usize = 5;

/// The longest image whose stated size is wrong.
const LONGEST: usize = 600;

/// An image and the size that is stated of it.
struct Record {
    image: Image,
    size: u16,
}

fn main() -> io::Result<()> {
    let arguments: Vec<_> = env::args_os().skip(1).collect();
    let [input, output] = arguments.as_slice() else {
        eprintln!("usage: crc_vectors INPUT OUTPUT");
        process::exit(2);
    };
    let records = records();
    let bytes: Vec<_> = records.iter().flat_map(Record::bytes).collect();
    let lines: String = records.iter().map(Record::line).collect();
    fs::write(input, bytes)?;
    fs::write(output, lines)
}

/// Of both sizes no bit, every bit, and one bit; images of another length than is stated, and of a
/// stated size that no ROM has; random images, random images with the CRCs of either layout laid in,
/// with a right Magic Packet block and with a damaged one.
fn records() -> Vec<Record> {
    let mut random = Random::new(1);
    let mut records = Vec::new();
    for size in SIZES {
        let length = usize::from(size);
        records.extend([0, 0xFF].map(|byte| Record::of(vec![byte; length])));
        for offset in (0..length).rev().step_by(BIT_STEP) {
            let mut image = vec![0; length];
            image[offset] = 1 << (offset % 8);
            records.push(Record::of(image));
        }
        let wrong = WRONG_SIZES.map(usize::from);
        for length in wrong.into_iter().filter(|&length| length <= LONGEST) {
            let image = random.row(length);
            records.push(Record::of(image.clone()));
            records.push(Record { image, size });
        }
        for stated in WRONG_SIZES
            .into_iter()
            .chain(SIZES)
            .filter(|&it| it != size)
        {
            let image = random.row(length);
            records.push(Record {
                image,
                size: stated,
            });
        }
    }
    for round in 0..RANDOM_COUNT {
        let layout = LAYOUTS[round % LAYOUTS.len()];
        let mut image = random.row(layout.size.into());
        if round % 8 < 4 {
            lay_crcs(&mut image, layout);
        }
        records.push(Record::of(image));
    }
    for round in records.len()..RECORD_COUNT {
        let block = match round % 3 {
            0 => MagicBlock::valid(&mut random),
            other => MagicBlock::damaged(&mut random, MAGIC_DAMAGES[other - 1]),
        };
        let mut image = random.row(SIZES[round % 2].into());
        block.lay(&mut image);
        records.push(Record::of(image));
    }
    records
}

impl Record {
    /// An image whose length is stated.
    fn of(image: Image) -> Self {
        let size = image.len() as u16;
        Self { image, size }
    }

    fn bytes(&self) -> Vec<u8> {
        let words = [self.image.len() as u16, self.size].map(u16::to_le_bytes);
        [&words.concat(), self.image.as_slice()].concat()
    }

    /// The CRCs and the block in hex, or the refusal's number in its place or in that of all.
    fn line(&self) -> String {
        let Self { ref image, size } = *self;
        let [srom, magic_srom] =
            [false, true].map(|magic| srom_crc(image, Layout::new(size, magic)));
        if srom.number != 0 {
            return format!("refused {}\n", srom.number);
        }
        let crcs = [
            srom,
            id_crc(image, size),
            magic_srom,
            magic_crc(image, size),
        ];
        let [srom, id, magic_srom, magic] = crcs.map(|crc| crc.value);
        let block = self.block();
        format!("{srom:04x} {id:02x} {magic_srom:04x} {magic:02x} {block}\n")
    }

    /// Password, address and command of the Magic Packet block, or why it is refused.
    fn block(&self) -> String {
        let answer = read_magic(&self.image, self.size);
        if answer.number != 0 {
            return format!("refused {}", answer.number);
        }
        let hex = |bytes: [u8; 6]| bytes.map(|byte| format!("{byte:02x}")).concat();
        let magic = answer.magic;
        let (password, address) = (hex(magic.password), hex(magic.address));
        format!("{password} {address} {:04x}", magic.command)
    }
}

#[cfg(test)]
mod tests {
    use super::*;
    use second::layout::magic_offset;

    /// The images of either size meet each refusal of the Magic Packet block, and blocks that are
    /// right; and 1 is met with a length that is not stated, and with a stated size that no ROM has.
    #[test]
    fn every_refusal() {
        let records = records();
        assert_eq!(records.len(), RECORD_COUNT);
        for size in SIZES {
            let of_size = records.iter().filter(|record| record.size == size);
            let lines: Vec<_> = of_size.map(Record::line).collect();
            for number in MAGIC_DAMAGES {
                let end = format!(" refused {number}\n");
                let met = lines.iter().filter(|line| line.ends_with(&end)).count();
                assert!(met >= 20, "{size}: {met} lines of {number}");
            }
            let right = lines.iter().filter(|line| !line.contains("refused"));
            assert!(right.count() >= 20, "{size}");
            let other_length = |line: &&String| line.starts_with("refused 1\n");
            assert!(lines.iter().filter(other_length).count() >= 6, "{size}");
        }
        let is_other = |record: &&Record| !SIZES.contains(&record.size);
        let others: Vec<_> = records.iter().filter(is_other).collect();
        assert!(others.iter().all(|record| record.line() == "refused 1\n"));
        let of_that_length = |record: &&&Record| record.image.len() == record.size.into();
        let often = others.iter().filter(of_that_length).count();
        assert!(often >= 6 && others.len() - often >= 6, "{often}");
    }

    /// The bytes of a block in the order in which they stand, its command as a number.
    #[test]
    fn line_of_a_block() {
        for size in SIZES {
            let mut image = vec![0; size.into()];
            image[magic_offset(size)..][..14]
                .copy_from_slice(&[1, 2, 3, 4, 5, 6, 7, 8, 9, 10, 11, 12, 0x34, 0x12]);
            lay_crcs(&mut image, Layout::new(size, true));
            let line = Record::of(image).line();
            assert!(
                line.ends_with(" 010203040506 0708090a0b0c 1234\n"),
                "{line}"
            );
        }
    }
}
