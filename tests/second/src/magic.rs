//! The Magic Packet block, its reader and its writer (document 000, section 4; document 02, request
//! 1, which has its fields by their sizes and not by the figure's offsets, and request 6, for the
//! ROM's size). Offsets are the block's own.

pub mod fast;

use crate::crc::{self, Checksum};
use crate::layout::{is_of_size, magic_block, magic_block_mut};
use crate::reader::{Refusal, field, refuse_if, word};
use std::ops::Range;

/// The places of the block's fields. Between the command and the CRC, and behind the CRC, stand
/// reserved bytes.
pub const PASSWORD_OFFSET: usize = 0;
pub const ADDRESS_OFFSET: usize = 6;
pub const COMMAND_OFFSET: usize = 12;
pub const RESERVED: Range<usize> = 14..CRC_OFFSET;
pub const CRC_OFFSET: usize = 30;
pub const LAST_RESERVED: usize = 31;

/// What the block says. The library's C interface has the same layout.
#[repr(C)]
#[derive(Debug, Clone, Copy, Default, PartialEq, Eq)]
pub struct Magic {
    pub password: [u8; 6],
    pub address: [u8; 6],
    pub command: u16,
}

/// What reading the block answers: number 0 with what it says, or the refusal's number with zeros.
/// The library's C interface has the same layout.
#[repr(C)]
#[derive(Debug, Clone, Copy, Default, PartialEq, Eq)]
pub struct MagicAnswer {
    pub number: u8,
    pub magic: Magic,
}

/// Reads the block of an image that should have so many bytes, whatever else the image holds.
pub fn read_magic(image: &[u8], size: u16) -> MagicAnswer {
    read_by(crc::magic_crc, image, size)
}

/// Writes the block of an image that should have so many bytes, and answers the number; the bytes
/// before it stay, and all of them where it is refused.
pub fn write_magic(magic: Magic, image: &mut [u8], size: u16) -> u8 {
    write_by(crc::magic_crc, magic, image, size)
}

/// Causes 29 and 30 of an image whose block should hold this CRC.
pub(crate) fn judge(image: &[u8], crc: Checksum) -> Result<(), Refusal> {
    let block = magic_block(image);
    refuse_if(crc.value != block[CRC_OFFSET].into(), Refusal::MagicCrc)?;
    let mut reserved = block[RESERVED].iter().chain([&block[LAST_RESERVED]]);
    refuse_if(reserved.any(|&byte| byte != 0), Refusal::MagicReserved)
}

fn read_by(crc: impl Fn(&[u8], u16) -> Checksum, image: &[u8], size: u16) -> MagicAnswer {
    let magic = try_read(crc, image, size);
    MagicAnswer {
        number: Refusal::number(&magic),
        magic: magic.unwrap_or_default(),
    }
}

fn try_read(
    crc: impl Fn(&[u8], u16) -> Checksum,
    image: &[u8],
    size: u16,
) -> Result<Magic, Refusal> {
    refuse_if(!is_of_size(image, size), Refusal::ImageLength)?;
    judge(image, crc(image, size))?;
    let block = magic_block(image);
    Ok(Magic {
        password: field(block, PASSWORD_OFFSET),
        address: field(block, ADDRESS_OFFSET),
        command: word(block, COMMAND_OFFSET),
    })
}

fn write_by(crc: impl Fn(&[u8], u16) -> Checksum, magic: Magic, image: &mut [u8], size: u16) -> u8 {
    if !is_of_size(image, size) {
        return Refusal::ImageLength as u8;
    }
    let block = magic_block_mut(image);
    block[PASSWORD_OFFSET..ADDRESS_OFFSET].copy_from_slice(&magic.password);
    block[ADDRESS_OFFSET..COMMAND_OFFSET].copy_from_slice(&magic.address);
    block[COMMAND_OFFSET..RESERVED.start].copy_from_slice(&magic.command.to_le_bytes());
    block[RESERVED].fill(0);
    block[LAST_RESERVED] = 0;
    let crc = crc(image, size).value as u8;
    magic_block_mut(image)[CRC_OFFSET] = crc;
    0
}

#[cfg(test)]
mod tests {
    use super::*;
    use crate::images::MagicBlock;
    use crate::layout::{LARGE, SIZES, SMALL};
    use crate::random::Random;

    /// Each size, and where the block starts in it.
    const BLOCKS: [(u16, usize); 2] = [(SMALL, 96), (LARGE, 480)];

    fn pattern(size: u16) -> Vec<u8> {
        vec![0xA5; size.into()]
    }

    fn refused(number: u8) -> MagicAnswer {
        MagicAnswer {
            number,
            ..MagicAnswer::default()
        }
    }

    /// "By the field sizes, not the figure's offsets, the password is at 96, the address at 102, the
    /// command at 108", and the last byte of each before the next field; at 512 bytes "a Magic block
    /// at 480, whose inner offsets all move by 384"; "Words are 16 bits, low byte first". The CRC was
    /// worked out apart, by a polynomial division.
    #[test]
    fn worked_block() {
        let magic = Magic {
            password: [0x11, 0x12, 0x13, 0x14, 0x15, 0x16],
            address: [0x00, 0x00, 0xF8, 0x21, 0x22, 0x23],
            command: 0x0162,
        };
        #[rustfmt::skip]
        let block = [
            0x11, 0x12, 0x13, 0x14, 0x15, 0x16,
            0x00, 0x00, 0xF8, 0x21, 0x22, 0x23,
            0x62, 0x01,
            0, 0, 0, 0, 0, 0, 0, 0, 0, 0, 0, 0, 0, 0, 0, 0,
            0xF8, 0,
        ];
        for (size, start) in BLOCKS {
            let mut image = pattern(size);
            assert_eq!(write_magic(magic, &mut image, size), 0);
            assert_eq!(image[start..], block);
            assert_eq!(image[..start], pattern(size)[..start]);
            assert_eq!(read_magic(&image, size), MagicAnswer { number: 0, magic });
            assert_eq!(image[start + 102 - 96..][..6], magic.address);
            assert_eq!(image[start + 108 - 96..][..2], [0x62, 0x01]);
        }
    }

    /// "a length other than the stated size, or a stated size other than those two", for both; the
    /// writer's image is then unchanged.
    #[test]
    fn image_lengths() {
        for length in 0..600 {
            let before = vec![0xA5; length];
            for stated in [length as u16, 0, 127, 128, 256, 511, 512, 513, 65_535] {
                if length == usize::from(stated) && (length == 128 || length == 512) {
                    continue;
                }
                let mut image = before.clone();
                let context = format!("{length} as {stated}");
                assert_eq!(read_magic(&image, stated), refused(1), "{context}");
                let number = write_magic(Magic::default(), &mut image, stated);
                assert_eq!((number, &image), (1, &before), "{context}");
            }
        }
    }

    /// "29 Magic CRC differs": every value of byte 126, or at 512 bytes 510, but one, also where a
    /// reserved byte is not 0, which that one leaves to 30.
    #[test]
    fn crcs() {
        for (size, start) in BLOCKS {
            for (reserved, otherwise) in [(0, 0), (1, 30)] {
                let mut image = pattern(size);
                write_magic(Magic::default(), &mut image, size);
                image[start + 110 - 96] = reserved;
                let right = crc::magic_crc(&image, size).value;
                for value in 0..=255 {
                    image[start + 126 - 96] = value;
                    let is_right = u16::from(value) == right;
                    let expected = if is_right { otherwise } else { 29 };
                    assert_eq!(read_magic(&image, size).number, expected, "{value:#x}");
                }
            }
        }
    }

    /// "30 one of bytes 110 to 125, or 127, is not 0", or at 512 bytes 384 later: each of them, to
    /// every value, with a right CRC; every other byte may hold anything.
    #[test]
    fn reserved_bytes() {
        let mut random = Random::new(1);
        for (size, moved) in SIZES.into_iter().zip([0, 384]) {
            let length = usize::from(size);
            for offset in (0..length).filter(|&offset| offset != 126 + moved) {
                for value in 0..=255 {
                    let mut image = random.row(length);
                    write_magic(Magic::default(), &mut image, size);
                    image[offset] = value;
                    image[126 + moved] = crc::magic_crc(&image, size).value as u8;
                    let is_reserved = (110 + moved..=125 + moved).contains(&offset);
                    let is_reserved = is_reserved || offset == 127 + moved;
                    let expected = if is_reserved && value > 0 { 30 } else { 0 };
                    let number = read_magic(&image, size).number;
                    assert_eq!(number, expected, "{value} at {offset}");
                }
            }
        }
    }

    /// "a refusal's other answer fields are 0".
    #[test]
    fn refused_blocks() {
        let mut random = Random::new(2);
        for number in [29, 30] {
            for round in 0..2_000 {
                let size = SIZES[round % 2];
                let mut image = random.row(size.into());
                MagicBlock::damaged(&mut random, number).lay(&mut image);
                assert_eq!(read_magic(&image, size), refused(number), "{image:02x?}");
            }
        }
    }

    /// What is written is read back, and "it alters bytes 96 to 127 only", or the last 32 of 512; the
    /// block is the one that the builder of images lays.
    #[test]
    fn return_of_the_fields() {
        let mut random = Random::new(3);
        for round in 0..10_000 {
            let (size, start) = BLOCKS[round % 2];
            let block = MagicBlock::valid(&mut random);
            let before = random.row(size.into());
            let (mut image, mut laid) = (before.clone(), before.clone());
            assert_eq!(write_magic(block.magic, &mut image, size), 0);
            block.lay(&mut laid);
            assert_eq!(image, laid);
            assert_eq!(image[..start], before[..start]);
            let MagicAnswer { number, magic } = read_magic(&image, size);
            assert_eq!((number, magic), (0, block.magic));
        }
    }

    /// What is read of an image, written to any image with the same bytes before the block, gives that
    /// image.
    #[test]
    fn return_of_the_block() {
        let mut random = Random::new(4);
        for round in 0..10_000 {
            let (size, start) = BLOCKS[round % 2];
            let mut image = random.row(size.into());
            MagicBlock::valid(&mut random).lay(&mut image);
            let answer = read_magic(&image, size);
            assert_eq!(answer.number, 0);
            let mut other = random.row(size.into());
            other[..start].copy_from_slice(&image[..start]);
            assert_eq!(write_magic(answer.magic, &mut other, size), 0);
            assert_eq!(other, image);
        }
    }

    /// The form with a table reads and writes alike.
    #[test]
    fn fast_equals_plain() {
        let mut random = Random::new(5);
        for _ in 0..10_000 {
            let size = random.pick(&SIZES);
            let mut image = random.row(size.into());
            MagicBlock::any(&mut random).lay(&mut image);
            let length = random.pick(&[image.len(), image.len(), image.len() - 1, 0]);
            image.truncate(length);
            let stated = random.pick(&[size, size, size, SMALL, LARGE, length as u16]);
            let answer = read_magic(&image, stated);
            assert_eq!(fast::read_magic(&image, stated), answer, "{image:02x?}");
            let magic = MagicBlock::valid(&mut random).magic;
            let mut fast_image = image.clone();
            let number = write_magic(magic, &mut image, stated);
            assert_eq!(fast::write_magic(magic, &mut fast_image, stated), number);
            assert_eq!(fast_image, image);
        }
    }
}
