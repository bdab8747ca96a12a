//! The CRCs of an image, bit by bit (document 01, "SROM CRC" and "ID CRC"; document 02, request 1,
//! for the Magic Packet block's, and request 6, for the ROM's size).

pub mod fast;

use crate::layout::{Layout, is_of_size, magic_block, magic_block_mut};
use crate::magic::CRC_OFFSET;

/// Where the ID CRC is stored: the low byte of word 8.
pub const ID_CRC_OFFSET: usize = 16;

/// The high byte of word 8, the last byte that the ID CRC covers.
pub const ID_LAST_OFFSET: usize = 17;

/// How many words the ID CRC covers, from the image's first, and then the high byte of the next.
const ID_WORDS: usize = 8;

/// How many words the Magic Packet block's CRC covers, from the block's first, and then the high byte
/// of the next.
const MAGIC_WORDS: usize = 15;

/// Refusal 1: the image has not the stated size, or that is no ROM's.
pub const WRONG_IMAGE_LENGTH: u8 = 1;

const POLYNOMIAL_32: u32 = 0x04C1_1DB7;
const POLYNOMIAL_8: u8 = 0x07;

/// What a CRC call answers: number 0 with the CRC, or the refusal's number with value 0. The
/// library's C interface has the same layout.
#[repr(C)]
#[derive(Debug, Clone, Copy, PartialEq, Eq)]
pub struct Checksum {
    pub number: u8,
    pub value: u16,
}

impl Checksum {
    const REFUSED: Self = Self {
        number: WRONG_IMAGE_LENGTH,
        value: 0,
    };

    fn accepted(value: u16) -> Self {
        Self { number: 0, value }
    }
}

/// The SROM CRC: the low 16 bits of the CRC-32 of the bytes before its place.
pub fn srom_crc(image: &[u8], layout: Layout) -> Checksum {
    if !is_of_size(image, layout.size) {
        return Checksum::REFUSED;
    }
    Checksum::accepted(crc32(&image[..layout.srom_crc_offset()]) as u16)
}

/// The ID CRC of an image that should have so many bytes: words 0 to 7 and then byte 17.
pub fn id_crc(image: &[u8], size: u16) -> Checksum {
    if !is_of_size(image, size) {
        return Checksum::REFUSED;
    }
    Checksum::accepted(crc8(image, ID_WORDS))
}

/// The Magic Packet block's CRC: all its words but the last, and then its last byte.
pub fn magic_crc(image: &[u8], size: u16) -> Checksum {
    if !is_of_size(image, size) {
        return Checksum::REFUSED;
    }
    Checksum::accepted(crc8(magic_block(image), MAGIC_WORDS))
}

/// The CRC-8 of so many words, and then of the high byte of the next.
fn crc8(bytes: &[u8], words: usize) -> u16 {
    let register = (0..words).fold(u8::MAX, |register, number| {
        feed_bits(register, word(bytes, number), 16)
    });
    feed_bits(register, word(bytes, words) >> 8, 8).into()
}

/// All 32 bits of the CRC whose low half is the SROM CRC. Each byte enters from its lowest bit.
pub fn crc32(bytes: &[u8]) -> u32 {
    let mut register = u32::MAX;
    for byte in bytes {
        for place in 0..8 {
            let data = u32::from(byte >> place & 1);
            let taken = register >> 31 ^ data;
            register <<= 1;
            if taken == 1 {
                register ^= POLYNOMIAL_32;
            }
        }
    }
    !register.reverse_bits()
}

/// Lays all CRCs of the layout into an image of its size.
pub fn lay_crcs(image: &mut [u8], layout: Layout) {
    lay_board_crcs(image, layout);
    if layout.magic {
        lay_magic_crc(image);
    }
}

/// Lays the ID CRC and then the SROM CRC, which covers it, into an image.
pub fn lay_board_crcs(image: &mut [u8], layout: Layout) {
    image[ID_CRC_OFFSET] = id_crc(image, layout.size).value as u8;
    lay_srom_crc(image, layout);
}

/// Lays the SROM CRC into an image.
pub fn lay_srom_crc(image: &mut [u8], layout: Layout) {
    let stored = srom_crc(image, layout).value.to_le_bytes();
    image[layout.srom_crc_offset()..layout.board_end()].copy_from_slice(&stored);
}

/// Lays the Magic Packet block's CRC into an image that ends with one.
pub fn lay_magic_crc(image: &mut [u8]) {
    let block = magic_block_mut(image);
    block[CRC_OFFSET] = crc8(block, MAGIC_WORDS) as u8;
}

/// The word of that number: the byte at twice the number is its low half.
fn word(bytes: &[u8], number: usize) -> u16 {
    u16::from_le_bytes([bytes[2 * number], bytes[2 * number + 1]])
}

/// The CRC-8 register after the low `width` bits of `data`, the top one first.
fn feed_bits(mut register: u8, data: u16, width: u32) -> u8 {
    for place in (0..width).rev() {
        let taken = register >> 7 ^ (data >> place & 1) as u8;
        register <<= 1;
        if taken == 1 {
            register ^= POLYNOMIAL_8;
        }
    }
    register
}

#[cfg(test)]
mod tests {
    use super::*;
    use crate::layout::{LAYOUTS, SIZES};
    use crate::random::Random;

    /// "32-bit register, all ones at first ... reversed and complemented": the check value that is
    /// published for this CRC-32.
    #[test]
    fn crc32_check_value() {
        assert_eq!(crc32(b"123456789"), 0xCBF4_3926);
    }

    /// "polynomial 0x07 ... from its top bit": the check value that is published for the CRC-8 of
    /// this polynomial and bit order, whose register starts at 0.
    #[test]
    fn crc8_check_value() {
        let register = b"123456789"
            .iter()
            .fold(0, |register, &byte| feed_bits(register, byte.into(), 8));
        assert_eq!(register, 0xF4);
    }

    /// The CRC-8 of the bytes at these offsets, in this order.
    fn fed(image: &[u8], offsets: impl IntoIterator<Item = usize>) -> Checksum {
        let register = offsets.into_iter().fold(u8::MAX, |register, offset| {
            feed_bits(register, image[offset].into(), 8)
        });
        Checksum::accepted(register.into())
    }

    /// "So byte 1 comes before byte 0": a word is fed as its high byte and then its low byte.
    #[test]
    fn high_byte_first() {
        for size in SIZES {
            let image = Random::new(1).row(size.into());
            let order = [1, 0, 3, 2, 5, 4, 7, 6, 9, 8, 11, 10, 13, 12, 15, 14, 17];
            assert_eq!(id_crc(&image, size), fed(&image, order));
        }
    }

    /// "over words 48 to 62 and byte 127": byte 97 comes before byte 96, and byte 127 last; at 512
    /// bytes the "inner offsets all move by 384".
    #[test]
    fn magic_words() {
        for (size, moved) in SIZES.into_iter().zip([0, 384]) {
            let image = Random::new(6).row(size.into());
            let order = (48..=62).flat_map(|number| [2 * number + 1, 2 * number]);
            let order = order.chain([127]).map(|offset| offset + moved);
            assert_eq!(magic_crc(&image, size), fed(&image, order));
        }
    }

    /// The bytes that a CRC covers: one changed bit of any of them changes it, and no other does.
    #[test]
    fn covered_bytes() {
        type Rule = fn(&[u8], u16) -> Checksum;
        let plain: Rule = |image, size| srom_crc(image, Layout::new(size, false));
        let before_block: Rule = |image, size| srom_crc(image, Layout::new(size, true));
        for (size, moved) in SIZES.into_iter().zip([0, 384]) {
            let rules: [(Rule, Vec<usize>); 4] = [
                (plain, (0..126 + moved).collect()),
                (before_block, (0..94 + moved).collect()),
                (id_crc, (0..16).chain([17]).collect()),
                (
                    magic_crc,
                    (96 + moved..126 + moved).chain([127 + moved]).collect(),
                ),
            ];
            let image = Random::new(7).row(size.into());
            for (number, (crc, covered)) in rules.into_iter().enumerate() {
                for bit in 0..8 * image.len() {
                    let mut changed = image.clone();
                    changed[bit / 8] ^= 1 << (bit % 8);
                    let differs = crc(&changed, size) != crc(&image, size);
                    let is_covered = covered.contains(&(bit / 8));
                    assert_eq!(differs, is_covered, "{size}: rule {number}, bit {bit}");
                }
            }
        }
    }

    /// "The register is byte 16, uncomplemented": words 0 to 8 then leave the register at 0, and so
    /// do words 48 to 63, of which byte 126 is the low byte of the last ("If the CRC result of these
    /// 16 words is equal zero ... the data has been read correctly").
    #[test]
    fn register_ends_at_zero() {
        let mut random = Random::new(2);
        for (size, moved) in SIZES.into_iter().zip([0, 384 / 2]) {
            for _ in 0..1_000 {
                let mut image = random.row(size.into());
                lay_crcs(&mut image, Layout::new(size, true));
                for words in [0..9, 48 + moved..64 + moved] {
                    let register = words.fold(u8::MAX, |register, number| {
                        feed_bits(register, word(&image, number), 16)
                    });
                    assert_eq!(register, 0, "{image:02x?}");
                }
            }
        }
    }

    /// "126 and 127 are the SROM CRC", of which "the low 16 are stored", or "the SROM CRC at 94", and
    /// at 512 bytes 384 later: the low byte comes first, and laying the CRCs changes no byte but
    /// theirs.
    #[test]
    fn laid_crcs() {
        let mut random = Random::new(3);
        let places: [&[usize]; 4] = [
            &[16, 126, 127],
            &[16, 94, 95, 126],
            &[16, 510, 511],
            &[16, 478, 479, 510],
        ];
        for (layout, places) in LAYOUTS.into_iter().zip(places) {
            let length = usize::from(layout.size);
            let mut changed = vec![false; length];
            for _ in 0..1_000 {
                let before = random.row(length);
                let mut image = before.clone();
                lay_crcs(&mut image, layout);
                (0..length).for_each(|offset| changed[offset] |= image[offset] != before[offset]);
                let [low, high] = [image[places[1]], image[places[2]]].map(u16::from);
                let stored = Checksum::accepted(low + 256 * high);
                assert_eq!(srom_crc(&image, layout), stored, "{image:02x?}");
            }
            let changed = (0..length).filter(|&offset| changed[offset]);
            assert!(changed.eq(places.iter().copied()), "{layout:?}");
        }
    }

    /// "SROM CRC", "ID CRC" and Appendix B's rule: the tables compute the same.
    #[test]
    fn fast_equals_bitwise() {
        let mut random = Random::new(4);
        for round in 0..10_000 {
            let size = SIZES[round % 2];
            let image = random.row(size.into());
            for layout in LAYOUTS {
                let srom_crc = srom_crc(&image, layout);
                assert_eq!(fast::srom_crc(&image, layout), srom_crc, "{image:02x?}");
            }
            for stated in SIZES {
                let crcs = (id_crc(&image, stated), magic_crc(&image, stated));
                let fast_crcs = (
                    fast::id_crc(&image, stated),
                    fast::magic_crc(&image, stated),
                );
                assert_eq!(fast_crcs, crcs, "{image:02x?}");
                assert_eq!(crcs.0.number == 0, stated == size);
            }
        }
    }

    /// "Refusal 1 means a length other than the stated size, or a stated size other than those two";
    /// "a refusal's other answer fields are 0".
    #[test]
    fn other_lengths_are_refused() {
        let refused = Checksum {
            number: 1,
            value: 0,
        };
        let bytes = Random::new(5).row(600);
        for length in 0..=bytes.len() {
            let image = &bytes[..length];
            for stated in [length as u16, 0, 127, 128, 256, 511, 512, 513, 65_535] {
                if length == usize::from(stated) && (length == 128 || length == 512) {
                    continue;
                }
                for call in [id_crc, magic_crc, fast::id_crc, fast::magic_crc] {
                    assert_eq!(call(image, stated), refused, "{length} as {stated}");
                }
                for magic in [false, true] {
                    for call in [srom_crc, fast::srom_crc] {
                        let answered = call(image, Layout::new(stated, magic));
                        assert_eq!(answered, refused, "{length} as {stated}");
                    }
                }
            }
        }
    }
}
