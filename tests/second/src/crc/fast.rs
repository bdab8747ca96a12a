//! The same CRCs a byte at a time, each by a table of 256 entries.

use super::{Checksum, ID_WORDS, MAGIC_WORDS, POLYNOMIAL_8, POLYNOMIAL_32};
use crate::layout::{Layout, is_of_size, magic_block};

/// The register, kept reversed so that it shifts right, after one byte from 0.
const TABLE_32: [u32; 256] = {
    let mut table = [0; 256];
    let mut byte = 0;
    while byte < 256 {
        table[byte] = after_byte_32(byte as u32);
        byte += 1;
    }
    table
};

/// The register of the CRC-8 after one byte from 0.
const TABLE_8: [u8; 256] = {
    let mut table = [0; 256];
    let mut byte = 0;
    while byte < 256 {
        table[byte] = after_byte_8(byte as u8);
        byte += 1;
    }
    table
};

/// [`super::srom_crc`] by table.
pub fn srom_crc(image: &[u8], layout: Layout) -> Checksum {
    if !is_of_size(image, layout.size) {
        return Checksum::REFUSED;
    }
    let mut register = u32::MAX;
    for byte in &image[..layout.srom_crc_offset()] {
        register = register >> 8 ^ TABLE_32[usize::from(register as u8 ^ byte)];
    }
    Checksum::accepted(!register as u16)
}

/// [`super::id_crc`] by table.
pub fn id_crc(image: &[u8], size: u16) -> Checksum {
    if !is_of_size(image, size) {
        return Checksum::REFUSED;
    }
    Checksum::accepted(crc8::<ID_WORDS>(image))
}

/// [`super::magic_crc`] by table.
pub fn magic_crc(image: &[u8], size: u16) -> Checksum {
    if !is_of_size(image, size) {
        return Checksum::REFUSED;
    }
    Checksum::accepted(crc8::<MAGIC_WORDS>(magic_block(image)))
}

/// [`super::crc8`] by table, for a number of words that is known beforehand.
#[inline]
fn crc8<const WORDS: usize>(bytes: &[u8]) -> u16 {
    let bytes = &bytes[..2 * WORDS + 2];
    let mut register = u8::MAX;
    for number in 0..WORDS {
        register = feed_byte(register, bytes[2 * number + 1]);
        register = feed_byte(register, bytes[2 * number]);
    }
    feed_byte(register, bytes[2 * WORDS + 1]).into()
}

fn feed_byte(register: u8, byte: u8) -> u8 {
    TABLE_8[usize::from(register ^ byte)]
}

const fn after_byte_32(mut register: u32) -> u32 {
    let mut place = 0;
    while place < 8 {
        let taken = register & 1;
        register >>= 1;
        if taken == 1 {
            register ^= POLYNOMIAL_32.reverse_bits();
        }
        place += 1;
    }
    register
}

const fn after_byte_8(mut register: u8) -> u8 {
    let mut place = 0;
    while place < 8 {
        let taken = register >> 7;
        register <<= 1;
        if taken == 1 {
            register ^= POLYNOMIAL_8;
        }
        place += 1;
    }
    register
}
