//! The same reader and writer with the CRC by table.

use super::{Magic, MagicAnswer, read_by, write_by};
use crate::crc::fast::magic_crc;

/// [`super::read_magic`] by table.
pub fn read_magic(image: &[u8], size: u16) -> MagicAnswer {
    read_by(magic_crc, image, size)
}

/// [`super::write_magic`] by table.
pub fn write_magic(magic: Magic, image: &mut [u8], size: u16) -> u8 {
    write_by(magic_crc, magic, image, size)
}
