//! Where the parts of an image stand (document 01, "The image"; document 02, requests 1 and 6): all
//! of it follows from the ROM's size and from whether the caller says that there is a Magic Packet
//! block, which is then the last of the image. Nothing else names a number of these.

use crate::reader::{HIGHEST_COUNT, first_leaf};
use crate::sheet::TIDY_LEAF;

/// The sizes that a ROM can have, in bytes: 1K bits and 4K bits.
pub const SMALL: u16 = 128;
pub const LARGE: u16 = 512;
pub const SIZES: [u16; 2] = [SMALL, LARGE];

/// The bytes of a Magic Packet block.
pub const MAGIC_LENGTH: usize = 32;

/// Each size, without a Magic Packet block and with one.
pub const LAYOUTS: [Layout; 4] = [
    Layout::PLAIN,
    Layout::MAGIC,
    Layout::LARGE_PLAIN,
    Layout::LARGE_MAGIC,
];

/// The size that is stated of an image, and whether it has a Magic Packet block. The library's C
/// interface has the same layout.
#[repr(C)]
#[derive(Debug, Clone, Copy, PartialEq, Eq)]
pub struct Layout {
    pub size: u16,
    pub magic: bool,
}

impl Layout {
    pub const PLAIN: Self = Self::new(SMALL, false);
    pub const MAGIC: Self = Self::new(SMALL, true);
    pub const LARGE_PLAIN: Self = Self::new(LARGE, false);
    pub const LARGE_MAGIC: Self = Self::new(LARGE, true);

    pub const fn new(size: u16, magic: bool) -> Self {
        Self { size, magic }
    }

    /// Its place among [`LAYOUTS`]; none for a size that no ROM has.
    pub fn index(self) -> Option<usize> {
        LAYOUTS.iter().position(|&layout| layout == self)
    }

    /// Where the board's part ends.
    pub const fn board_end(self) -> usize {
        if self.magic {
            magic_offset(self.size)
        } else {
            self.size as usize
        }
    }

    /// Where the SROM CRC is stored, low byte first: the board's last word. It covers the bytes
    /// before.
    pub const fn srom_crc_offset(self) -> usize {
        self.board_end() - 2
    }

    /// Leaves end before the maker's bytes, which start here.
    pub const fn leaf_limit(self) -> usize {
        self.board_end() - 4
    }

    /// The most controllers that a count can name.
    pub const fn most_controllers(self) -> usize {
        match self {
            Self::MAGIC => 20,
            _ => 32,
        }
    }

    /// The most blocks that an accepted leaf can hold: one byte each, from the first place of the
    /// 21041's to the last, and no more than a count can name.
    pub const fn most_blocks(self) -> usize {
        let places = self.leaf_limit() - TIDY_LEAF - 3;
        if places < HIGHEST_COUNT {
            places
        } else {
            HIGHEST_COUNT
        }
    }

    /// The most controllers beside which a leaf's header of so many bytes has a place.
    pub const fn most_beside(self, header: usize) -> usize {
        let beside = (self.leaf_limit() - header - first_leaf(0)) / 3;
        if beside < self.most_controllers() {
            beside
        } else {
            self.most_controllers()
        }
    }
}

/// "Refusal 1 means a length other than the stated size, or a stated size other than those two":
/// whether neither is so.
pub fn is_of_size(image: &[u8], size: u16) -> bool {
    SIZES.contains(&size) && image.len() == usize::from(size)
}

/// Where the Magic Packet block of a ROM of some size starts.
pub const fn magic_offset(size: u16) -> usize {
    size as usize - MAGIC_LENGTH
}

/// The Magic Packet block of an image.
pub fn magic_block(image: &[u8]) -> &[u8] {
    &image[image.len() - MAGIC_LENGTH..]
}

/// The same to be written to.
pub fn magic_block_mut(image: &mut [u8]) -> &mut [u8] {
    let start = image.len() - MAGIC_LENGTH;
    &mut image[start..]
}

#[cfg(test)]
mod tests {
    use super::*;
    use crate::reader::{CHIPS, header_size};

    /// "Bytes 124 and 125 belong to the maker, 126 and 127 are the SROM CRC"; with the block "the
    /// maker's bytes then stand at 92, the SROM CRC at 94"; at 512 bytes "the board part ends with
    /// its CRC ... in the last word, or in the last word before a Magic block at 480".
    #[test]
    fn places() {
        let places = LAYOUTS.map(|it| (it.leaf_limit(), it.srom_crc_offset(), it.board_end()));
        let small = [(124, 126, 128), (92, 94, 96)];
        assert_eq!(places[..2], small);
        assert_eq!(places[2..], [(508, 510, 512), (476, 478, 480)]);
        // "whose inner offsets all move by 384, as do the maker's bytes and the limits of leaves".
        let moved = small.map(|(limit, crc, end)| (limit + 384, crc + 384, end + 384));
        assert_eq!(places[2..], moved);
    }

    /// "leaves end before 92, ... so the controller count is at most 20": a leaf's header fits
    /// beside 20 controllers and no longer beside 21, for every chip. "At 512 the controller count
    /// is at most 32 in both layouts."
    #[test]
    fn most_controllers_leave_room() {
        let most = Layout::MAGIC.most_controllers();
        for chip in CHIPS {
            let fits = |controllers| first_leaf(controllers) + header_size(chip) <= 92;
            assert!(fits(most) && !fits(most + 1), "{chip}");
            let beside = LAYOUTS.map(|layout| layout.most_beside(header_size(chip)));
            assert_eq!(beside, [31, 20, 32, 32], "{chip}");
        }
        assert_eq!(LAYOUTS.map(Layout::most_controllers), [32, 20, 32, 32]);
    }

    /// "at most 91 blocks", and at 512 bytes "Blocks rise to 255".
    #[test]
    fn most_blocks() {
        assert_eq!(LAYOUTS.map(Layout::most_blocks), [91, 59, 255, 255]);
    }

    /// "a length other than the stated size, or a stated size other than those two".
    #[test]
    fn sizes() {
        let bytes = [0; 0x1_0000];
        for stated in 0..=u16::MAX {
            let is_served = stated == 128 || stated == 512;
            for length in [stated, 128, 512] {
                let image = &bytes[..length.into()];
                let expected = is_served && length == stated;
                assert_eq!(is_of_size(image, stated), expected, "{length} as {stated}");
            }
        }
        for size in [128, 512] {
            let lengths = (0..bytes.len()).filter(|&length| is_of_size(&bytes[..length], size));
            assert!(lengths.eq([usize::from(size)]));
        }
    }
}
