//! The Magic Packet block of an image, laid as it is told.

use crate::crc::lay_magic_crc;
use crate::layout::{Layout, magic_block_mut};
use crate::magic::{
    ADDRESS_OFFSET, COMMAND_OFFSET, CRC_OFFSET, LAST_RESERVED, Magic, PASSWORD_OFFSET, RESERVED,
};
use crate::random::Random;

/// The refusals that a damaged block can cause.
pub const MAGIC_DAMAGES: [u8; 2] = [29, 30];

/// All that the block holds.
#[derive(Debug, Clone, Copy, Default)]
pub struct MagicBlock {
    pub magic: Magic,
    /// The bytes between the command and the CRC, and the one behind the CRC.
    pub reserved: [u8; 17],
    /// The bits by which the stored CRC differs from the right one.
    pub crc_fault: u8,
}

impl MagicBlock {
    /// A right block that says anything.
    pub fn valid(random: &mut Random) -> Self {
        Self {
            magic: Magic {
                password: random.bytes(),
                address: random.bytes(),
                command: random.word(),
            },
            ..Self::default()
        }
    }

    /// A right block for the layout that has one.
    pub fn of_layout(random: &mut Random, layout: Layout) -> Option<Self> {
        layout.magic.then(|| Self::valid(random))
    }

    /// A block that is refused with this number, one of [`MAGIC_DAMAGES`].
    pub fn damaged(random: &mut Random, number: u8) -> Self {
        let mut block = Self::valid(random);
        block.damage(random, number);
        block
    }

    /// A right block or a damaged one.
    pub fn any(random: &mut Random) -> Self {
        if random.one_in(2) {
            return Self::valid(random);
        }
        let number = random.pick(&MAGIC_DAMAGES);
        Self::damaged(random, number)
    }

    /// Damages the block so that it is refused with this number, one of [`MAGIC_DAMAGES`].
    pub fn damage(&mut self, random: &mut Random, number: u8) {
        let flaw = 1 + random.below(0xFF) as u8;
        match number {
            29 => self.crc_fault = flaw,
            _ => self.reserved[random.below(self.reserved.len())] = flaw,
        }
    }

    /// Lays the block at the end of an image, with its CRC right but for the fault.
    pub fn lay(&self, image: &mut [u8]) {
        let [reserved @ .., last] = &self.reserved;
        let block = magic_block_mut(image);
        block[PASSWORD_OFFSET..][..6].copy_from_slice(&self.magic.password);
        block[ADDRESS_OFFSET..][..6].copy_from_slice(&self.magic.address);
        block[COMMAND_OFFSET..][..2].copy_from_slice(&self.magic.command.to_le_bytes());
        block[RESERVED].copy_from_slice(reserved);
        block[LAST_RESERVED] = *last;
        lay_magic_crc(block);
        block[CRC_OFFSET] ^= self.crc_fault;
    }
}
