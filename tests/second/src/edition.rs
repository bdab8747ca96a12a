//! The versions that are read, and the two editions of the first (document 02, request 12; the
//! modification history of 000): which chips, connection codes and blocks an image may have, and what
//! a walk takes a code as.

use crate::reader::{Arguments, COMPACT, VERSION_OFFSET, connections, permitted_kinds};

/// The version byte of the first-edition cards.
pub const FIRST_VERSION: u8 = 1;

/// "Refusal 2 now passes 1 as well."
pub const VERSIONS: [u8; 3] = [FIRST_VERSION, 3, 4];

/// The chips of version 1.
pub const FIRST_CHIPS: [u16; 2] = [21041, 21140];

/// The editions, as callers name them: whether it is 1.00, and not 1.01.
pub const EDITIONS: [bool; 2] = [false, true];

/// "1.00 had 0x0200 and 0x0203 where 1.01 has 0x0204 and 0x0205."
pub const CORRECTED: [(u16, u16); 2] = [(0x0200, 0x0204), (0x0203, 0x0205)];

/// The codes of both editions.
pub const CODES: [u16; 4] = [0x0200, 0x0203, 0x0204, 0x0205];

pub fn is_version(image: &[u8]) -> bool {
    VERSIONS.contains(&image[VERSION_OFFSET])
}

/// "a walk takes 0x0200 as 0x0204 and 0x0203 as 0x0205"; every other code stands for itself.
pub fn taken_as(code: u16) -> u16 {
    let corrected = CORRECTED.iter().find(|(first, _)| *first == code);
    corrected.map_or(code, |&(_, later)| later)
}

/// The code that 1.00 had where 1.01 has this one.
fn in_first(code: u16) -> u16 {
    let corrected = CORRECTED.iter().find(|(_, later)| *later == code);
    corrected.map_or(code, |&(first, _)| first)
}

/// What decides which chip, connection types and blocks an image may have. Versions but the first
/// ignore the edition.
#[derive(Debug, Clone, Copy, PartialEq, Eq)]
pub struct Rules {
    pub chip: u16,
    pub version: u8,
    pub first_edition: bool,
}

impl Rules {
    /// Those by which an image is read that is long enough to have a version.
    pub fn of(image: &[u8], arguments: Arguments) -> Self {
        Self {
            chip: arguments.chip,
            version: image[VERSION_OFFSET],
            first_edition: arguments.first_edition,
        }
    }

    /// Cause 38: "version 1 with a chip other than 21041 or 21140".
    pub fn lack_chip(self) -> bool {
        self.version == FIRST_VERSION && !FIRST_CHIPS.contains(&self.chip)
    }

    /// The chip's row, in which edition 1.00 has its own codes.
    pub fn connections(self) -> impl Iterator<Item = u16> {
        let is_first = self.version == FIRST_VERSION && self.first_edition;
        connections(self.chip).map(move |code| if is_first { in_first(code) } else { code })
    }

    pub fn permit(self, connection: u16) -> bool {
        self.connections().any(|permitted| permitted == connection)
    }

    /// "Version 1 has 21041 and compact blocks only."
    pub fn have_extended_blocks(self) -> bool {
        self.version != FIRST_VERSION
    }

    /// The kinds of block that a leaf may hold, beside types that nobody knows yet.
    pub fn kinds(self) -> Vec<u16> {
        let is_permitted = |&kind: &u16| kind >= COMPACT || self.have_extended_blocks();
        let kinds = permitted_kinds(self.chip).iter().copied();
        kinds.filter(is_permitted).collect()
    }
}

#[cfg(test)]
mod tests;
