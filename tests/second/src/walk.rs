//! The autosense walk (document 01, "The walk"; document 02, request 4, for the empty connection
//! word, request 5, for fixed connections, request 6, for the rows' length, and request 12, for the
//! codes of the first edition), which keeps the table as a list of entries.

pub mod fast;

use crate::edition::taken_as;
use crate::reader::{Arguments, Block, Refusal, leaf, refuse_if};

/// The selected block, or the default, where there is none.
pub const NONE: u8 = 255;

/// The length of a walk's rows: a flag for each block that a leaf can hold, and one more.
pub const ROW_LENGTH: usize = 256;

/// The connection types that are autosensed. The last says that nothing was selected.
pub const AUTOSENSE: u16 = 0x0800;
pub const AUTOSENSE_NWAY: u16 = 0x0900;
pub const AUTOSENSE_ONCE: u16 = 0x8800;
pub const EMPTY_CONNECTION: u16 = 0xFFFF;

/// How a connection type lets a walk choose.
#[derive(Debug, Clone, Copy, PartialEq, Eq)]
pub enum Way {
    /// Autosensed at every look.
    EveryLook,
    /// Autosensed once: a settled walk stays on its block.
    Once,
    /// Set to one medium: every look selects the first block for it.
    Fixed,
}

impl Way {
    /// "Looks serve 0x0800, 0x8800 and 0x0900; every other type counts as fixed" (document 01), but
    /// for 0xFFFF: "Such a card walks as 0x8800 does" (document 02, request 4).
    pub const fn of(connection: u16) -> Self {
        match connection {
            AUTOSENSE | AUTOSENSE_NWAY => Self::EveryLook,
            AUTOSENSE_ONCE | EMPTY_CONNECTION => Self::Once,
            _ => Self::Fixed,
        }
    }
}

/// What a block has that a fixed connection type is set to.
#[derive(Debug, Clone, Copy, PartialEq, Eq)]
pub(crate) enum Medium {
    /// This media code.
    Code(u8),
    /// This bit of a PHY block's capabilities.
    Capability(u8),
}

impl Medium {
    /// "by the low byte's media code below 9, else a PHY block with the capability bit of the MII
    /// name" (document 02, request 5). None under a type that is not fixed, and where no block has
    /// the medium: "0x0010 and 0x0211 always get" 32.
    pub(crate) fn of(connection: u16) -> Option<Self> {
        let connection = taken_as(connection);
        let [low_byte, _] = connection.to_le_bytes();
        match connection {
            _ if Way::of(connection) != Way::Fixed => None,
            _ if low_byte < 9 => Some(Self::Code(low_byte)),
            0x0009 => Some(Self::Capability(11)),
            0x020A => Some(Self::Capability(12)),
            0x000D => Some(Self::Capability(13)),
            0x020E => Some(Self::Capability(14)),
            0x000F => Some(Self::Capability(15)),
            _ => None,
        }
    }

    fn is_of(self, block: &Block) -> bool {
        match self {
            Self::Code(code) => block.code == Some(code),
            Self::Capability(bit) => block.capabilities >> bit & 1 == 1,
        }
    }
}

/// Whether a block has the medium that a fixed connection type is set to.
pub(crate) fn has_fixed_medium(block: &Block, connection: u16) -> bool {
    Medium::of(connection).is_some_and(|medium| medium.is_of(block))
}

/// A row of flags for each property, by block number. The library's C interface has the same layout.
#[repr(C)]
#[derive(Debug, Clone, Copy, PartialEq, Eq)]
pub struct Rows {
    pub listed: [u8; ROW_LENGTH],
    /// 1 for the listed blocks with Active_Invalid only.
    pub active_invalid: [u8; ROW_LENGTH],
    /// 1 for the listed blocks with the fixed medium only.
    pub fixed: [u8; ROW_LENGTH],
}

impl Rows {
    pub const EMPTY: Self = Self {
        listed: [0; ROW_LENGTH],
        active_invalid: [0; ROW_LENGTH],
        fixed: [0; ROW_LENGTH],
    };
}

/// A walk with its rows of flags. The library's C interface has the same layout.
#[repr(C)]
#[derive(Debug, Clone, Copy, PartialEq, Eq)]
pub struct Walk {
    pub loaded: bool,
    pub connection: u16,
    pub blocks: u8,
    pub rows: Rows,
    pub default_number: u8,
    pub settled: bool,
    pub selected: u8,
    pub looks: u16,
    pub switches: u16,
}

impl Walk {
    pub const FRESH: Self = Self {
        loaded: false,
        connection: 0,
        blocks: 0,
        rows: Rows::EMPTY,
        default_number: NONE,
        settled: false,
        selected: NONE,
        looks: 0,
        switches: 0,
    };

    /// The block that looks select under a fixed connection type: "the first listed block for it"
    /// (document 02, request 5), by table order the highest; none where no block has the medium.
    pub fn fixed_choice(&self) -> Option<usize> {
        let has_medium = |block: &usize| self.rows.fixed.get(*block) == Some(&1);
        (0..self.blocks.into()).rev().find(has_medium)
    }
}

/// What a call hands back: number 0 and the walk after it, or the refusal's number and the walk as
/// it was. The library's C interface has the same layout.
#[repr(C)]
#[derive(Debug, Clone, Copy, PartialEq, Eq)]
pub struct Walked {
    pub number: u8,
    pub walk: Walk,
}

/// "A walk is fresh or loaded." Its calls answer a number, and a refused one changes nothing.
#[derive(Debug, Clone, Default, PartialEq, Eq)]
pub enum Autosense {
    #[default]
    Fresh,
    Loaded(Loaded),
}

/// The state of a loaded walk. Blocks go by their numbers.
#[derive(Debug, Clone, PartialEq, Eq)]
pub struct Loaded {
    connection: u16,
    blocks: usize,
    table: Vec<Entry>,
    default: Option<usize>,
    settled: bool,
    selected: Option<usize>,
    looks: u16,
    switches: u16,
}

/// A listed block.
#[derive(Debug, Clone, Copy, PartialEq, Eq)]
struct Entry {
    block: usize,
    is_active_invalid: bool,
    has_fixed_medium: bool,
}

impl Autosense {
    /// Reads an image into a fresh walk.
    pub fn load(&mut self, image: &[u8], arguments: Arguments) -> u8 {
        Refusal::number(&self.try_load(image, arguments))
    }

    /// Takes the steps of one look at a report with a byte for each block.
    pub fn look(&mut self, report: &[u8]) -> u8 {
        Refusal::number(&self.try_look(report))
    }

    /// "Clearing makes it fresh and always succeeds."
    pub fn clear(&mut self) -> u8 {
        *self = Self::Fresh;
        0
    }

    /// How many blocks the image counts that was loaded; none where none is.
    pub fn blocks(&self) -> Option<usize> {
        match self {
            Self::Fresh => None,
            Self::Loaded(loaded) => Some(loaded.blocks),
        }
    }

    /// The same walk with rows of flags.
    pub fn walk(&self) -> Walk {
        let Self::Loaded(loaded) = self else {
            return Walk::FRESH;
        };
        let row = |has_property: fn(&Entry) -> bool| {
            let mut row = [0; ROW_LENGTH];
            for entry in loaded.table.iter().filter(|entry| has_property(entry)) {
                row[entry.block] = 1;
            }
            row
        };
        let number = |block: Option<usize>| block.map_or(NONE, |block| block as u8);
        Walk {
            loaded: true,
            connection: loaded.connection,
            blocks: loaded.blocks as u8,
            rows: Rows {
                listed: row(|_| true),
                active_invalid: row(|entry| entry.is_active_invalid),
                fixed: row(|entry| entry.has_fixed_medium),
            },
            default_number: number(loaded.default),
            settled: loaded.settled,
            selected: number(loaded.selected),
            looks: loaded.looks,
            switches: loaded.switches,
        }
    }

    fn try_load(&mut self, image: &[u8], arguments: Arguments) -> Result<(), Refusal> {
        refuse_if(*self != Self::Fresh, Refusal::LoadedWalk)?;
        let (header, blocks) = leaf(image, arguments, usize::MAX)?;
        let numbered = blocks.iter().enumerate();
        let listed = numbered.rev().filter(|(_, block)| block.is_listed());
        let entry = |(number, block): (usize, &Block)| Entry {
            block: number,
            is_active_invalid: block.is_active_invalid,
            has_fixed_medium: has_fixed_medium(block, header.connection),
        };
        *self = Self::Loaded(Loaded {
            connection: header.connection,
            blocks: blocks.len(),
            table: listed.map(entry).collect(),
            default: blocks.iter().position(|block| block.is_default),
            settled: false,
            selected: None,
            looks: 0,
            switches: 0,
        });
        Ok(())
    }

    fn try_look(&mut self, report: &[u8]) -> Result<(), Refusal> {
        let Self::Loaded(loaded) = self else {
            return Err(Refusal::FreshWalk);
        };
        let fixed = loaded.fixed_choice()?;
        refuse_if(loaded.looks == u16::MAX, Refusal::LooksSpent)?;
        let report = report.get(..loaded.blocks).ok_or(Refusal::Report)?;
        refuse_if(report.iter().any(|&byte| byte > 1), Refusal::Report)?;
        loaded.step(fixed, report);
        Ok(())
    }
}

impl Loaded {
    /// The block that every look selects under a fixed type; none under every other type.
    fn fixed_choice(&self) -> Result<Option<usize>, Refusal> {
        if Way::of(self.connection) != Way::Fixed {
            return Ok(None);
        }
        let mut choices = self.table.iter().filter(|entry| entry.has_fixed_medium);
        let first = choices.next().ok_or(Refusal::NoFixedMedium)?;
        Ok(Some(first.block))
    }

    /// The three steps of a look. A fixed type's block is selected whatever steps 1 and 2 say.
    fn step(&mut self, fixed: Option<usize>, report: &[u8]) {
        let before = self.selected;
        if fixed.is_some() || !self.stays(report) {
            match fixed.or_else(|| self.candidate(report)) {
                Some(block) => {
                    self.selected = Some(block);
                    self.settled = true;
                }
                None => self.selected = self.default,
            }
        }
        self.looks += 1;
        if self.selected != before {
            self.switches += 1;
        }
    }

    /// Step 1: whether the walk is settled with a block selected, and keeps it.
    fn stays(&self, report: &[u8]) -> bool {
        let Some(selected) = self.selected.filter(|_| self.settled) else {
            return false;
        };
        let is_kept = |entry: &Entry| entry.block == selected && entry.is_active_invalid;
        let is_once = Way::of(self.connection) == Way::Once;
        is_once || self.table.iter().any(is_kept) || report[selected] == 1
    }

    /// Step 2: the first candidate in table order that is up.
    fn candidate(&self, report: &[u8]) -> Option<usize> {
        let is_candidate = |entry: &&Entry| !(self.settled && entry.is_active_invalid);
        let blocks = self.table.iter().filter(is_candidate);
        blocks
            .map(|entry| entry.block)
            .find(|&block| report[block] == 1)
    }
}

#[cfg(test)]
mod tests;
