//! Reading an image: the header, the blocks of one leaf, the table and the block view (document 01,
//! from "The image" to "Levels and the table"; document 02, request 1, for the layout with a Magic
//! Packet block, request 3, for the power blocks, request 6, for the ROM's size, and request 12, for
//! version 1 and its editions).

pub mod fast;

use crate::crc::{self, ID_CRC_OFFSET};
use crate::edition::{Rules, is_version};
use crate::layout::{Layout, is_of_size};
use crate::magic;
use std::fmt;

/// The chips that a leaf can be for.
pub const CHIPS: [u16; 5] = [21041, 21140, 21142, 21143, 21145];

/// The level that knows all seven extended types.
pub const NEWEST_LEVEL: u8 = 7;

/// The default number where no block is the default.
pub const NO_DEFAULT: u8 = 255;

/// A compact block's kind in the table.
pub const COMPACT: u16 = 256;

/// A 21041 block's kind in the table.
pub const MEDIA_21041: u16 = 257;

/// The extended type of a reset sequence for the whole card.
pub const RESET: u16 = 5;

/// The extended type of a sequence for power states, which shuts the PHY down.
pub const POWER: u16 = 6;

/// The most blocks that a count can name: arrays of so many elements are never too short.
pub const HIGHEST_COUNT: usize = 255;

/// The top bit of a block's first byte, but for the 21041: the other bits are a length.
pub const EXTENDED: u8 = 0x80;

/// The bit of a code byte that says that six more bytes follow.
pub const EXT: u8 = 0x40;

/// The bits of a code byte that are the media code.
pub(crate) const MEDIA_CODE: u8 = 0x3F;

/// The two top bits of a command word, of which only the lower is set in a default.
pub const ACTIVE_INVALID: u16 = 0x8000;
pub const DEFAULT: u16 = 0x4000;

/// The command bits that are 0 in a compact block and in type 0.
pub const COMMAND_RESERVED: u16 = 0x3F00;

/// The places of the header's fields.
pub(crate) const VERSION_OFFSET: usize = 18;
pub(crate) const COUNT_OFFSET: usize = 19;
pub(crate) const ADDRESS_OFFSET: usize = 20;
pub(crate) const CONTROLLERS_OFFSET: usize = 26;
const CONTROLLER_SIZE: usize = 3;

const HIGHEST_ADDRESS: u64 = (1 << 48) - 1;

const CONNECTIONS_21041: [u16; 9] = [
    0x0000, 0x0100, 0x0204, 0x0400, 0x0001, 0x0002, 0x0800, 0x0900, 0xFFFF,
];
const CONNECTIONS_21140: [u16; 19] = [
    0x0000, 0x0100, 0x0204, 0x0001, 0x0003, 0x0205, 0x0006, 0x0007, 0x0208, 0x0009, 0x020A, 0x000D,
    0x020E, 0x000F, 0x0010, 0x0211, 0x0800, 0x8800, 0xFFFF,
];
/// 10Base5, which the 21142 and the later chips have beside the 21140's connection types.
const AUI: u16 = 0x0002;

/// Whose leaf is read, for which chip, how many extended types the reader knows, what size and layout
/// the image should have, and whether an image of version 1 is of edition 1.00, and not 1.01. The
/// library's C interface has the same layout.
#[repr(C)]
#[derive(Debug, Clone, Copy, PartialEq, Eq)]
pub struct Arguments {
    pub chip: u16,
    pub controller: u8,
    pub level: u8,
    pub layout: Layout,
    pub first_edition: bool,
}

impl Arguments {
    /// The newest reader, for the first controller of the smaller ROM without a Magic Packet block, by
    /// the later edition.
    pub const fn newest(chip: u16) -> Self {
        Self::at_level(chip, NEWEST_LEVEL)
    }

    /// A reader of some level, for the same.
    pub const fn at_level(chip: u16, level: u8) -> Self {
        Self {
            chip,
            controller: 0,
            level,
            layout: Layout::PLAIN,
            first_edition: false,
        }
    }

    /// The same for another layout.
    pub const fn laid_out(self, layout: Layout) -> Self {
        Self { layout, ..self }
    }

    /// The same for another edition.
    pub const fn in_edition(self, first_edition: bool) -> Self {
        Self {
            first_edition,
            ..self
        }
    }

    /// As a record of the test programs holds them: chip and stated size are words, low byte first.
    pub fn bytes(self) -> [u8; 8] {
        let [low, high] = self.chip.to_le_bytes();
        let [size_low, size_high] = self.layout.size.to_le_bytes();
        let magic = self.layout.magic.into();
        [
            low,
            high,
            self.controller,
            self.level,
            size_low,
            size_high,
            magic,
            self.first_edition.into(),
        ]
    }
}

/// Chip, controller, level, stated size, whether there is a Magic Packet block and whether it is
/// edition 1.00 (0 or 1), as the words of a command.
impl fmt::Display for Arguments {
    fn fmt(&self, to: &mut fmt::Formatter<'_>) -> fmt::Result {
        let Self {
            chip,
            controller,
            level,
            layout: Layout { size, magic },
            first_edition,
        } = *self;
        let flags = [magic, first_edition].map(u8::from);
        let [magic, first_edition] = flags;
        write!(
            to,
            "{chip} {controller} {level} {size} {magic} {first_edition}"
        )
    }
}

/// What reading answers: number 0 with the values, or the refusal's number with zeros. The library's
/// C interface has the same layout.
#[repr(C)]
#[derive(Debug, Clone, Copy, Default, PartialEq, Eq)]
pub struct Answer {
    pub number: u8,
    pub connection: u16,
    pub control: u8,
    pub address: u64,
    pub blocks: u8,
    pub listed: u8,
    pub resets: u8,
    pub skipped: u8,
    pub power: u8,
    pub default_number: u8,
}

impl Answer {
    /// The values of all fields, in their order.
    pub fn values(&self) -> [u64; 10] {
        [
            self.number.into(),
            self.connection.into(),
            self.control.into(),
            self.address,
            self.blocks.into(),
            self.listed.into(),
            self.resets.into(),
            self.skipped.into(),
            self.power.into(),
            self.default_number.into(),
        ]
    }

    fn refused(refusal: Refusal) -> Self {
        Self {
            number: refusal as u8,
            ..Self::default()
        }
    }
}

/// Why a call is refused, by the numbers of documents 01 and 02.
#[derive(Debug, Clone, Copy, PartialEq, Eq)]
pub(crate) enum Refusal {
    ImageLength = 1,
    Version = 2,
    SromCrc = 3,
    IdCrc = 4,
    CountOrReservedByte = 5,
    Controller = 6,
    Chip = 7,
    Level = 8,
    Address = 9,
    LeafBounds = 10,
    Connection = 11,
    ShortArray = 12,
    PastLeafLimit = 13,
    NotPermitted = 14,
    BlockLength = 15,
    CodeOrReservedBits = 16,
    Advertisement = 17,
    Conflict = 18,
    Report = 19,
    FreshWalk = 20,
    LoadedWalk = 21,
    LooksSpent = 23,
    SheetLengthOrSum = 24,
    KindOrBody = 25,
    LeafPastLimit = 26,
    NotTidy = 27,
    MagicCrc = 29,
    MagicReserved = 30,
    RepeatedMode = 31,
    NoFixedMedium = 32,
    SheetTooLarge = 33,
    FirstVersionChip = 38,
}

impl Refusal {
    /// The number of a call that was accepted or refused.
    pub(crate) fn number<A>(result: &Result<A, Self>) -> u8 {
        match result {
            Ok(_) => 0,
            Err(refusal) => *refusal as u8,
        }
    }
}

/// What stands before the blocks of a leaf.
pub(crate) struct Header {
    pub connection: u16,
    pub control: u8,
    pub address: u64,
    pub count: u8,
    pub first_block: usize,
}

/// A block that the reader accepts.
#[derive(Debug, Clone, Copy)]
pub(crate) struct Block {
    pub start: usize,
    pub size: usize,
    /// None where the level does not know the type.
    pub kind: Option<u16>,
    /// The media code of a known block that has one; a PHY block has none.
    pub code: Option<u8>,
    /// The capabilities of a known PHY block, and 0 in all others.
    pub capabilities: u16,
    pub is_default: bool,
    pub is_active_invalid: bool,
    pub resets_phy: bool,
    /// The mode byte of a known power block, and 0 in all others.
    pub mode: u8,
}

impl Block {
    /// Whether the table lists the block: all that are known, but no type 5 and no power block.
    pub fn is_listed(&self) -> bool {
        self.kind.is_some_and(|kind| !matches!(kind, RESET | POWER))
    }
}

/// The judged fields of a block whose type is known and whose length is right.
enum Fields {
    Medium {
        code: u8,
        command: Option<u16>,
    },
    Phy {
        reset_length: u8,
        capabilities: u16,
        advertisement: u16,
    },
    Reset,
    Power {
        mode: u8,
    },
}

/// Reads the leaf of one controller and lists its known blocks, the last first: kinds and byte
/// offsets go to the two arrays, which stay as they are where the image is refused.
pub fn read(image: &[u8], arguments: Arguments, kinds: &mut [u16], offsets: &mut [u16]) -> Answer {
    let shorter = kinds.len().min(offsets.len());
    let (header, blocks) = match leaf(image, arguments, shorter) {
        Ok(leaf) => leaf,
        Err(refusal) => return Answer::refused(refusal),
    };
    let table = table(&blocks);
    for (entry, block) in table.iter().enumerate() {
        kinds[entry] = block.kind.expect("a listed block is known");
        offsets[entry] = block.start as u16;
    }
    let count = |rule: fn(&Block) -> bool| blocks.iter().filter(|block| rule(block)).count() as u8;
    let default = blocks.iter().position(|block| block.is_default);
    Answer {
        number: 0,
        connection: header.connection,
        control: header.control,
        address: header.address,
        blocks: header.count,
        listed: table.len() as u8,
        resets: count(|block| block.kind == Some(RESET)),
        skipped: count(|block| block.kind.is_none()),
        power: count(|block| block.kind == Some(POWER)),
        default_number: default.map_or(NO_DEFAULT, |number| number as u8),
    }
}

/// Reads into arrays that are never too short: the answer, and kind and offset of each entry.
pub fn read_all(image: &[u8], arguments: Arguments) -> (Answer, Vec<(u16, u16)>) {
    let (mut kinds, mut offsets) = ([0; HIGHEST_COUNT], [0; HIGHEST_COUNT]);
    let answer = read(image, arguments, &mut kinds, &mut offsets);
    let entries = kinds.into_iter().zip(offsets).take(answer.listed.into());
    (answer, entries.collect())
}

/// The bytes of the block that an entry of the table names, in the image; an empty part, at the
/// image's start, where the image is refused or the table has no such entry.
pub fn view(image: &[u8], arguments: Arguments, entry: usize) -> &[u8] {
    let Ok((_, blocks)) = leaf(image, arguments, usize::MAX) else {
        return &image[..0];
    };
    match table(&blocks).get(entry) {
        Some(block) => &image[block.start..block.start + block.size],
        None => &image[..0],
    }
}

/// Where each block starts, by block number; none where the image is refused.
pub fn starts(image: &[u8], arguments: Arguments) -> Option<Vec<usize>> {
    let (_, blocks) = leaf(image, arguments, usize::MAX).ok()?;
    Some(blocks.iter().map(|block| block.start).collect())
}

/// The connection types of the chip's row, as all versions but the first have them.
pub fn connections(chip: u16) -> impl Iterator<Item = u16> {
    let (row, more): (&[u16], _) = match chip {
        21041 => (&CONNECTIONS_21041, None),
        21140 => (&CONNECTIONS_21140, None),
        _ => (&CONNECTIONS_21140, Some(AUI)),
    };
    row.iter().copied().chain(more)
}

/// The kinds of block that a leaf for the chip may hold, beside types that nobody knows yet.
pub fn permitted_kinds(chip: u16) -> &'static [u16] {
    match chip {
        21041 => &[MEDIA_21041],
        21140 => &[COMPACT, 0, 1, 5],
        21142 => &[2, 3, 5],
        _ => &[2, 3, 4, 5, 6],
    }
}

/// The size of what stands before the blocks: the 21140 has a control byte more.
pub fn header_size(chip: u16) -> usize {
    if chip == 21140 { 4 } else { 3 }
}

/// Where the header speaks of a controller: its device number, and then its leaf's offset. After the
/// last one stands the reserved byte.
pub const fn controller_offset(controller: usize) -> usize {
    CONTROLLERS_OFFSET + CONTROLLER_SIZE * controller
}

/// The first place where a leaf may start: after the controllers and the reserved byte.
pub const fn first_leaf(controllers: usize) -> usize {
    controller_offset(controllers) + 1
}

/// The header and the blocks of a leaf, or the first cause to refuse it, where the shorter array
/// has so many elements.
pub(crate) fn leaf(
    image: &[u8],
    arguments: Arguments,
    shorter: usize,
) -> Result<(Header, Vec<Block>), Refusal> {
    frame(image, arguments.layout)?;
    let header = header(image, arguments)?;
    refuse_if(shorter < usize::from(header.count), Refusal::ShortArray)?;
    let mut blocks = Vec::new();
    let mut start = header.first_block;
    for _ in 0..header.count {
        let block = block(image, start, arguments)?;
        blocks.push(block);
        start += block.size;
    }
    refuse_if(conflict(&blocks), Refusal::Conflict)?;
    refuse_if(repeats_mode(&blocks), Refusal::RepeatedMode)?;
    Ok((header, blocks))
}

/// Causes 1 to 4, and then those of the Magic Packet block, 29 and 30, where there is one.
fn frame(image: &[u8], layout: Layout) -> Result<(), Refusal> {
    refuse_if(!is_of_size(image, layout.size), Refusal::ImageLength)?;
    refuse_if(!is_version(image), Refusal::Version)?;
    let srom_crc = crc::srom_crc(image, layout).value;
    let stored = word(image, layout.srom_crc_offset());
    refuse_if(srom_crc != stored, Refusal::SromCrc)?;
    let id_crc = crc::id_crc(image, layout.size).value;
    refuse_if(id_crc != image[ID_CRC_OFFSET].into(), Refusal::IdCrc)?;
    if layout.magic {
        magic::judge(image, crc::magic_crc(image, layout.size))?;
    }
    Ok(())
}

/// Causes 5 to 11, and 38 after 7.
fn header(image: &[u8], arguments: Arguments) -> Result<Header, Refusal> {
    let Arguments {
        chip,
        controller,
        level,
        layout,
        ..
    } = arguments;
    let rules = Rules::of(image, arguments);
    let controllers = usize::from(image[COUNT_OFFSET]);
    let is_count = (1..=layout.most_controllers()).contains(&controllers);
    refuse_if(
        !is_count || image[controller_offset(controllers)] != 0,
        Refusal::CountOrReservedByte,
    )?;
    let index = usize::from(controller);
    refuse_if(index >= controllers, Refusal::Controller)?;
    refuse_if(!CHIPS.contains(&chip), Refusal::Chip)?;
    refuse_if(rules.lack_chip(), Refusal::FirstVersionChip)?;
    refuse_if(level > NEWEST_LEVEL, Refusal::Level)?;
    let base = image[ADDRESS_OFFSET..CONTROLLERS_OFFSET]
        .iter()
        .fold(0, |address, &byte| address << 8 | u64::from(byte));
    let address = base + u64::from(controller);
    refuse_if(address > HIGHEST_ADDRESS, Refusal::Address)?;
    let start = usize::from(word(image, controller_offset(index) + 1));
    let first_block = start + header_size(chip);
    refuse_if(
        start < first_leaf(controllers) || first_block > layout.leaf_limit(),
        Refusal::LeafBounds,
    )?;
    let connection = word(image, start);
    refuse_if(!rules.permit(connection), Refusal::Connection)?;
    Ok(Header {
        connection,
        control: if chip == 21140 { image[start + 2] } else { 0 },
        address,
        count: image[first_block - 1],
        first_block,
    })
}

/// The block that starts at a place up to the limit, or the first of causes 13 to 17.
fn block(image: &[u8], start: usize, arguments: Arguments) -> Result<Block, Refusal> {
    let Arguments { chip, level, .. } = arguments;
    let rest = &image[start..arguments.layout.leaf_limit()];
    let bytes = first_block(rest, chip).ok_or(Refusal::PastLeafLimit)?;
    let kind = kind(bytes, chip).ok_or(Refusal::NotPermitted)?;
    let mut block = Block {
        start,
        size: bytes.len(),
        kind: Some(kind),
        code: None,
        capabilities: 0,
        is_default: false,
        is_active_invalid: false,
        resets_phy: false,
        mode: 0,
    };
    refuse_if(
        kind < COMPACT && !Rules::of(image, arguments).have_extended_blocks(),
        Refusal::NotPermitted,
    )?;
    if !is_known(kind, level) {
        block.kind = None;
        return Ok(block);
    }
    refuse_if(
        !permitted_kinds(chip).contains(&kind),
        Refusal::NotPermitted,
    )?;
    match fields(bytes, kind).ok_or(Refusal::BlockLength)? {
        Fields::Medium { code, command } => {
            let command = command.unwrap_or(0);
            refuse_if(
                !is_code(code, kind) || has_reserved_bits(command, kind),
                Refusal::CodeOrReservedBits,
            )?;
            block.code = Some(code & MEDIA_CODE);
            block.is_default = is_default(code, command);
            block.is_active_invalid = command & ACTIVE_INVALID != 0;
        }
        Fields::Phy {
            reset_length,
            capabilities,
            advertisement,
        } => {
            refuse_if(
                advertises_too_much(capabilities, advertisement),
                Refusal::Advertisement,
            )?;
            block.capabilities = capabilities;
            block.resets_phy = reset_length > 0;
        }
        Fields::Reset => {}
        Fields::Power { mode } => block.mode = mode,
    }
    Ok(block)
}

/// The bytes of the block that opens the rest of a leaf; none where it runs past the rest.
pub(crate) fn first_block(rest: &[u8], chip: u16) -> Option<&[u8]> {
    let first = *rest.first()?;
    let size = match chip {
        21041 if first & EXT == 0 => 1,
        21041 => 7,
        _ if first & EXTENDED == 0 => 4,
        _ => 1 + usize::from(first & !EXTENDED),
    };
    rest.get(..size)
}

/// The block's kind as the table has it; none for an extended block without a type byte.
pub(crate) fn kind(block: &[u8], chip: u16) -> Option<u16> {
    match chip {
        21041 => Some(MEDIA_21041),
        _ if block[0] & EXTENDED == 0 => Some(COMPACT),
        _ => block.get(1).copied().map(u16::from),
    }
}

/// A type is known at the levels above it, and a block without a type at all of them.
fn is_known(kind: u16, level: u8) -> bool {
    kind == COMPACT || kind == MEDIA_21041 || kind < level.into()
}

/// The fields of a block of a known kind; none where its length is wrong.
fn fields(block: &[u8], kind: u16) -> Option<Fields> {
    let length = block.len() - 1;
    match kind {
        MEDIA_21041 => Some(medium(block[0])),
        COMPACT => Some(medium_with_command(block[0], word(block, 2))),
        0 => (length == 5).then(|| medium_with_command(block[2], word(block, 4))),
        1 => phy(block, 1, 8),
        2 => {
            let code = *block.get(2)?;
            let right = if code & EXT == 0 { 6 } else { 12 };
            (length == right).then(|| medium(code))
        }
        3 => phy(block, 2, 9),
        4 => (length == 8).then(|| medium_with_command(block[2], word(block, 7))),
        RESET => {
            let words = usize::from(*block.get(2)?);
            (length == 2 * words + 2).then_some(Fields::Reset)
        }
        _ => {
            let words = usize::from(*block.get(3)?);
            (length == 2 * words + 3).then(|| Fields::Power { mode: block[2] })
        }
    }
}

fn medium(code: u8) -> Fields {
    Fields::Medium {
        code,
        command: None,
    }
}

fn medium_with_command(code: u8, command: u16) -> Fields {
    Fields::Medium {
        code,
        command: Some(command),
    }
}

/// A PHY block, whose two sequences are counted in units of so many bytes and which ends with so
/// many bytes after them.
fn phy(block: &[u8], unit: usize, last_bytes: usize) -> Option<Fields> {
    let select_length = *block.get(3)?;
    let reset_offset = 4 + unit * usize::from(select_length);
    let reset_length = *block.get(reset_offset)?;
    let words = reset_offset + 1 + unit * usize::from(reset_length);
    (block.len() == words + last_bytes).then(|| Fields::Phy {
        reset_length,
        capabilities: word(block, words),
        advertisement: word(block, words + 2),
    })
}

/// Whether the whole code byte is right: a media code of the kind, no reserved bit.
fn is_code(code: u8, kind: u16) -> bool {
    match kind {
        MEDIA_21041 | 2 => matches!(code & !EXT, 0 | 1 | 2 | 4),
        4 => matches!(code, 3 | 5..=8),
        _ => matches!(code, 0 | 1 | 3..=8),
    }
}

fn has_reserved_bits(command: u16, kind: u16) -> bool {
    matches!(kind, COMPACT | 0) && command & COMMAND_RESERVED != 0
}

/// Full duplex media and those without a sense bit are never the default.
fn is_default(code: u8, command: u16) -> bool {
    command & (ACTIVE_INVALID | DEFAULT) == DEFAULT && !matches!(code, 4 | 5 | 8)
}

/// Bits 9 to 5 of the advertisement stand for the media of bits 15 to 11 of the capabilities.
fn advertises_too_much(capabilities: u16, advertisement: u16) -> bool {
    let (capable, advertised) = (capabilities >> 11, advertisement >> 5 & 0x1F);
    advertised & !capable != 0
}

/// Cause 18: what only one known block of a leaf may say is said twice.
fn conflict(blocks: &[Block]) -> bool {
    let is_reset = |block: &&Block| block.kind == Some(RESET);
    let resets = blocks.iter().filter(is_reset).count();
    let defaults = blocks.iter().filter(|block| block.is_default).count();
    let resets_phy = blocks.iter().any(|block| block.resets_phy);
    resets > 1 || resets == 1 && resets_phy || defaults > 1
}

/// Cause 31: a bit of the mode byte is set in two known power blocks.
fn repeats_mode(blocks: &[Block]) -> bool {
    let is_repeated = |bit: u8| blocks.iter().filter(|it| it.mode >> bit & 1 == 1).count() > 1;
    (0..8).any(is_repeated)
}

/// The blocks that the table lists, in its order.
fn table(blocks: &[Block]) -> Vec<Block> {
    let listed = blocks.iter().rev().filter(|block| block.is_listed());
    listed.copied().collect()
}

pub(crate) fn refuse_if(cause: bool, refusal: Refusal) -> Result<(), Refusal> {
    if cause { Err(refusal) } else { Ok(()) }
}

/// The word whose low byte stands at the offset.
pub(crate) fn word(bytes: &[u8], offset: usize) -> u16 {
    u16::from_le_bytes(field(bytes, offset))
}

/// The bytes of a field that starts at the offset.
pub(crate) fn field<const LENGTH: usize>(bytes: &[u8], offset: usize) -> [u8; LENGTH] {
    let field = &bytes[offset..offset + LENGTH];
    field.try_into().expect("the field has its length")
}

#[cfg(test)]
mod tests;
