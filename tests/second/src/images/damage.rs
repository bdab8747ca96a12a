//! Damage to one field of a valid sample, for each refusal that a field can cause.

use super::block::{self, phy_unit};
use super::{Card, Leaf, Sample, WRONG_SIZES};
use crate::edition::{CODES, FIRST_CHIPS, FIRST_VERSION, Rules, VERSIONS};
use crate::layout::SIZES;
use crate::random::Random;
use crate::reader::{
    ACTIVE_INVALID, CHIPS, COMPACT, DEFAULT, EXT, EXTENDED, MEDIA_21041, NEWEST_LEVEL, POWER,
    RESET, first_leaf, header_size,
};
use std::ops::Range;

/// The longest extended block's length, which counts all that follows it.
const LONGEST: usize = !EXTENDED as usize;

/// Where a power block has its mode byte.
const MODE_OFFSET: usize = 2;

impl Sample {
    /// Damages one field so that the reading is refused with this number and for no earlier cause;
    /// false, with nothing changed, where the sample has no such field or not enough places for it.
    pub fn damage(&mut self, random: &mut Random, number: u8) -> bool {
        let rules = self.rules();
        let (card, arguments) = (&mut self.card, &mut self.arguments);
        let controllers = card.controllers.len();
        let layout = card.layout();
        let places = first_leaf(controllers)..layout.leaf_limit();
        match number {
            1 => match random.below(4) {
                0 => card.length_fault = length_fault(random, layout.size),
                1 => {
                    card.length_fault = length_fault(random, layout.size);
                    arguments.layout.size = card.image().len() as u16;
                    // Cut or lengthened to the other size, the image is judged on.
                    if SIZES.contains(&arguments.layout.size) {
                        arguments.layout.size = 0;
                    }
                }
                2 => arguments.layout.size = random.pick(&WRONG_SIZES),
                _ => arguments.layout.size = other_size(layout.size),
            },
            2 => card.version = other_than(random, &VERSIONS),
            3 => card.srom_crc_fault = 1 + random.below(0xFFFF) as u16,
            4 => card.id_crc_fault = 1 + random.below(0xFF) as u8,
            29 | 30 => match &mut card.magic {
                Some(block) => block.damage(random, number),
                None => return false,
            },
            5 if random.one_in(2) => card.reserved = 1 + random.below(0xFF) as u8,
            5 => {
                let most = layout.most_controllers() as u8;
                card.count = random.pick(&[0, most + 1, most + 1, most + 2, 100, 255]);
            }
            6 => arguments.controller = between(random, controllers, 255) as u8,
            7 => arguments.chip = chip(random),
            38 => {
                if FIRST_CHIPS.contains(&rules.chip) {
                    arguments.chip = random.pick(&later_chips());
                }
                card.version = FIRST_VERSION;
            }
            8 => arguments.level = between(random, usize::from(NEWEST_LEVEL) + 1, 255) as u8,
            9 => match arguments.controller {
                0 => return false,
                index => card.address = (1 << 48) - 1 - random.below(index.into()) as u64,
            },
            10 => {
                let Some(controller) = card.controllers.get_mut(usize::from(arguments.controller))
                else {
                    return false;
                };
                let last = places.end - header_size(arguments.chip);
                // Offsets that are right but for bits above the image.
                let above = usize::from(u16::MAX / layout.size) - 1;
                controller.leaf_offset = match random.below(4) {
                    0 => random.below(places.start) as u16,
                    1 => between(random, last + 1, last + 8) as u16,
                    2 => between(random, last + 1, u16::MAX.into()) as u16,
                    _ => controller.leaf_offset + layout.size * between(random, 1, above) as u16,
                };
            }
            _ => {
                let level = arguments.level.min(NEWEST_LEVEL);
                let Some(mut leaf) = take_leaf(card, arguments.controller) else {
                    return false;
                };
                let rules = Rules {
                    chip: leaf.chip,
                    ..rules
                };
                let is_damaged = damage_leaf(&mut leaf, random, number, level, rules, places);
                card.controllers[usize::from(arguments.controller)].leaf_offset =
                    leaf.offset as u16;
                card.leaves.push(leaf);
                return is_damaged.is_some();
            }
        }
        true
    }
}

/// Takes the leaf that the controller names out of the card, to be put back as its last.
fn take_leaf(card: &mut Card, controller: u8) -> Option<Leaf> {
    let offset = card.controllers.get(usize::from(controller))?.leaf_offset;
    let is_named = |leaf: &Leaf| leaf.offset == usize::from(offset);
    let index = card.leaves.iter().rposition(is_named)?;
    Some(card.leaves.remove(index))
}

/// Damages a leaf that stands in these places of its image.
pub(crate) fn damage_leaf(
    leaf: &mut Leaf,
    random: &mut Random,
    number: u8,
    level: u8,
    rules: Rules,
    places: Range<usize>,
) -> Option<()> {
    match number {
        11 => leaf.connection = wrong_connection(random, rules),
        _ if leaf.blocks.is_empty() => return None,
        13 if leaf.chip == 21041 || random.one_in(2) => {
            let last = places.end - header_size(leaf.chip);
            let fitting = places.end - (leaf.end() - leaf.offset);
            leaf.offset = between(random, places.start.max(fitting + 1), last);
        }
        18 if random.one_in(2) => set_defaults(leaf, random, level)?,
        18 => add_reset(leaf, random, level, places.end)?,
        31 => repeat_mode(leaf, random, level, rules, places.end)?,
        _ => {
            let index = random.below(leaf.blocks.len());
            let places = places.end.checked_sub(leaf.start(index))?;
            let block = &mut leaf.blocks[index];
            let kind = kind(block, leaf.chip);
            let is_known = kind >= COMPACT || kind < level.into();
            match number {
                13 if places > LONGEST => return None,
                13 => block[0] = EXTENDED | between(random, places, LONGEST) as u8,
                14 => forbid(block, random, rules, level, places)?,
                15 if is_known => missize(block, random, kind, places)?,
                16 if is_known => miscode(block, random, kind)?,
                17 if is_known => advertise(block, random, kind)?,
                _ => return None,
            }
        }
    }
    Some(())
}

/// An extended block without a type, of a known type that the rules do not permit, any where there is
/// none, or a compact block where there is none.
fn forbid(
    block: &mut [u8],
    random: &mut Random,
    rules: Rules,
    level: u8,
    places: usize,
) -> Option<()> {
    let chip = rules.chip;
    if chip == 21041 {
        return None;
    }
    let is_extended = block[0] & EXTENDED != 0;
    let kinds = rules.kinds();
    let is_forbidden = |kind: &u8| !kinds.contains(&u16::from(*kind));
    let forbidden: Vec<_> = (0..level).filter(is_forbidden).collect();
    match random.below(3) {
        0 => block[0] = EXTENDED,
        1 if is_extended && !forbidden.is_empty() => block[1] = random.pick(&forbidden),
        2 if chip != 21140 && places >= 4 => block[0] &= !EXTENDED,
        // Of any type, and any length that ends before the limit.
        _ if !rules.have_extended_blocks() && places > 0 => {
            let any = random.byte();
            block[0] = EXTENDED | random.below(places.min(LONGEST)) as u8;
            block[1] = random.pick(&[0, 1, 5, any]);
        }
        _ => return None,
    }
    Some(())
}

/// A length that the type does not have, or a count or EXT that the length does not fit.
fn missize(block: &mut [u8], random: &mut Random, kind: u16, places: usize) -> Option<()> {
    if kind >= COMPACT || places < 2 {
        return None;
    }
    let length = EXTENDED | between(random, 1, LONGEST.min(places - 1)) as u8;
    let flaw = 1 + random.below(0xFF) as u8;
    match kind {
        _ if random.one_in(2) && block[0] != length => block[0] = length,
        1 | 3 if random.one_in(2) => {
            let outside = block.len().checked_sub(4)?.div_ceil(phy_unit(kind));
            block[3] = between(random, outside, 255) as u8;
        }
        1 | 3 => block[reset_offset(block, kind)?] ^= flaw,
        2 => *block.get_mut(2)? ^= EXT,
        RESET => *block.get_mut(2)? ^= flaw,
        POWER => *block.get_mut(3)? ^= flaw,
        _ => return None,
    }
    Some(())
}

/// A code that the kind does not have, a reserved bit of the code byte, or one of the command.
fn miscode(block: &mut [u8], random: &mut Random, kind: u16) -> Option<()> {
    let (offset, codes, reserved) = code_byte(kind)?;
    let code = block.get_mut(offset)?;
    match random.below(3) {
        0 => {
            let has_ext = matches!(kind, MEDIA_21041 | 2);
            let kept = if has_ext { *code & EXT } else { 0 };
            let wrong = (0..0x40).filter(|other| !codes.contains(other));
            *code = kept | random.pick(&wrong.collect::<Vec<_>>());
        }
        1 => *code |= random.pick(reserved),
        _ if matches!(kind, COMPACT | 0) => {
            *block.get_mut(command_offset(kind)? + 1)? |= 1 << random.below(6);
        }
        _ => return None,
    }
    Some(())
}

/// An advertised medium that the PHY is not capable of.
fn advertise(block: &mut [u8], random: &mut Random, kind: u16) -> Option<()> {
    if !matches!(kind, 1 | 3) {
        return None;
    }
    let reset_offset = reset_offset(block, kind)?;
    let words = reset_offset + 1 + phy_unit(kind) * usize::from(block[reset_offset]);
    let medium = random.below(5);
    let is_capable = block.get(words + 1)? >> 3 >> medium & 1 == 1;
    let place = 5 + medium;
    let advertised = block.get_mut(words + 2 + place / 8)?;
    if is_capable {
        return None;
    }
    *advertised |= 1 << (place % 8);
    Some(())
}

/// Two or more defaults.
fn set_defaults(leaf: &mut Leaf, random: &mut Random, level: u8) -> Option<()> {
    let chip = leaf.chip;
    let command = |block: &mut Vec<u8>| {
        let kind = kind(block, chip);
        let (code, ..) = code_byte(kind)?;
        let can_be_default = ![4, 5, 8].contains(block.get(code)?);
        let is_known = kind >= COMPACT || kind < level.into();
        (is_known && can_be_default).then(|| command_offset(kind))?
    };
    let media = leaf.blocks.iter_mut();
    let mut media: Vec<_> = media
        .filter_map(|block| {
            let high_byte = command(block)? + 1;
            block.get_mut(high_byte)
        })
        .collect();
    let others = media.len().checked_sub(1).filter(|&others| others > 0)?;
    for high_byte in &mut media[..=1 + random.below(others)] {
        **high_byte &= !((ACTIVE_INVALID >> 8) as u8);
        **high_byte |= (DEFAULT >> 8) as u8;
    }
    Some(())
}

/// A type 5 block more, where there is one or a PHY with a reset sequence.
fn add_reset(leaf: &mut Leaf, random: &mut Random, level: u8, limit: usize) -> Option<()> {
    let speaks_of_reset = |block: &Vec<u8>| match kind(block, leaf.chip) {
        RESET => true,
        kind @ (1 | 3) => reset_offset(block, kind).is_some_and(|offset| block[offset] > 0),
        _ => false,
    };
    let reset = block::reset(&[]);
    let has_room = leaf.end() + reset.len() <= limit;
    let is_known = RESET < level.into();
    if !is_known || !has_room || !leaf.blocks.iter().any(speaks_of_reset) {
        return None;
    }
    insert(leaf, random, reset)
}

/// A bit of the mode byte in two power blocks, of which one or both are added where there are fewer.
fn repeat_mode(
    leaf: &mut Leaf,
    random: &mut Random,
    level: u8,
    rules: Rules,
    limit: usize,
) -> Option<()> {
    let chip = leaf.chip;
    let is_power = |block: &Vec<u8>| kind(block, chip) == POWER && block.len() > MODE_OFFSET;
    let is_known = POWER < level.into() && rules.kinds().contains(&POWER);
    let added = block::power(0, &[]);
    let missing = 2_usize.saturating_sub(leaf.blocks.iter().filter(|it| is_power(it)).count());
    if !is_known || leaf.end() + missing * added.len() > limit {
        return None;
    }
    for _ in 0..missing {
        insert(leaf, random, added.clone())?;
    }
    let blocks = leaf.blocks.iter_mut().filter(|it| is_power(it));
    let mut modes: Vec<_> = blocks.map(|block| &mut block[MODE_OFFSET]).collect();
    let (first, bit) = (random.below(modes.len()), 1 << random.below(8));
    let other = (first + 1 + random.below(modes.len() - 1)) % modes.len();
    for index in [first, other] {
        *modes[index] |= bit;
    }
    Some(())
}

/// Puts a block anywhere among those of a leaf; none where the leaf has the most already.
fn insert(leaf: &mut Leaf, random: &mut Random, block: Vec<u8>) -> Option<()> {
    leaf.count = leaf.count.checked_add(1)?;
    leaf.blocks
        .insert(random.below(leaf.blocks.len() + 1), block);
    Some(())
}

/// A length that no image of this size has, often by one byte or the other ROM's.
fn length_fault(random: &mut Random, size: u16) -> isize {
    let size = size as isize;
    let any = random.below(1_024) as isize - size;
    let other = other_size(size as u16) as isize - size;
    let twice = if random.one_in(2) { size } else { -size / 2 };
    match random.pick(&[-1, 1, -size, other, twice, any]) {
        0 => 1,
        fault => fault,
    }
}

/// The size that this is not.
fn other_size(size: u16) -> u16 {
    let [small, large] = SIZES;
    if size == small { large } else { small }
}

pub(crate) fn kind(block: &[u8], chip: u16) -> u16 {
    match chip {
        21041 => MEDIA_21041,
        _ if block[0] & EXTENDED == 0 => COMPACT,
        _ => block[1].into(),
    }
}

/// Where a medium's code byte stands, the codes of its kind and the reserved bits.
pub(crate) fn code_byte(kind: u16) -> Option<(usize, &'static [u8], &'static [u8])> {
    match kind {
        MEDIA_21041 => Some((0, &[0, 1, 2, 4], &[0x80])),
        COMPACT => Some((0, &[0, 1, 3, 4, 5, 6, 7, 8], &[0x40])),
        0 => Some((2, &[0, 1, 3, 4, 5, 6, 7, 8], &[0x40, 0x80, 0xC0])),
        2 => Some((2, &[0, 1, 2, 4], &[0x80])),
        4 => Some((2, &[3, 5, 6, 7, 8], &[0x40, 0x80, 0xC0])),
        _ => None,
    }
}

pub(crate) fn command_offset(kind: u16) -> Option<usize> {
    match kind {
        COMPACT => Some(2),
        0 => Some(4),
        4 => Some(7),
        _ => None,
    }
}

/// Where a PHY block has the length of its reset sequence; none where that is outside the block.
fn reset_offset(block: &[u8], kind: u16) -> Option<usize> {
    let offset = 4 + phy_unit(kind) * usize::from(*block.get(3)?);
    (offset < block.len()).then_some(offset)
}

/// A connection type that the rules do not permit, often a code of another edition.
pub(crate) fn wrong_connection(random: &mut Random, rules: Rules) -> u16 {
    loop {
        let (near, any) = (random.word() & 0x8F1F, random.word());
        let other = random.pick(&[near, any, 0x0002, 0x0400, 0x0900, 0x8800]);
        let connection = match random.one_in(2) {
            true => random.pick(&CODES),
            false => other,
        };
        if !rules.permit(connection) {
            return connection;
        }
    }
}

/// The chips that version 1 does not have.
fn later_chips() -> Vec<u16> {
    let mut chips = CHIPS.to_vec();
    chips.retain(|chip| !FIRST_CHIPS.contains(chip));
    chips
}

/// A number that is no chip's, often close to one.
pub(crate) fn chip(random: &mut Random) -> u16 {
    loop {
        let (near, any) = (random.pick(&CHIPS) ^ 1 << random.below(16), random.word());
        let chip = random.pick(&[near, any, 0, 21040, 21144]);
        if !CHIPS.contains(&chip) {
            return chip;
        }
    }
}

pub(crate) fn other_than(random: &mut Random, right: &[u8]) -> u8 {
    loop {
        let (near, any) = (random.below(8) as u8, random.byte());
        let other = random.pick(&[near, any]);
        if !right.contains(&other) {
            return other;
        }
    }
}

/// A number from the first to the last.
pub(crate) fn between(random: &mut Random, first: usize, last: usize) -> usize {
    first + random.below(last - first + 1)
}
