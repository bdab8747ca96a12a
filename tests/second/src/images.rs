//! Images to test with: a builder that lays every field as it is told, and random cards that the
//! newest reader accepts.

pub mod block;
pub(crate) mod damage;
mod magic;

use crate::crc::{ID_CRC_OFFSET, lay_board_crcs, lay_crcs, lay_srom_crc};
use crate::edition::{CODES, FIRST_CHIPS, FIRST_VERSION, Rules, VERSIONS, taken_as};
use crate::layout::{LAYOUTS, Layout, SIZES, SMALL, magic_block_mut};
use crate::magic::{LAST_RESERVED, RESERVED};
use crate::random::Random;
use crate::reader::{
    ADDRESS_OFFSET, Arguments, CHIPS, CONTROLLERS_OFFSET, COUNT_OFFSET, HIGHEST_COUNT,
    NEWEST_LEVEL, VERSION_OFFSET, controller_offset, first_leaf, header_size, leaf, read_all,
};
use block::Deck;

pub use crate::sheet::TIDY_LEAF;
pub use magic::{MAGIC_DAMAGES, MagicBlock};

pub type Image = Vec<u8>;

/// The refusals that one damaged field of an image or of its arguments can cause, in the reader's
/// order: all but that for the arrays.
pub const DAMAGES: [u8; 21] = [
    1, 2, 3, 4, 29, 30, 5, 6, 7, 38, 8, 9, 10, 11, 13, 14, 15, 16, 17, 18, 31,
];

/// Those of [`DAMAGES`] that a card of this layout can meet: without a Magic Packet block none of its.
pub fn damages(layout: Layout) -> impl Iterator<Item = u8> {
    let is_met = move |number: &u8| layout.magic || !MAGIC_DAMAGES.contains(number);
    DAMAGES.into_iter().filter(is_met)
}

/// Sizes to state beside those of ROMs: none, another power of two, those about a ROM's, the most.
pub const WRONG_SIZES: [u16; 8] = [
    0,
    SIZES[0] - 1,
    SIZES[0] + 1,
    SIZES[0] * 2,
    SIZES[1] - 1,
    SIZES[1] + 1,
    SIZES[1] * 2,
    u16::MAX,
];

/// What the header says of one controller.
#[derive(Debug, Clone, Copy)]
pub struct Controller {
    pub device: u8,
    pub leaf_offset: u16,
}

/// The leaf that is laid at an offset. The control byte is laid for the 21140 only.
#[derive(Debug, Clone)]
pub struct Leaf {
    pub offset: usize,
    pub chip: u16,
    pub connection: u16,
    pub control: u8,
    pub count: u8,
    pub blocks: Vec<Vec<u8>>,
}

impl Leaf {
    /// A leaf with a true block count and control byte 0.
    pub fn new(offset: usize, chip: u16, connection: u16, blocks: Vec<Vec<u8>>) -> Self {
        Self {
            offset,
            chip,
            connection,
            control: 0,
            count: blocks.len() as u8,
            blocks,
        }
    }

    fn bytes(&self) -> Vec<u8> {
        let mut bytes = self.connection.to_le_bytes().to_vec();
        if self.chip == 21140 {
            bytes.push(self.control);
        }
        bytes.push(self.count);
        bytes.extend(self.blocks.concat());
        bytes
    }

    /// Where the block of that number starts in the image.
    fn start(&self, number: usize) -> usize {
        let before = self.blocks[..number].iter().map(Vec::len).sum::<usize>();
        self.offset + header_size(self.chip) + before
    }

    pub fn end(&self) -> usize {
        self.start(self.blocks.len())
    }
}

/// All that an image holds. The later leaves are laid over the earlier ones, each as far as the
/// limit.
#[derive(Debug, Clone)]
pub struct Card {
    /// The bytes that no other field claims, the ID block's among them: as many as the ROM has.
    pub private: Image,
    /// How many bytes the image has too few or too many, zeros then behind the ROM's.
    pub length_fault: isize,
    pub version: u8,
    pub count: u8,
    pub address: u64,
    pub controllers: Vec<Controller>,
    pub reserved: u8,
    pub leaves: Vec<Leaf>,
    pub maker: [u8; 2],
    /// The bits by which the stored CRCs differ from the right ones.
    pub id_crc_fault: u8,
    pub srom_crc_fault: u16,
    /// The Magic Packet block of a card whose layout has one.
    pub magic: Option<MagicBlock>,
}

impl Card {
    /// A card of the smaller size whose controllers have the leaves in turn, and zeros elsewhere.
    pub fn new(controllers: usize, leaves: Vec<Leaf>) -> Self {
        let controller = |index: usize| Controller {
            device: index as u8,
            leaf_offset: leaves[index % leaves.len()].offset as u16,
        };
        Self {
            private: vec![0; SMALL.into()],
            length_fault: 0,
            version: 4,
            count: controllers as u8,
            address: 0x0800_2B00_0000,
            controllers: (0..controllers).map(controller).collect(),
            reserved: 0,
            leaves,
            maker: [0; 2],
            id_crc_fault: 0,
            srom_crc_fault: 0,
            magic: None,
        }
    }

    /// A card with one controller, and the leaf in its tidy place.
    pub fn tidy(chip: u16, connection: u16, blocks: Vec<Vec<u8>>) -> Self {
        Self::new(1, vec![Leaf::new(TIDY_LEAF, chip, connection, blocks)])
    }

    /// The same card with a ROM of another size.
    pub fn sized(mut self, size: u16) -> Self {
        self.private.resize(size.into(), 0);
        self
    }

    /// The same card in a layout, with any right Magic Packet block where it has one.
    pub fn laid_out(self, random: &mut Random, layout: Layout) -> Self {
        Self {
            magic: MagicBlock::of_layout(random, layout),
            ..self.sized(layout.size)
        }
    }

    pub fn layout(&self) -> Layout {
        Layout::new(self.private.len() as u16, self.magic.is_some())
    }

    /// The image, with its CRCs mended but for their faults.
    pub fn image(&self) -> Image {
        let layout = self.layout();
        let mut image = self.private.clone();
        image[VERSION_OFFSET] = self.version;
        image[COUNT_OFFSET] = self.count;
        image[ADDRESS_OFFSET..CONTROLLERS_OFFSET].copy_from_slice(&self.address.to_be_bytes()[2..]);
        for (index, controller) in self.controllers.iter().enumerate() {
            let [low, high] = controller.leaf_offset.to_le_bytes();
            image[controller_offset(index)..controller_offset(index + 1)].copy_from_slice(&[
                controller.device,
                low,
                high,
            ]);
        }
        image[controller_offset(self.controllers.len())] = self.reserved;
        for leaf in &self.leaves {
            let places = &mut image[leaf.offset..layout.leaf_limit()];
            places
                .iter_mut()
                .zip(leaf.bytes())
                .for_each(|(place, byte)| *place = byte);
        }
        image[layout.leaf_limit()..][..2].copy_from_slice(&self.maker);
        lay_board_crcs(&mut image, layout);
        image[ID_CRC_OFFSET] ^= self.id_crc_fault;
        lay_srom_crc(&mut image, layout);
        let [low, high] = self.srom_crc_fault.to_le_bytes();
        image[layout.srom_crc_offset()] ^= low;
        image[layout.srom_crc_offset() + 1] ^= high;
        if let Some(block) = &self.magic {
            block.lay(&mut image);
        }
        image.resize(image.len().saturating_add_signed(self.length_fault), 0);
        image
    }

    /// A random card of one chip that the newest reader of an edition accepts for every controller.
    pub fn valid(random: &mut Random, chip: u16, layout: Layout, first_edition: bool) -> Self {
        let rules = Rules::any(random, chip, first_edition);
        Self::by_rules(random, rules, layout)
    }

    /// The same by rules that have the chip.
    pub fn by_rules(random: &mut Random, rules: Rules, layout: Layout) -> Self {
        let chip = rules.chip;
        let most = layout.most_beside(header_size(chip));
        let controllers = match random.below(20) {
            0..10 => 1,
            10..18 => 2 + random.below(3),
            18 => 1 + random.below(most),
            _ => most,
        };
        let leaves = leaves(random, rules, controllers, layout);
        let mut card = Self::new(controllers, leaves).sized(layout.size);
        for controller in &mut card.controllers {
            controller.device = random.byte();
            if random.one_in(4) {
                controller.leaf_offset = card.leaves[random.below(card.leaves.len())].offset as u16;
            }
        }
        card.version = rules.version;
        card.address = address(random, controllers);
        if random.one_in(2) {
            card.private = random.row(layout.size.into());
            card.maker = random.bytes();
        }
        card.magic = MagicBlock::of_layout(random, layout);
        card
    }

    /// A leaf of so many one-byte blocks.
    pub fn one_byte_blocks(random: &mut Random, count: usize) -> Self {
        let mut media = |_| block::media(random.pick(&[0, 1, 2, 4]), None);
        Self::tidy(21041, 0x0800, (0..count).map(&mut media).collect())
    }

    /// The leaf with the most blocks: one byte each, from the first place on.
    pub fn longest(random: &mut Random, layout: Layout) -> Self {
        let card = Self::one_byte_blocks(random, layout.most_blocks());
        card.laid_out(random, layout)
    }

    /// A card whose header is right and whose leaf holds any bytes, with the starts of blocks among
    /// them.
    pub fn wild(random: &mut Random, rules: Rules, layout: Layout) -> Self {
        const STARTS: [&[u8]; 15] = [
            &[0x80],
            &[0x85, 0x00],
            &[0x8C, 0x01, 0x00, 0x00, 0x00],
            &[0x8D, 0x01, 0x00, 0x00, 0x01],
            &[0x86, 0x02],
            &[0x8C, 0x02, 0x40],
            &[0x8D, 0x03, 0x00, 0x00, 0x00],
            &[0x8F, 0x03, 0x00, 0x01],
            &[0x88, 0x04],
            &[0x82, 0x05, 0x00],
            &[0x84, 0x05, 0x01],
            &[0x81, 0x06],
            &[0x83, 0x06, 0x01, 0x00],
            &[0x85, 0x06, 0x03, 0x01],
            &[0x81, 0x07],
        ];
        let chip = rules.chip;
        let controllers = 1 + random.below(4);
        let first = first_leaf(controllers);
        let last = layout.leaf_limit() - header_size(chip);
        let offset = first + random.below(last - first + 1);
        let mut bytes = Vec::new();
        while bytes.len() < layout.size.into() {
            match random.below(6) {
                0 => bytes.extend(random.pick(&STARTS)),
                1 => bytes.push(random.byte()),
                2 => bytes.push(random.below(9) as u8),
                _ => bytes.push(0),
            }
        }
        let start = random.pick(&STARTS);
        bytes.splice(..start.len(), start.iter().copied());
        let connection = connection(random, rules);
        let mut leaf = Leaf::new(offset, chip, connection, vec![bytes]);
        leaf.count = match random.below(8) {
            0 => random.byte(),
            _ => random.below(8) as u8,
        };
        let mut card = Self::new(controllers, vec![leaf]).laid_out(random, layout);
        card.version = rules.version;
        card.address = address(random, controllers);
        card
    }
}

/// Random bytes with the CRCs of a layout, and mostly with a version, a controller count and zeros
/// in the reserved bytes of its Magic Packet block.
pub fn random_image(random: &mut Random, layout: Layout) -> Image {
    let mut image = random.row(layout.size.into());
    if !random.one_in(8) {
        image[VERSION_OFFSET] = random.pick(&VERSIONS);
    }
    if !random.one_in(8) {
        let count = 1 + random.below(layout.most_controllers());
        image[COUNT_OFFSET] = count as u8;
        image[controller_offset(count)] = 0;
    }
    if layout.magic && !random.one_in(8) {
        let block = magic_block_mut(&mut image);
        block[RESERVED].fill(0);
        block[LAST_RESERVED] = 0;
    }
    lay_crcs(&mut image, layout);
    image
}

/// The image without one block of the leaf that the arguments name, its CRCs mended; none where
/// the reader refuses the image or there is no such block.
pub fn without_block(image: &[u8], arguments: Arguments, number: usize) -> Option<Image> {
    let mut image = image.to_vec();
    let (header, blocks) = leaf(&image, arguments, usize::MAX).ok()?;
    let block = blocks.get(number)?;
    let limit = arguments.layout.leaf_limit();
    image.copy_within(block.start + block.size..limit, block.start);
    image[limit - block.size..limit].fill(0);
    image[header.first_block - 1] -= 1;
    lay_crcs(&mut image, arguments.layout);
    Some(image)
}

/// A card and the arguments of a call that reads it.
#[derive(Debug, Clone)]
pub struct Sample {
    pub card: Card,
    pub arguments: Arguments,
}

impl Sample {
    /// A card of any chip and layout that the newest reader accepts, and such a reader.
    pub fn valid(random: &mut Random) -> Self {
        let layout = random.pick(&LAYOUTS);
        Self::valid_in(random, layout)
    }

    /// The same for one layout.
    pub fn valid_in(random: &mut Random, layout: Layout) -> Self {
        let (chip, first_edition) = (random.pick(&CHIPS), random.one_in(2));
        let rules = Rules::any(random, chip, first_edition);
        Self::by_rules(random, rules, layout)
    }

    /// A card of version 1 that the newest reader of a layout and an edition accepts, and such a
    /// reader.
    pub fn first_version(random: &mut Random, layout: Layout, first_edition: bool) -> Self {
        let rules = Rules::first(random, first_edition);
        Self::by_rules(random, rules, layout)
    }

    fn by_rules(random: &mut Random, rules: Rules, layout: Layout) -> Self {
        let card = Card::by_rules(random, rules, layout);
        let controller = random.below(card.controllers.len()) as u8;
        let newest = Arguments::newest(rules.chip).laid_out(layout);
        Self {
            card,
            arguments: Arguments {
                controller,
                ..newest.in_edition(rules.first_edition)
            },
        }
    }

    /// The twin in edition 1.01: with the codes of 1.01 where this one has those of 1.00.
    pub fn corrected(&self) -> Self {
        let mut twin = self.clone();
        for leaf in &mut twin.card.leaves {
            leaf.connection = taken_as(leaf.connection);
        }
        twin.arguments.first_edition = false;
        twin
    }

    /// The rules by which the card is read.
    pub fn rules(&self) -> Rules {
        Rules {
            chip: self.arguments.chip,
            version: self.card.version,
            first_edition: self.arguments.first_edition,
        }
    }

    /// A card of one layout with a power block that the newest reader accepts, and such a reader.
    pub fn powered_in(random: &mut Random, layout: Layout) -> Self {
        loop {
            let sample = Self::valid_in(random, layout);
            let (answer, _) = read_all(&sample.card.image(), sample.arguments);
            if answer.power > 0 {
                return sample;
            }
        }
    }

    /// A card whose leaf holds any bytes, and the newest reader of it.
    pub fn wild(random: &mut Random) -> Self {
        let (chip, layout) = (random.pick(&CHIPS), random.pick(&LAYOUTS));
        let first_edition = random.one_in(2);
        let rules = Rules::any(random, chip, first_edition);
        let newest = Arguments::newest(chip).laid_out(layout);
        Self {
            card: Card::wild(random, rules, layout),
            arguments: newest.in_edition(first_edition),
        }
    }

    /// The card whose leaf has the most blocks of a layout, and the newest reader of it.
    pub fn longest(random: &mut Random, layout: Layout) -> Self {
        Self {
            card: Card::longest(random, layout),
            arguments: Arguments::newest(21041).laid_out(layout),
        }
    }

    /// A valid sample in which one field is damaged so that a reader of its level refuses it with
    /// this number, one of [`DAMAGES`].
    pub fn damaged(random: &mut Random, number: u8) -> Self {
        let layout = random.pick(&LAYOUTS);
        // Only a layout with a Magic Packet block can have it damaged.
        let magic = layout.magic || MAGIC_DAMAGES.contains(&number);
        Self::damaged_in(random, number, Layout { magic, ..layout })
    }

    /// The same for one layout.
    pub fn damaged_in(random: &mut Random, number: u8, layout: Layout) -> Self {
        loop {
            let mut sample = Self::valid_in(random, layout);
            if random.one_in(3) {
                sample.arguments.level = level(random);
            }
            if sample.damage(random, number) {
                return sample;
            }
        }
    }
}

/// One shared leaf, or own leaves for up to eight controllers, anywhere in the places there are.
fn leaves(random: &mut Random, rules: Rules, controllers: usize, layout: Layout) -> Vec<Leaf> {
    let chip = rules.chip;
    let (first, header) = (first_leaf(controllers), header_size(chip));
    let places = layout.leaf_limit() - first;
    let most = controllers.min(8).min(places / header);
    let number = if random.one_in(2) { 1 } else { most };
    let share = places / number;
    let leaf = |index| {
        let room = if number == 1 { places } else { share };
        let blocks = blocks(random, rules, room - header);
        let size = header + blocks.iter().map(Vec::len).sum::<usize>();
        let gap = match random.below(3) {
            0 => 0,
            1 => room - size,
            _ => random.below(room - size + 1),
        };
        let connection = connection(random, rules);
        let mut leaf = Leaf::new(first + index * share + gap, chip, connection, blocks);
        leaf.control = random.byte();
        leaf
    };
    (0..number).map(leaf).collect()
}

/// Random blocks that may stand together and fill no more than the room: a few, as many as are
/// drawn before one does not fit, or so many that no place is left; and never more than a count can
/// name. Now and then the first of them are the smallest that there are.
pub(crate) fn blocks(random: &mut Random, rules: Rules, room: usize) -> Vec<Vec<u8>> {
    let mut deck = Deck::new(random, rules);
    let few = random.below(6);
    let fills = random.one_in(3);
    let mut left = room;
    let mut blocks = Vec::new();
    let rarity = if rules.chip == 21041 { 4 } else { 16 };
    if fills && random.one_in(rarity) {
        let any = random.below(HIGHEST_COUNT + 1);
        let most = random.pick(&[any, HIGHEST_COUNT]);
        blocks.extend(block::smallest(random, rules, left).take(most));
        left -= blocks.iter().map(Vec::len).sum::<usize>();
    }
    while (fills || blocks.len() < few) && blocks.len() < HIGHEST_COUNT {
        let block = deck.draw(random);
        if block.len() > left {
            break;
        }
        left -= block.len();
        blocks.push(block);
    }
    if fills && random.one_in(2) {
        let more = block::filling(random, rules, left);
        if blocks.len() + more.len() <= HIGHEST_COUNT {
            blocks.extend(more);
        }
    }
    blocks
}

/// A connection type that the rules permit, in version 1 often one of the codes that its editions
/// have not in common.
pub(crate) fn connection(random: &mut Random, rules: Rules) -> u16 {
    let any: Vec<_> = rules.connections().collect();
    let own: Vec<_> = any
        .iter()
        .copied()
        .filter(|it| CODES.contains(it))
        .collect();
    let is_own = rules.version == FIRST_VERSION && random.one_in(3);
    random.pick(if is_own { &own } else { &any })
}

impl Rules {
    /// Those of a chip and an edition for a version that the chip has, often the first.
    pub fn any(random: &mut Random, chip: u16, first_edition: bool) -> Self {
        let rules = |version| Self {
            chip,
            version,
            first_edition,
        };
        let mut versions = VERSIONS.to_vec();
        versions.retain(|&version| !rules(version).lack_chip());
        rules(random.pick(&versions))
    }

    /// Those of version 1 in an edition.
    pub fn first(random: &mut Random, first_edition: bool) -> Self {
        Self {
            chip: random.pick(&FIRST_CHIPS),
            version: FIRST_VERSION,
            first_edition,
        }
    }
}

/// A level that there is.
fn level(random: &mut Random) -> u8 {
    random.below(usize::from(NEWEST_LEVEL) + 1) as u8
}

/// A base address that so many controllers can count on from, once in a while the highest.
pub(crate) fn address(random: &mut Random, controllers: usize) -> u64 {
    let highest = (1 << 48) - controllers as u64;
    if random.one_in(8) {
        return highest;
    }
    (random.bits() >> 16).min(highest)
}

#[cfg(test)]
mod tests {
    use super::*;
    use crate::layout::LARGE;
    use crate::reader::{Answer, MEDIA_21041, NO_DEFAULT, read};

    fn answer(sample: &Sample) -> Answer {
        read_all(&sample.card.image(), sample.arguments).0
    }

    /// "Reading accepts exactly the images" that the format permits: so every valid card, for each
    /// of its controllers, at each level; and in each layout each kind of block occurs in the
    /// table.
    #[test]
    fn valid_cards_are_accepted() {
        let mut random = Random::new(1);
        let mut met = [[0; 8]; 4];
        for round in 0..24_000 {
            let index = round % LAYOUTS.len();
            let mut sample = Sample::valid_in(&mut random, LAYOUTS[index]);
            let newest = answer(&sample);
            assert_eq!(newest.number, 0, "{sample:02x?}");
            let layout = sample.arguments.layout;
            let ends_last = |leaf: &Leaf| leaf.end() == layout.leaf_limit();
            let often = [
                1,
                usize::from(newest.default_number != NO_DEFAULT),
                newest.resets.into(),
                newest.skipped.into(),
                newest.power.into(),
                usize::from(newest.power > 1),
                sample.card.leaves.iter().any(ends_last).into(),
                usize::from(sample.card.controllers.len() > 4),
            ];
            for (met, often) in met[index].iter_mut().zip(often) {
                *met += often;
            }
            for controller in 0..sample.card.count {
                sample.arguments.controller = controller;
                sample.arguments.level = level(&mut random);
                assert_eq!(answer(&sample).number, 0, "{sample:02x?}");
            }
        }
        let names = [
            "cards",
            "defaults",
            "resets",
            "unknown types",
            "power blocks",
            "leaves with two power blocks",
            "last places",
            "cards with many controllers",
        ];
        for (layout, often) in LAYOUTS.into_iter().zip(met) {
            for (name, often) in names.into_iter().zip(often) {
                assert!(often > 300, "{layout:?}: only {often} {name}");
            }
        }
    }

    /// "Blocks rise to 255", "the controller count is at most 32 in both layouts": cards of the larger
    /// size have leaves and blocks behind byte 255, leaves that several controllers share, leaves of
    /// more blocks than 128 bytes can hold up to 255, and 32 controllers.
    #[test]
    fn large_cards() {
        let mut random = Random::new(6);
        let mut met = [0; 5];
        for _ in 0..8_000 {
            let magic = random.one_in(2);
            let sample = Sample::valid_in(&mut random, Layout::new(LARGE, magic));
            let (answer, entries) = read_all(&sample.card.image(), sample.arguments);
            assert_eq!(answer.number, 0, "{sample:02x?}");
            let offsets = sample.card.controllers.iter().map(|it| it.leaf_offset);
            let mut offsets: Vec<_> = offsets.collect();
            let all = offsets.len();
            offsets.sort();
            offsets.dedup();
            let has = [
                offsets.iter().any(|&offset| offset > 255) && offsets.len() < all,
                entries.iter().any(|&(_, offset)| offset > 255),
                usize::from(answer.blocks) > Layout::PLAIN.most_blocks(),
                answer.blocks == 255,
                all == 32,
            ];
            met.iter_mut()
                .zip(has)
                .for_each(|(met, has)| *met += usize::from(has));
        }
        assert!(met.iter().all(|&often| often > 20), "{met:?}");
    }

    /// "its cause met and no earlier cause": each damage is refused with its own number, in each
    /// layout.
    #[test]
    fn damages_are_refused() {
        let mut random = Random::new(2);
        for layout in LAYOUTS {
            for number in damages(layout) {
                for _ in 0..250 {
                    let sample = Sample::damaged_in(&mut random, number, layout);
                    assert_eq!(answer(&sample).number, number, "{sample:02x?}");
                }
            }
        }
    }

    /// "a length other than the stated size, or a stated size other than those two": damage 1 meets
    /// either and both, with the other size's images and statements among them.
    #[test]
    fn damaged_sizes() {
        let mut random = Random::new(7);
        for layout in LAYOUTS {
            let mut met = [0; 5];
            for _ in 0..1_000 {
                let sample = Sample::damaged_in(&mut random, 1, layout);
                let (length, stated) = (sample.card.image().len(), sample.arguments.layout.size);
                let is_served = SIZES.contains(&stated);
                let has = [
                    is_served && SIZES.map(usize::from).contains(&length),
                    is_served && stated == layout.size,
                    !is_served && length == stated.into(),
                    !is_served && length == layout.size.into(),
                    stated == 256 && length == 256,
                ];
                met.iter_mut()
                    .zip(has)
                    .for_each(|(met, has)| *met += usize::from(has));
            }
            assert!(met.iter().all(|&often| often > 10), "{layout:?}: {met:?}");
        }
    }

    /// "reader in this order", 29 "after 4" and 30 "after 29": of two damaged fields the one that
    /// the reader meets first is answered.
    #[test]
    fn first_cause_first() {
        let mut random = Random::new(3);
        for (place, &first) in DAMAGES.iter().enumerate() {
            for &later in &DAMAGES[place + 1..] {
                // Between 13 and 17 the first block that is refused decides, not the number.
                let blocks = 13..18;
                if blocks.contains(&first) && blocks.contains(&later) {
                    continue;
                }
                let mut met = 0;
                while met < 40 {
                    let mut sample = Sample::damaged(&mut random, later);
                    if sample.damage(&mut random, first) {
                        assert_eq!(answer(&sample).number, first, "{later}: {sample:02x?}");
                        met += 1;
                    }
                }
            }
        }
    }

    /// "Leaf and blocks": a leaf that loses a block is the leaf of the others.
    #[test]
    fn lost_block() {
        let mut random = Random::new(5);
        let blocks = vec![
            block::sia(0, None, 1, 2),
            block::reset(&[3]),
            block::sia(1, Some([4; 6]), 5, 6),
        ];
        let private = random.bytes::<18>();
        for layout in LAYOUTS {
            let magic = MagicBlock::of_layout(&mut random, layout);
            let arguments = Arguments::newest(21143).laid_out(layout);
            let image = |blocks: &[Vec<u8>]| {
                let mut card = Card::tidy(21143, 0x0800, blocks.to_vec()).sized(layout.size);
                card.private[..18].copy_from_slice(&private);
                card.magic = magic;
                card.image()
            };
            for number in 0..3 {
                let mut others = blocks.clone();
                others.remove(number);
                let lost = without_block(&image(&blocks), arguments, number);
                assert_eq!(lost, Some(image(&others)));
            }
            assert_eq!(without_block(&image(&blocks), arguments, 3), None);
            let nothing = vec![0; layout.size.into()];
            assert_eq!(without_block(&nothing, arguments, 0), None);
        }
    }

    /// "at most 91 blocks": the leaf with the most is accepted, every place listed from the last. With
    /// a Magic Packet block "leaves end before 92". At 512 bytes "Blocks rise to 255".
    #[test]
    fn longest_leaf() {
        for (layout, last) in LAYOUTS.into_iter().zip([123, 91, 32 + 255, 32 + 255]) {
            let mut sample = Sample::longest(&mut Random::new(4), layout);
            sample.arguments.level = 0;
            let (mut kinds, mut offsets) = ([0; HIGHEST_COUNT], [0; HIGHEST_COUNT]);
            let image = sample.card.image();
            let answer = read(&image, sample.arguments, &mut kinds, &mut offsets);
            let listed = usize::from(answer.listed);
            assert_eq!((answer.number, listed), (0, last - 32));
            assert!(kinds[..listed].iter().all(|&kind| kind == MEDIA_21041));
            let starts = offsets[..listed].iter().map(|&it| usize::from(it));
            assert!(starts.eq((33..=last).rev()));
        }
    }
}
