//! Sheets to test with: a builder that lays every field as it is told, in either form, and random
//! sheets that the writer accepts.

pub mod converted;
mod damage;
pub mod tidy;

use crate::edition::Rules;
use crate::images::{
    self, Card, Controller, Image, Leaf, MagicBlock, TIDY_LEAF, WRONG_SIZES, block,
};
use crate::layout::{LARGE, Layout, SMALL};
use crate::random::Random;
use crate::reader::{CHIPS, COMPACT, header_size};
use crate::sheet::{Form, MEDIA_SIZES};

/// The refusals that one damaged field of a sheet can cause, in the writer's order: all but the one
/// for the output's size.
pub const SHEET_DAMAGES: [u8; 14] = [24, 33, 7, 25, 26, 2, 38, 11, 14, 15, 16, 17, 18, 31];

/// Those of [`SHEET_DAMAGES`] that a sheet of this form can meet: a narrow one cannot say too many
/// blocks.
pub fn sheet_damages(form: Form) -> Vec<u8> {
    let is_met = |&number: &u8| form.is_wide() || number != 33;
    SHEET_DAMAGES.into_iter().filter(is_met).collect()
}

/// All that a sheet says. The counts, sizes and sums are laid as the blocks have them.
#[derive(Debug, Clone)]
pub struct Sheet {
    /// ID bytes 0 to 15 and 17.
    pub id: [u8; 17],
    pub version: u8,
    pub address: u64,
    pub device: u8,
    pub chip: u16,
    pub connection: u16,
    pub control: u8,
    pub maker: [u8; 2],
    /// Kind and body of each block.
    pub blocks: Vec<(u16, Vec<u8>)>,
}

impl Sheet {
    /// A sheet with these whole blocks, and zeros in the fields that take any value.
    pub fn new(chip: u16, connection: u16, blocks: &[Vec<u8>]) -> Self {
        Self {
            id: [0; 17],
            version: 4,
            address: 0,
            device: 0,
            chip,
            connection,
            control: 0,
            maker: [0; 2],
            blocks: blocks.iter().map(|block| body(block, chip)).collect(),
        }
    }

    /// The sheet's bytes in a form, which takes the low bits of a count or a sum that is too large for
    /// it.
    pub fn bytes(&self, form: Form) -> Vec<u8> {
        let mut bytes = Vec::new();
        for size in [self.blocks.len(), self.body_bytes()] {
            bytes.extend(&size.to_le_bytes()[..form.width()]);
        }
        bytes.extend(self.id);
        bytes.push(self.version);
        bytes.extend(&self.address.to_be_bytes()[2..]);
        bytes.push(self.device);
        bytes.extend(self.chip.to_le_bytes());
        bytes.extend(self.connection.to_le_bytes());
        bytes.push(self.control);
        bytes.extend(self.maker);
        bytes.extend(self.blocks.iter().flat_map(|(kind, _)| kind.to_le_bytes()));
        bytes.extend(self.blocks.iter().map(|(_, body)| body.len() as u8));
        bytes.extend(self.blocks.iter().flat_map(|(_, body)| body));
        bytes
    }

    pub fn body_bytes(&self) -> usize {
        self.blocks.iter().map(|(_, body)| body.len()).sum()
    }

    /// The card whose image of so many bytes the writer must write, behind which this block is kept.
    pub fn card(&self, size: u16, magic: Option<MagicBlock>) -> Card {
        let mut leaf = Leaf::new(TIDY_LEAF, self.chip, self.connection, self.whole_blocks());
        leaf.control = self.control;
        let mut card = Card::new(1, vec![leaf]).sized(size);
        card.private[..16].copy_from_slice(&self.id[..16]);
        card.private[17] = self.id[16];
        card.version = self.version;
        card.address = self.address;
        card.controllers = vec![Controller {
            device: self.device,
            leaf_offset: TIDY_LEAF as u16,
        }];
        card.maker = self.maker;
        card.magic = magic;
        card
    }

    /// A random sheet of any chip that the writer accepts in a layout and an edition, in a form that
    /// serves it, once in a while the longest.
    pub fn valid(random: &mut Random, layout: Layout, first_edition: bool) -> Self {
        let chip = random.pick(&CHIPS);
        if chip == 21041 && random.one_in(8) {
            return Self::longest(random, layout, first_edition);
        }
        let rules = Rules::any(random, chip, first_edition);
        Self::by_rules(random, rules, layout)
    }

    /// The same of version 1.
    pub fn first_version(random: &mut Random, layout: Layout, first_edition: bool) -> Self {
        let rules = Rules::first(random, first_edition);
        Self::by_rules(random, rules, layout)
    }

    fn by_rules(random: &mut Random, rules: Rules, layout: Layout) -> Self {
        let room = layout.leaf_limit() - TIDY_LEAF - header_size(rules.chip);
        let blocks = images::blocks(random, rules, room);
        Self::with_blocks(random, rules, &blocks)
    }

    /// The longest sheet of a layout: of the most blocks, as many have EXT as there is room for.
    pub fn longest(random: &mut Random, layout: Layout, first_edition: bool) -> Self {
        let leaf = Card::longest(random, layout).leaves.remove(0);
        let [plain, ext] = MEDIA_SIZES;
        let more = (layout.leaf_limit() - leaf.end()) / (ext - plain);
        let mut blocks = leaf.blocks;
        let first = random.below(blocks.len());
        for number in 0..more {
            let index = (first + number) % blocks.len();
            let code = blocks[index][0];
            blocks[index] = block::media(code, Some(random.bytes()));
        }
        let rules = Rules::any(random, leaf.chip, first_edition);
        Self::with_blocks(random, rules, &blocks)
    }

    /// A sheet with these whole blocks, and any values in the other fields that the writer accepts.
    fn with_blocks(random: &mut Random, rules: Rules, blocks: &[Vec<u8>]) -> Self {
        let connection = images::connection(random, rules);
        let chip = rules.chip;
        Self {
            id: random.bytes(),
            version: rules.version,
            address: images::address(random, 1),
            device: random.byte(),
            control: if chip == 21140 { random.byte() } else { 0 },
            maker: random.bytes(),
            ..Self::new(chip, connection, blocks)
        }
    }

    /// The bytes of a sheet in a form in which one field is damaged so that the writer refuses it with
    /// this number, one of [`sheet_damages`], in a layout and an edition.
    pub fn damaged(
        random: &mut Random,
        number: u8,
        form: Form,
        layout: Layout,
        first_edition: bool,
    ) -> Vec<u8> {
        loop {
            let mut sheet = Self::valid(random, layout, first_edition);
            if number == 24 {
                return sheet.missummed(random, form);
            }
            if sheet.damage(random, number, form, layout, first_edition) {
                return sheet.bytes(form);
            }
        }
    }

    /// The bytes of a sheet in a form with any kinds, sizes and bodies, and with sums that are mostly
    /// right.
    pub fn wild(random: &mut Random, form: Form) -> Vec<u8> {
        let chip = random.pick(&CHIPS);
        let first_edition = random.one_in(2);
        let mut sheet = Self::valid(random, Layout::PLAIN, first_edition);
        sheet.chip = chip;
        sheet.control = if random.one_in(8) { random.byte() } else { 0 };
        let body = |_| {
            let kind = match random.below(8) {
                0 => random.word(),
                1 => random.below(300) as u16,
                2 => random.below(10) as u16,
                _ if chip == 21041 => 257,
                _ => random.pick(&[256, 0, 1, 2, 3, 4, 5, 6, 7, 200]),
            };
            let size = match kind {
                257 => random.pick(&[1, 1, 1, 7]),
                256 => 4,
                _ if random.one_in(16) => random.below(256),
                _ => random.below(16),
            };
            let sparse = random.one_in(2);
            let mut body = random.row(size);
            if sparse {
                body.iter_mut().for_each(|byte| *byte &= 0x03);
            }
            (kind, body)
        };
        let blocks = (0..4).map(body).collect::<Vec<_>>();
        sheet.blocks = blocks[..random.below(5)].to_vec();
        if form.is_wide() && random.one_in(8) {
            let count = random.below(300);
            sheet.blocks = sheet.blocks.into_iter().cycle().take(count).collect();
        }
        let mut bytes = sheet.bytes(form);
        if random.one_in(16) {
            let length = random.below(bytes.len() + 1);
            bytes.truncate(length);
        }
        if random.one_in(32) {
            let length = random.below(600);
            bytes = random.row(length);
        }
        bytes
    }

    fn whole_blocks(&self) -> Vec<Vec<u8>> {
        let whole = |(kind, body): &(u16, Vec<u8>)| match *kind {
            0..COMPACT => block::extended(*kind as u8, body),
            _ => body.clone(),
        };
        self.blocks.iter().map(whole).collect()
    }

    /// Where the leaf ends that holds these blocks.
    fn leaf_end(&self) -> usize {
        let opening = |kind| if kind < COMPACT { 2 } else { 0 };
        let sizes = self.blocks.iter();
        let sizes = sizes.map(|(kind, body)| opening(*kind) + body.len());
        TIDY_LEAF + header_size(self.chip) + sizes.sum::<usize>()
    }
}

/// An image to write a sheet to: any bytes, and a right Magic Packet block where the layout has one.
pub fn output(random: &mut Random, layout: Layout) -> Image {
    let mut image = random.row(layout.size.into());
    if let Some(block) = MagicBlock::of_layout(random, layout) {
        block.lay(&mut image);
    }
    image
}

/// An output that no sheet of a form is written to, with what is stated of it: another length, another
/// stated size, or both, for the narrow form often the larger ROM as it should be.
pub fn unserved(random: &mut Random, form: Form, magic: bool) -> (Layout, Image) {
    if !form.is_wide() && random.one_in(3) {
        let layout = Layout::new(LARGE, magic);
        return (layout, output(random, layout));
    }
    loop {
        let sizes = [random.pick(&WRONG_SIZES), SMALL, LARGE];
        let (stated, length) = (random.pick(&sizes), random.pick(&sizes));
        let length = usize::from(length).min(2 * usize::from(LARGE));
        let (layout, image) = (Layout::new(stated, magic), random.row(length));
        if !form.serves(&image, layout) {
            return (layout, image);
        }
    }
}

/// Kind and body of a whole block.
fn body(block: &[u8], chip: u16) -> (u16, Vec<u8>) {
    let kind = images::damage::kind(block, chip);
    let opening = if kind < COMPACT { 2 } else { 0 };
    (kind, block[opening..].to_vec())
}

#[cfg(test)]
mod tests;
