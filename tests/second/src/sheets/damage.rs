//! Damage to one field of a valid sheet, for each refusal that a field can cause.

use super::converted::over_a_byte;
use super::{Sheet, body};
use crate::edition::{FIRST_VERSION, Rules, VERSIONS};
use crate::images::damage::{between, chip, damage_leaf, other_than, wrong_connection};
use crate::images::{Leaf, TIDY_LEAF, block};
use crate::layout::Layout;
use crate::random::Random;
use crate::reader::{COMPACT, EXT, EXTENDED, HIGHEST_COUNT, MEDIA_21041, NEWEST_LEVEL};
use crate::sheet::{COUNT, Form, KINDS, LONGEST_BODY, MEDIA_SIZES};

/// The largest body size, which is a byte in either form.
pub(super) const LARGEST_BODY: usize = 255;

impl Sheet {
    /// Damages one field so that the writer of a form, a layout and an edition refuses the sheet with
    /// this number and none before it; false where the sheet has no such field or not enough places for
    /// it, with the sheet then of no use.
    pub fn damage(
        &mut self,
        random: &mut Random,
        number: u8,
        form: Form,
        layout: Layout,
        first_edition: bool,
    ) -> bool {
        let rules = self.rules(first_edition);
        let limit = layout.leaf_limit();
        let is_damaged = match number {
            33 => {
                self.crowd(random);
                Some(())
            }
            2 => {
                self.version = other_than(random, &VERSIONS);
                Some(())
            }
            7 => {
                self.chip = chip(random);
                Some(())
            }
            38 => {
                self.version = FIRST_VERSION;
                self.rules(first_edition).lack_chip().then_some(())
            }
            11 => {
                self.connection = wrong_connection(random, rules);
                Some(())
            }
            25 => self.misform(random, form),
            26 => self.overflow(random, limit),
            14 => self.forbid(random, rules),
            15..=18 | 31 => self.damage_blocks(random, number, rules, limit),
            _ => None,
        };
        let is_short = [33, 7, 25].contains(&number) || self.leaf_end() <= limit;
        let is_said = self.blocks.len() <= form.most() && self.body_bytes() <= form.most();
        let is_crowded = self.blocks.len() > HIGHEST_COUNT;
        is_damaged.is_some()
            && is_said
            && is_short != (number == 26)
            && is_crowded == (number == 33)
    }

    /// The rules by which the writer of an edition judges the sheet.
    fn rules(&self, first_edition: bool) -> Rules {
        Rules {
            chip: self.chip,
            version: self.version,
            first_edition,
        }
    }

    /// Cause 33: more blocks than a leaf's count can name.
    fn crowd(&mut self, random: &mut Random) {
        let count = over_a_byte(random);
        let smallest = match self.chip {
            21041 => (MEDIA_21041, vec![0]),
            _ => (block::FIRST_UNKNOWN.into(), vec![]),
        };
        self.blocks.resize(count.max(self.blocks.len()), smallest);
    }

    /// The sheet's bytes in a form with cause 24: a length that N and T do not give, or sizes that do
    /// not sum up to T.
    pub(super) fn missummed(&self, random: &mut Random, form: Form) -> Vec<u8> {
        let mut bytes = self.bytes(form);
        let flaw = 1 + random.below(0xFF) as u8;
        let (length, blocks) = (bytes.len(), self.blocks.len());
        let (width, more) = (form.width(), self.body_bytes() + 1);
        match random.below(7) {
            0 => bytes[COUNT + random.below(width)] ^= flaw,
            1 => bytes[form.total() + random.below(width)] ^= flaw,
            2 => bytes.truncate(random.below(length)),
            3 => {
                let most = random.pick(&[1, 3, 300]);
                let more = 1 + random.below(most);
                bytes.extend(random.row(more));
            }
            // Lengths that agree with each other, and not with the sizes.
            4 if more <= form.most() => {
                bytes[form.total()..][..width].copy_from_slice(&more.to_le_bytes()[..width]);
                bytes.push(random.byte());
            }
            5 if blocks > 0 => {
                bytes[form.place(KINDS) + 2 * blocks + random.below(blocks)] ^= flaw;
            }
            5 => bytes.clear(),
            _ => {
                bytes.pop();
            }
        }
        bytes
    }

    /// Cause 25: a kind that is none or of the other family, a body that does not fit its kind, or
    /// a control byte that the chip does not have.
    fn misform(&mut self, random: &mut Random, form: Form) -> Option<()> {
        let is_21041 = self.chip == 21041;
        let cause = random.below(7);
        if cause == 0 {
            self.control = 1 + random.below(0xFF) as u8;
            return (self.chip != 21140).then_some(());
        }
        let left = form.most().checked_sub(self.body_bytes())?;
        let index = random.below(self.blocks.len().max(1));
        let (kind, body) = self.blocks.get_mut(index)?;
        match cause {
            1 => {
                let any = between(random, 258, 0xFFFF) as u16;
                *kind = random.pick(&[258, 259, 0x0200, 0xFFFF, any]);
            }
            2 if is_21041 => *kind = random.below(257) as u16,
            2 => *kind = MEDIA_21041,
            3 if *kind < COMPACT => {
                let least = LONGEST_BODY + 1 - body.len();
                let left = left.min(LARGEST_BODY - body.len());
                let any = between(random, least, left.max(least));
                let more = random.pick(&[least, any]);
                body.extend(random.row(more));
            }
            4 if !is_21041 => {
                let sizes = (0..=8).filter(|&size| size != 4).collect::<Vec<_>>();
                *kind = COMPACT;
                body.resize(random.pick(&sizes), 0);
            }
            5 if !is_21041 => {
                *kind = COMPACT;
                body.resize(4, 0);
                body[0] |= EXTENDED;
            }
            6 if is_21041 => match random.below(3) {
                0 => body[0] ^= EXT,
                1 => body.clear(),
                _ => {
                    let wrong = (0..=9).filter(|size| ![1, 7].contains(size));
                    body.resize(random.pick(&wrong.collect::<Vec<_>>()), 0);
                }
            },
            _ => return None,
        }
        Some(())
    }

    /// Cause 26: blocks at the end that pass the limit, often by one byte.
    fn overflow(&mut self, random: &mut Random, limit: usize) -> Option<()> {
        let least = (limit + 1).saturating_sub(self.leaf_end());
        let size = least
            + if random.one_in(3) {
                random.below(20)
            } else {
                0
            };
        let mut left = size;
        while left > 0 {
            let (kind, body) = match self.chip {
                21041 => {
                    let registers = (left >= MEDIA_SIZES[1]).then(|| random.bytes());
                    (MEDIA_21041, block::media(0, registers))
                }
                _ => {
                    let length = left.saturating_sub(2).min(LONGEST_BODY);
                    let kind = random.pick(&[block::FIRST_UNKNOWN, 77, 255]);
                    (kind.into(), random.row(length))
                }
            };
            let opening = if kind < COMPACT { 2 } else { 0 };
            left = left.saturating_sub(opening + body.len());
            self.blocks.push((kind, body));
        }
        Some(())
    }

    /// Cause 14: a known type that the rules do not permit, any type where there is none, or a compact
    /// block where there is none.
    fn forbid(&mut self, random: &mut Random, rules: Rules) -> Option<()> {
        let kinds = rules.kinds();
        let known = (0..u16::from(NEWEST_LEVEL)).chain([COMPACT]);
        let mut forbidden: Vec<_> = known.filter(|kind| !kinds.contains(kind)).collect();
        if !rules.have_extended_blocks() {
            forbidden.push(random.byte().into());
        }
        if self.chip == 21041 {
            return None;
        }
        let index = random.below(self.blocks.len().max(1));
        let (kind, body) = self.blocks.get_mut(index)?;
        *kind = random.pick(&forbidden);
        if *kind == COMPACT {
            body.resize(4, 0);
            body[0] &= !EXTENDED;
        }
        Some(())
    }

    /// Causes 15 to 18 and 31, as in the leaf of an image; a block whose length byte is changed gets as
    /// many bytes.
    fn damage_blocks(
        &mut self,
        random: &mut Random,
        number: u8,
        rules: Rules,
        limit: usize,
    ) -> Option<()> {
        let blocks = self.whole_blocks();
        let mut leaf = Leaf::new(TIDY_LEAF, self.chip, self.connection, blocks);
        let places = TIDY_LEAF..limit;
        damage_leaf(&mut leaf, random, number, NEWEST_LEVEL, rules, places)?;
        for block in &mut leaf.blocks {
            if self.chip != 21041 && block[0] & EXTENDED != 0 {
                block.resize(1 + usize::from(block[0] & !EXTENDED), 0);
            }
        }
        self.blocks = leaf
            .blocks
            .iter()
            .map(|block| body(block, self.chip))
            .collect();
        Some(())
    }
}
