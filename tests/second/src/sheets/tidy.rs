//! Tidy cards to make sheets of, damaged ones, and images that are not tidy.

use super::Sheet;
use crate::images::{Card, Image, MagicBlock, Sample, TIDY_LEAF};
use crate::random::Random;
use crate::reader::Arguments;
use crate::sheet::Form;

/// The refusals of [`crate::images::DAMAGES`] that the maker can answer: those of the controller,
/// the level and the address are not for controller 0.
pub const TIDY_DAMAGES: [u8; 18] = [
    1, 2, 3, 4, 29, 30, 5, 7, 38, 10, 11, 13, 14, 15, 16, 17, 18, 31,
];

/// A tidy card of any chip and edition and of any layout that a form serves, and the newest reader of
/// it.
pub fn tidy(random: &mut Random, form: Form) -> Sample {
    let layout = random.pick(form.layouts());
    let first_edition = random.one_in(2);
    let sheet = Sheet::valid(random, layout, first_edition);
    let newest = Arguments::newest(sheet.chip).laid_out(layout);
    Sample {
        card: sheet.card(layout.size, MagicBlock::of_layout(random, layout)),
        arguments: newest.in_edition(first_edition),
    }
}

/// A tidy card with one field damaged so that the maker of a form refuses its image with this number,
/// one of [`TIDY_DAMAGES`].
pub fn damaged(random: &mut Random, number: u8, form: Form) -> Sample {
    loop {
        let mut sample = tidy(random, form);
        if sample.damage(random, number) {
            return sample;
        }
    }
}

/// An image of a layout that a form serves, which the newest reader with these arguments accepts, and
/// which is mostly not tidy.
pub fn untidy(random: &mut Random, form: Form) -> (Image, Arguments) {
    let Sample {
        mut card,
        arguments,
    } = tidy(random, form);
    let leaf = &mut card.leaves[0];
    let (end, limit) = (leaf.end(), arguments.layout.leaf_limit());
    let places = limit - end;
    match random.below(4) {
        0 if places > 0 => {
            let any = end + random.below(places);
            let offset = random.pick(&[end, any, limit - 1]);
            card.private[offset] = 1 << random.below(8);
        }
        1 if places > 0 => {
            leaf.offset = TIDY_LEAF + 1 + random.below(places);
            card.controllers[0].leaf_offset = leaf.offset as u16;
        }
        2 => card.private[TIDY_LEAF..].fill(random.byte()),
        _ => {
            let Arguments { chip, layout, .. } = arguments;
            card = Card::valid(random, chip, layout, arguments.first_edition);
        }
    }
    (card.image(), arguments)
}
