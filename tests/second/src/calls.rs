//! Lists of calls to walk with: loads, looks with reports of every sort, and clears.

use crate::edition::Rules;
use crate::images::damage::{code_byte, command_offset, kind};
use crate::images::{Card, DAMAGES, Leaf, Sample, WRONG_SIZES};
use crate::layout::{LARGE, LAYOUTS, Layout};
use crate::random::Random;
use crate::reader::{
    self, ACTIVE_INVALID, Arguments, DEFAULT, HIGHEST_COUNT, MEDIA_CODE, controller_offset,
    header_size,
};
use crate::walk::{Autosense, EMPTY_CONNECTION, Medium, Way, has_fixed_medium};
use std::fmt::{self, Display, Formatter};

/// A call of a list. A load takes the image and the arguments that go with the list.
#[derive(Debug, Clone, PartialEq, Eq)]
pub enum Call {
    Load,
    Look(Vec<u8>),
    Clear,
}

/// The call's name, and a report in hex.
impl Display for Call {
    fn fmt(&self, formatter: &mut Formatter) -> fmt::Result {
        match self {
            Self::Load => formatter.write_str("srom_load"),
            Self::Look(report) => {
                let report: String = report.iter().map(|byte| format!("{byte:02x}")).collect();
                write!(formatter, "srom_look [{report}]")
            }
            Self::Clear => formatter.write_str("srom_clear"),
        }
    }
}

/// A call of a walk with all that it takes.
#[derive(Debug, Clone, PartialEq, Eq)]
pub enum Step {
    Load(Vec<u8>, Arguments),
    Look(Vec<u8>),
    Clear,
}

/// How a list's calls are drawn.
#[derive(Debug, Clone, Copy)]
pub struct Habits {
    /// The blocks that right reports speak of.
    pub blocks: usize,
    /// One block in so many is up.
    pub rarity: usize,
}

impl Habits {
    pub fn new(random: &mut Random, blocks: usize) -> Self {
        let rarity = random.pick(&[1, 2, 2, 3, 4, blocks.max(1), 3 * blocks.max(1)]);
        Self { blocks, rarity }
    }

    /// Mostly a look, and more loads than clears, so that most looks are at a loaded walk.
    pub fn call(&self, random: &mut Random) -> Call {
        match random.below(24) {
            0..4 => Call::Load,
            4 => Call::Clear,
            _ => Call::Look(self.report(random)),
        }
    }

    /// A list that starts with a load more often than not.
    pub fn list(&self, random: &mut Random, length: usize) -> Vec<Call> {
        let mut list: Vec<_> = (0..length).map(|_| self.call(random)).collect();
        if let (Some(first), true) = (list.first_mut(), random.below(8) > 0) {
            *first = Call::Load;
        }
        list
    }

    /// A report: right and as long as the blocks, longer with any bytes after them, all down, too
    /// short, or with a byte that is neither 0 nor 1.
    pub fn report(&self, random: &mut Random) -> Vec<u8> {
        let mut report = self.links(random);
        match random.below(12) {
            0 => report.fill(0),
            1 | 2 => {
                let most = random.pick(&[1, 4, 300]);
                let more = 1 + random.below(most);
                report.extend(random.row(more));
            }
            3 => report.truncate(random.below(self.blocks + 1)),
            4 => {
                report.pop();
            }
            5 if self.blocks > 0 => {
                let any = random.below(self.blocks);
                let place = random.pick(&[0, self.blocks - 1, any]);
                report[place] = random.pick(&[2, 3, 0x80, 254, 255]);
            }
            _ => {}
        }
        report
    }

    /// So many reports.
    pub fn reports(&self, random: &mut Random, count: usize) -> Vec<Vec<u8>> {
        (0..count).map(|_| self.report(random)).collect()
    }

    /// A byte for each block: 1 link up, 0 down.
    pub fn links(&self, random: &mut Random) -> Vec<u8> {
        let link = |_| u8::from(random.one_in(self.rarity));
        (0..self.blocks).map(link).collect()
    }
}

/// Steps on two images, of which each load takes one, now and then not all of it: a walk that was
/// cleared and loaded again must have kept nothing.
pub fn steps(random: &mut Random) -> Vec<Step> {
    let samples = [sample(random), sample(random)];
    let images = samples.each_ref().map(|sample| sample.card.image());
    let mut walk = Autosense::default();
    let mut habits = Habits::new(random, 4);
    let length = 1 + random.below(32);
    let step = |place| {
        let index = random.pick(&[0, 0, 1]);
        let arguments = samples[index].arguments;
        let mut image = images[index].to_vec();
        if random.one_in(50) {
            let length = random.pick(&WRONG_SIZES[..WRONG_SIZES.len() - 1]);
            image.resize(length.into(), 0);
        }
        if let Some(blocks) = walk.blocks() {
            habits.blocks = blocks;
        }
        let call = match place {
            0 if !random.one_in(8) => Call::Load,
            _ => habits.call(random),
        };
        match call {
            Call::Load => {
                walk.load(&image, arguments);
                Step::Load(image, arguments)
            }
            Call::Look(report) => Step::Look(report),
            Call::Clear => {
                walk.clear();
                Step::Clear
            }
        }
    };
    (0..length).map(step).collect()
}

/// A sample that the newest reader of a layout accepts, autosensed or fixed, and marked in half of
/// the cases.
pub fn accepted(random: &mut Random, layout: Layout) -> Sample {
    let mut sample = Sample::valid_in(random, layout);
    connect_sample(random, &mut sample);
    if random.one_in(2) {
        mark(random, &mut sample.card);
    }
    sample
}

/// A sample of any layout and of a level that is mostly the newest, whose card is accepted and has
/// empty connection words.
pub fn emptied(random: &mut Random) -> Sample {
    let mut sample = at_some_level(random);
    for leaf in &mut sample.card.leaves {
        leaf.connection = EMPTY_CONNECTION;
    }
    sample
}

/// The same with fixed connection types.
pub fn fixed(random: &mut Random) -> Sample {
    let mut sample = at_some_level(random);
    fix(random, &mut sample.card, sample.arguments.first_edition);
    sample
}

/// An accepted sample of any layout and of a level that is mostly the newest, of version 1 and of edition
/// 1.00, whose connection types are this code of it; mostly a block has the medium.
pub fn of_code(random: &mut Random, first: u16) -> Sample {
    let layout = random.pick(&LAYOUTS);
    let mut sample = loop {
        let sample = Sample::first_version(random, layout, true);
        if sample.rules().permit(first) {
            break sample;
        }
    };
    for leaf in &mut sample.card.leaves {
        leaf.connection = first;
        if let Some(Medium::Code(code)) = Medium::of(first) {
            recode(random, leaf, code);
        }
    }
    mark(random, &mut sample.card);
    sample.arguments.level = level(random);
    sample
}

/// An accepted sample of any layout, and of a level that is mostly the newest.
fn at_some_level(random: &mut Random) -> Sample {
    let layout = random.pick(&LAYOUTS);
    let mut sample = accepted(random, layout);
    sample.arguments.level = level(random);
    sample
}

/// The arguments of a list's loads, and a card for them that is mostly accepted, autosensed or
/// fixed.
pub fn sample(random: &mut Random) -> Sample {
    let mut sample = match random.below(20) {
        0 | 1 => {
            let number = random.pick(&DAMAGES);
            return Sample::damaged(random, number);
        }
        2 => {
            let layout = random.pick(&LAYOUTS);
            Sample::longest(random, layout)
        }
        _ => Sample::valid(random),
    };
    connect_sample(random, &mut sample);
    mark(random, &mut sample.card);
    sample.arguments.level = level(random);
    sample
}

/// Any level, and mostly the newest.
fn level(random: &mut Random) -> u8 {
    random.pick(&[0, 1, 2, 3, 4, 5, 6, 7, 7, 7, 7, 7, 7])
}

/// Gives every leaf a connection type that is autosensed, or, in one card of three, a fixed one, of an
/// edition.
pub fn connect(random: &mut Random, card: &mut Card, first_edition: bool) {
    match random.below(3) {
        0 => fix(random, card, first_edition),
        _ => autosense(random, card),
    }
}

/// The same in the edition of a sample.
fn connect_sample(random: &mut Random, sample: &mut Sample) {
    connect(random, &mut sample.card, sample.arguments.first_edition);
}

/// Gives every leaf a connection type that is autosensed, which both editions have.
pub fn autosense(random: &mut Random, card: &mut Card) {
    for leaf in &mut card.leaves {
        leaf.connection = random.pick(&autosensed(leaf.chip));
    }
}

/// Gives every leaf a fixed connection type, mostly one whose medium a block of it has, and its media
/// code to others too.
fn fix(random: &mut Random, card: &mut Card, first_edition: bool) {
    let version = card.version;
    for leaf in &mut card.leaves {
        let is_fixed = |&connection: &u16| Way::of(connection) == Way::Fixed;
        let rules = Rules {
            chip: leaf.chip,
            version,
            first_edition,
        };
        let any: Vec<_> = rules.connections().filter(is_fixed).collect();
        let with_choice = with_choice(leaf, &any);
        let is_any = with_choice.is_empty() || random.one_in(6);
        leaf.connection = random.pick(if is_any { &any } else { &with_choice });
        if let Some(Medium::Code(code)) = Medium::of(leaf.connection) {
            recode(random, leaf, code);
        }
    }
}

/// Those of the connection types whose medium a block of a leaf has, for a leaf that the newest
/// reader accepts.
fn with_choice(leaf: &Leaf, connections: &[u16]) -> Vec<u16> {
    let card = Card::tidy(leaf.chip, EMPTY_CONNECTION, leaf.blocks.clone()).sized(LARGE);
    let newest = Arguments::newest(leaf.chip).laid_out(card.layout());
    let (_, blocks) = reader::leaf(&card.image(), newest, usize::MAX)
        .expect("the newest reader accepts the leaf");
    let mut types = connections.to_vec();
    types.retain(|&connection| blocks.iter().any(|it| has_fixed_medium(it, connection)));
    types
}

/// Gives a media code to some of the blocks that can have it. None of these stays the default, so
/// that there are no two.
fn recode(random: &mut Random, leaf: &mut Leaf, code: u8) {
    let chip = leaf.chip;
    for block in &mut leaf.blocks {
        let kind = kind(block, chip);
        let Some((offset, codes, _)) = code_byte(kind) else {
            continue;
        };
        if codes.contains(&code) && random.one_in(2) {
            block[offset] = block[offset] & !MEDIA_CODE | code;
            if let Some(command) = command_offset(kind) {
                block[command + 1] &= !((DEFAULT >> 8) as u8);
            }
        }
    }
}

/// The connection types of a chip that are autosensed.
fn autosensed(chip: u16) -> Vec<u16> {
    let is_autosensed = |&connection: &u16| Way::of(connection) != Way::Fixed;
    reader::connections(chip).filter(is_autosensed).collect()
}

/// Sets Active_Invalid in some of the media that have a command, with or without the default bit.
pub fn mark(random: &mut Random, card: &mut Card) {
    for leaf in &mut card.leaves {
        let chip = leaf.chip;
        for block in &mut leaf.blocks {
            let Some(offset) = command_offset(kind(block, chip)) else {
                continue;
            };
            let high_byte = &mut block[offset + 1];
            if random.one_in(3) {
                *high_byte |= (ACTIVE_INVALID >> 8) as u8;
            }
            if random.one_in(4) {
                *high_byte &= !((DEFAULT >> 8) as u8);
            }
        }
    }
}

/// How many blocks the leaf that the arguments name counts; 0 where they name none.
pub fn block_count(image: &[u8], arguments: Arguments) -> usize {
    let count = || {
        let controller = controller_offset(arguments.controller.into());
        let leaf = u16::from_le_bytes([*image.get(controller + 1)?, *image.get(controller + 2)?]);
        image.get(usize::from(leaf) + header_size(arguments.chip) - 1)
    };
    count().copied().unwrap_or(0).into()
}

/// Lengths of two arrays, each near a block count or more than any.
pub fn near_lengths(random: &mut Random, count: usize) -> (usize, usize) {
    let lengths = [
        count.saturating_sub(1),
        count,
        count + 1,
        count / 2,
        HIGHEST_COUNT,
    ];
    (random.pick(&lengths), random.pick(&lengths))
}

#[cfg(test)]
mod tests {
    use super::*;
    use crate::reader::{CHIPS, NEWEST_LEVEL};

    /// "From the state, before any from the input": the lists meet each refusal of load and look
    /// but 12 and 23 at either size, and mostly acceptance.
    #[test]
    fn every_refusal() {
        let mut random = Random::new(1);
        let (mut loads, mut looks) = ([[0; 39]; 2], [[0; 39]; 2]);
        for _ in 0..22_000 {
            let sample = sample(&mut random);
            let is_large = usize::from(sample.card.layout().size == LARGE);
            let (loads, looks) = (&mut loads[is_large], &mut looks[is_large]);
            let image = sample.card.image();
            let blocks = block_count(&image, sample.arguments);
            let habits = Habits::new(&mut random, blocks);
            let mut walk = Autosense::default();
            for call in habits.list(&mut random, 12) {
                match call {
                    Call::Load => loads[usize::from(walk.load(&image, sample.arguments))] += 1,
                    Call::Look(report) => looks[usize::from(walk.look(&report))] += 1,
                    Call::Clear => assert_eq!(walk.clear(), 0),
                }
            }
        }
        let met = |often: [usize; 39]| (0..39).filter(move |&number| often[number] > 10);
        for (loads, looks) in loads.into_iter().zip(looks) {
            let numbers = (0..=11).chain(13..=18).chain([21, 29, 30, 31, 38]);
            assert!(met(loads).eq(numbers), "{loads:?}");
            assert!(met(looks).eq([0, 19, 20, 32]), "{looks:?}");
            assert!(looks[0] > 40_000, "{looks:?}");
        }
    }

    /// Document 01's types that are autosensed, and by document 02, request 4, 0xFFFF: of each
    /// chip's row, those that are in it.
    #[test]
    fn autosensed_of_each_chip() {
        for chip in CHIPS {
            let other = if chip == 21041 { 0x0900 } else { 0x8800 };
            assert_eq!(autosensed(chip), [0x0800, other, 0xFFFF], "{chip}");
        }
    }

    /// "the newest choice is an entry that it lists, or there is none": fixed cards are accepted,
    /// and at each level below the newest that removes entries there are those whose choice it
    /// lists, whose choice it does not list, with another to select and without, and those without
    /// a choice.
    #[test]
    fn fixed_cards() {
        let mut random = Random::new(3);
        let mut met = [[0; 4]; 5];
        for _ in 0..5_000 {
            let sample = fixed(&mut random);
            let image = sample.card.image();
            let choice = |level| {
                let mut walk = Autosense::default();
                let arguments = Arguments {
                    level,
                    ..sample.arguments
                };
                assert_eq!(walk.load(&image, arguments), 0, "{sample:02x?}");
                let walk = walk.walk();
                assert_eq!(Way::of(walk.connection), Way::Fixed);
                walk.fixed_choice()
            };
            let newest = choice(NEWEST_LEVEL);
            for (level, met) in met.iter_mut().enumerate() {
                let older = choice(level as u8);
                met[match (newest, older) {
                    (None, _) => 0,
                    _ if newest == older => 1,
                    (_, None) => 2,
                    _ => 3,
                }] += 1;
            }
        }
        for (level, met) in met.into_iter().enumerate() {
            assert!(
                met[..3].iter().all(|&often| often > 100),
                "{level}: {met:?}"
            );
        }
        // A compact block and type 0 alone have media in common.
        assert!(met[0][3] > 20, "{met:?}");
    }

    /// "command bit 15 is Active_Invalid, 14 Default": marked cards hold media with either and
    /// both, and stay accepted.
    #[test]
    fn marked_cards() {
        let mut random = Random::new(2);
        let mut top_bits = [0; 4];
        for _ in 0..5_000 {
            let mut sample = Sample::valid(&mut random);
            connect_sample(&mut random, &mut sample);
            mark(&mut random, &mut sample.card);
            let number = Autosense::default().load(&sample.card.image(), sample.arguments);
            assert_eq!(number, 0, "{sample:02x?}");
            for leaf in &sample.card.leaves {
                for block in &leaf.blocks {
                    if let Some(offset) = command_offset(kind(block, leaf.chip)) {
                        top_bits[usize::from(block[offset + 1] >> 6)] += 1;
                    }
                }
            }
        }
        assert!(top_bits.iter().all(|&often| often > 500), "{top_bits:?}");
    }
}
