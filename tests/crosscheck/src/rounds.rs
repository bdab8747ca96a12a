//! The inputs of each round, drawn from the seed: valid ones, damaged ones and any bytes, for every
//! call.

use crate::input::Input;
use library::levels::Older;
use second::calls::{self, Habits, Step};
use second::crc::lay_crcs;
use second::edition::{CODES, EDITIONS};
use second::images::{Card, DAMAGES, Image, MagicBlock, Sample, WRONG_SIZES, block, random_image};
use second::layout::{LAYOUTS, Layout, SIZES, is_of_size};
use second::random::Random;
use second::reader::{Arguments, NEWEST_LEVEL, read_all};
use second::sheet::{self, FORMS, Form, LONGEST_WIDE_SHEET, served};
use second::sheets::converted::convert_damages;
use second::sheets::tidy::{TIDY_DAMAGES, damaged, tidy, untidy};
use second::sheets::{Sheet, sheet_damages, unserved};
use second::walk::AUTOSENSE;

/// One round in so many walks until no look is left, at either size.
const SPENT_RARITY: u64 = 2_048;

/// More elements than any block count.
const ROOMY: usize = 450;

/// More bytes than any sheet of a tidy image.
const ROOMY_BUFFER: usize = LONGEST_WIDE_SHEET + 40;

/// Known levels and two that are none.
const LEVELS: [u8; 10] = [0, 1, 2, 3, 4, 5, 6, 7, 8, 255];

/// Of a longer table so many entries are viewed, its first and its last among them.
const MOST_VIEWS: usize = 12;

/// The rounds of a seed.
pub struct Rounds {
    seeds: Random,
    number: u64,
}

impl Rounds {
    pub fn new(seed: u64) -> Self {
        Self {
            seeds: Random::new(seed),
            number: 0,
        }
    }
}

impl Iterator for Rounds {
    type Item = Vec<Input>;

    fn next(&mut self) -> Option<Self::Item> {
        let random = &mut Random::new(self.seeds.bits());
        let mut inputs = checksums(random).to_vec();
        inputs.extend(blocks(random));
        inputs.extend(readings(random));
        inputs.push(Input::Walk(once(calls::steps(random))));
        for layout in LAYOUTS {
            inputs.extend(levels(random, layout));
        }
        for (form, layout) in served() {
            inputs.extend(writings(random, form, layout));
        }
        inputs.extend(editions(random));
        inputs.push(twins(random));
        for form in FORMS {
            inputs.extend(makings(random, form));
            inputs.extend(conversions(random, form));
        }
        if self.number.is_multiple_of(SPENT_RARITY) {
            inputs.extend(SIZES.map(|size| spent(random, size)));
        }
        self.number += 1;
        Some(inputs)
    }
}

fn once(steps: Vec<Step>) -> Vec<(Step, usize)> {
    steps.into_iter().map(|step| (step, 1)).collect()
}

/// Any bytes, few bits, or a right image, mostly of the stated size.
fn checksums(random: &mut Random) -> [Input; 4] {
    let layout = random.pick(&LAYOUTS);
    let length = usize::from(layout.size);
    let image = match random.below(3) {
        0 => random.row(length),
        1 => {
            let mut image = vec![0; length];
            for _ in 0..random.below(5) {
                image[random.below(length)] ^= 1 << random.below(8);
            }
            image
        }
        _ => Sample::valid_in(random, layout).card.image(),
    };
    let (image, size) = missized(random, 4, image);
    let [plain, magic] = [false, true].map(|magic| {
        let layout = Layout::new(size, magic);
        Input::SromCrc(image.clone(), layout)
    });
    [
        plain,
        magic,
        Input::IdCrc(image.clone(), size),
        Input::MagicCrc(image, size),
    ]
}

/// The image and its size, once in so many calls with another length, another size stated of it, or
/// both.
fn missized(random: &mut Random, rarity: usize, mut image: Image) -> (Image, u16) {
    let size = image.len() as u16;
    if !random.one_in(rarity) {
        return (image, size);
    }
    let [small, large] = SIZES;
    let mut other = || random.pick(&[0, small, large, small - 1, 2 * small, large + 1, size + 1]);
    let (length, stated) = (other(), other());
    match random.below(4) {
        0 => image.resize(length.into(), 0xFF),
        1 => return (image, stated),
        2 => return (image, random.pick(&WRONG_SIZES)),
        _ => {
            image.resize(length.into(), 0xFF);
            return (image, length);
        }
    }
    (image, size)
}

/// A Magic Packet block, right or damaged, behind any bytes, read and written again.
fn blocks(random: &mut Random) -> [Input; 2] {
    let layout = Layout::new(random.pick(&SIZES), true);
    let block = MagicBlock::any(random);
    let mut image = random.row(layout.size.into());
    block.lay(&mut image);
    if random.one_in(8) {
        change_byte(random, &mut image, layout);
    }
    let (image, size) = missized(random, 16, image);
    let other = MagicBlock::valid(random).magic;
    [
        Input::ReadMagic(image.clone(), size),
        Input::WriteMagic(other, image, size),
    ]
}

/// Readings of one image at two levels, now and then in another layout, into arrays that are roomy,
/// exact and near the block count, and views of every entry, or of some of a long table, of one past
/// and of one far past.
fn readings(random: &mut Random) -> Vec<Input> {
    let (image, mut arguments) = subject(random);
    if random.one_in(16) {
        arguments.layout = random.pick(&LAYOUTS);
    }
    let mut inputs = Vec::new();
    for level in [arguments.level, random.pick(&LEVELS)] {
        let arguments = Arguments { level, ..arguments };
        let count = calls::block_count(&image, arguments);
        let near = calls::near_lengths(random, count);
        for (kinds, offsets) in [(ROOMY, ROOMY), (count, count), near] {
            inputs.push(Input::Read {
                image: image.clone(),
                arguments,
                kinds,
                offsets,
            });
        }
        let (_, entries) = read_all(&image, arguments);
        let far = random.pick(&[1 << 8, 1 << 16, 1 << 32, usize::MAX]);
        for entry in viewed(random, entries.len()).into_iter().chain([far]) {
            inputs.push(Input::View {
                image: image.clone(),
                arguments,
                entry,
            });
        }
    }
    inputs
}

/// The entries of a table of so many that are viewed, and one past.
fn viewed(random: &mut Random, listed: usize) -> Vec<usize> {
    if listed <= MOST_VIEWS {
        return (0..=listed).collect();
    }
    let some = (3..MOST_VIEWS).map(|_| random.below(listed));
    some.chain([0, listed - 1, listed]).collect()
}

/// An image to read, and the arguments to read it with.
fn subject(random: &mut Random) -> (Vec<u8>, Arguments) {
    let mut sample = match random.below(8) {
        0..2 => {
            let mut sample = Sample::valid(random);
            sample.arguments.controller = random.below(1 + usize::from(sample.card.count)) as u8;
            sample.arguments.level = random.pick(&LEVELS);
            sample
        }
        2..5 => {
            let number = random.pick(&DAMAGES);
            Sample::damaged(random, number)
        }
        5 => {
            let (number, other) = (random.pick(&DAMAGES), random.pick(&DAMAGES));
            let mut sample = Sample::damaged(random, number);
            sample.damage(random, other);
            sample
        }
        6 => Sample::valid(random),
        _ => {
            let mut sample = Sample::wild(random);
            sample.arguments.controller = random.pick(&[0, 0, 0, 1]);
            sample
        }
    };
    let layout = sample.card.layout();
    if random.one_in(32) {
        sample = Sample::longest(random, layout);
    }
    let mut image = sample.card.image();
    match random.below(16) {
        0..3 => change_byte(random, &mut image, layout),
        3 => image = random_image(random, layout),
        _ => {}
    }
    (image, sample.arguments)
}

/// Changes one byte of an image, often by little, and mostly mends the CRCs, where the image has the
/// layout's size.
fn change_byte(random: &mut Random, image: &mut Image, layout: Layout) {
    if !is_of_size(image, layout.size) {
        return;
    }
    let offset = random.below(image.len());
    image[offset] = changed(random, image[offset]);
    if !random.one_in(4) {
        lay_crcs(image, layout);
    }
}

fn changed(random: &mut Random, byte: u8) -> u8 {
    let (flipped, any) = (byte ^ 1 << random.below(8), random.byte());
    random.pick(&[byte.wrapping_add(1), byte.wrapping_sub(1), flipped, any])
}

/// A list at each level below the newest, on one image of a layout; mostly with the removed entries
/// down in the looks that count.
fn levels(random: &mut Random, layout: Layout) -> Vec<Input> {
    let sample = calls::accepted(random, layout);
    let (image, arguments) = (sample.card.image(), sample.arguments);
    let blocks = calls::block_count(&image, arguments);
    let level = |level| {
        let habits = Habits::new(random, blocks);
        let length = 2 + random.below(16);
        let mut list = habits.list(random, length);
        if !random.one_in(8) {
            let older = Older::new(&image, arguments, level);
            list = older.expect("the newest reader accepts it").keep_down(list);
        }
        Input::Levels {
            image: image.clone(),
            arguments,
            level,
            list,
        }
    };
    (0..NEWEST_LEVEL).map(level).collect()
}

/// Document 02, request 12: a card of version 1, mostly under a code of one of its editions, read, loaded
/// and looked at, and, where it is tidy, made a sheet of, in each edition; and sheets of version 1 with
/// such a code.
fn editions(random: &mut Random) -> Vec<Input> {
    let layout = random.pick(&LAYOUTS);
    let first_edition = random.one_in(2);
    let mut sample = Sample::first_version(random, layout, first_edition);
    match random.below(8) {
        0 => {
            let number = random.pick(&DAMAGES);
            sample.damage(random, number);
        }
        1 => _ = sample.damage(random, 14),
        2 => _ = sample.damage(random, 38),
        3 => {}
        _ => {
            let code = random.pick(&CODES);
            let leaves = sample.card.leaves.iter_mut();
            leaves.for_each(|leaf| leaf.connection = code);
        }
    }
    if random.one_in(4) {
        sample.arguments.level = random.pick(&LEVELS);
    }
    let (image, form) = (sample.card.image(), Form::of(random.one_in(2)));
    let habits = Habits::new(random, calls::block_count(&image, sample.arguments));
    let mut inputs = Vec::new();
    for first_edition in EDITIONS {
        let arguments = sample.arguments.in_edition(first_edition);
        inputs.push(Input::Read {
            image: image.clone(),
            arguments,
            kinds: ROOMY,
            offsets: ROOMY,
        });
        let looks = habits.reports(random, 3).into_iter().map(Step::Look);
        let load = Step::Load(image.clone(), arguments);
        let steps = [load].into_iter().chain(looks).collect();
        inputs.push(Input::Walk(once(steps)));
        inputs.push(Input::MakeSheet {
            image: image.clone(),
            form,
            arguments,
            length: ROOMY_BUFFER,
        });
        let layout = random.pick(form.layouts());
        let mut sheet = Sheet::first_version(random, layout, first_edition);
        if random.one_in(2) {
            sheet.connection = random.pick(&CODES);
        }
        let mut output = random.row(layout.size.into());
        MagicBlock::valid(random).lay(&mut output);
        inputs.push(Input::Write {
            sheet: sheet.bytes(form),
            form,
            layout,
            first_edition,
            image: output,
        });
    }
    inputs
}

/// Looks at a card with an empty connection word.
fn twins(random: &mut Random) -> Input {
    let Sample { card, arguments } = calls::emptied(random);
    let image = card.image();
    let habits = Habits::new(random, calls::block_count(&image, arguments));
    let count = 1 + random.below(16);
    Input::Twins {
        image,
        arguments,
        reports: habits.reports(random, count),
    }
}

/// "23 looks at 65,535": a walk of two media that looks as often and some times more, is cleared
/// and looks again; under a fixed type whose medium neither has, 32 is answered for 0 and 23.
fn spent(random: &mut Random, size: u16) -> Input {
    let media = [0, 1].map(|code| block::sia(code, None, 0, 0));
    let layout = Layout::new(size, random.one_in(2));
    let mut card = Card::tidy(21143, AUTOSENSE, media.to_vec()).laid_out(random, layout);
    calls::connect(random, &mut card, false);
    let arguments = Arguments::newest(21143).laid_out(layout);
    let load = Step::Load(card.image(), arguments);
    let habits = Habits {
        blocks: 2,
        rarity: 2,
    };
    let mut look = |times| (Step::Look(habits.links(random)), times);
    let before = 1 + usize::from(u16::MAX) / 3;
    let mut steps = vec![(load.clone(), 1)];
    steps.extend([look(before), look(before), look(before)]);
    steps.extend([
        (load.clone(), 1),
        (Step::Clear, 1),
        look(1),
        (load, 1),
        look(2),
    ]);
    Input::Walk(steps)
}

/// One sheet of a form in a layout, to an image of mostly its size and with a Magic Packet block that is
/// mostly right; of a valid one the image and its sheet in buffers of a near length.
fn writings(random: &mut Random, form: Form, layout: Layout) -> Vec<Input> {
    let damages = sheet_damages(form);
    let first_edition = random.one_in(2);
    let sheet = match random.below(8) {
        0..2 => Sheet::valid(random, layout, first_edition).bytes(form),
        2..5 => {
            let number = random.pick(&damages);
            Sheet::damaged(random, number, form, layout, first_edition)
        }
        5 => {
            let mut sheet = Sheet::valid(random, layout, first_edition);
            let later = 2 + random.below(damages.len() - 2);
            let earlier = 1 + random.below(later - 1);
            for place in [later, earlier] {
                sheet.damage(random, damages[place], form, layout, first_edition);
            }
            sheet.bytes(form)
        }
        6 => {
            let mut sheet = Sheet::valid(random, layout, first_edition).bytes(form);
            let offset = random.below(sheet.len());
            sheet[offset] = changed(random, sheet[offset]);
            sheet
        }
        _ => Sheet::wild(random, form),
    };
    let block = match random.below(4) {
        0 => MagicBlock::any(random),
        _ => MagicBlock::valid(random),
    };
    let mut output = random.row(layout.size.into());
    block.lay(&mut output);
    let mut inputs = Vec::new();
    let mut image = output.clone();
    if sheet::write(&sheet, form, layout, first_edition, &mut image) == 0 {
        let exact = sheet.len();
        let newest = Arguments::newest(form.chip(&sheet)).laid_out(layout);
        for length in [exact - 1, exact, exact + 1, ROOMY_BUFFER] {
            inputs.push(Input::MakeSheet {
                image: image.clone(),
                form,
                arguments: newest.in_edition(first_edition),
                length,
            });
        }
    }
    let (layout, image) = match random.one_in(8) {
        true => unserved(random, form, layout.magic),
        false => (layout, output),
    };
    inputs.push(Input::Write {
        sheet,
        form,
        layout,
        first_edition,
        image,
    });
    inputs
}

/// The sheet in a form of an image that is damaged, not tidy, of any bytes, or of a size that the form
/// does not serve.
fn makings(random: &mut Random, form: Form) -> [Input; 2] {
    let (image, arguments) = match random.below(9) {
        0..3 => {
            let number = random.pick(&TIDY_DAMAGES);
            let sample = damaged(random, number, form);
            (sample.card.image(), sample.arguments)
        }
        3..5 => untidy(random, form),
        5..7 => {
            let sample = tidy(random, form);
            let mut image = sample.card.image();
            change_byte(random, &mut image, sample.arguments.layout);
            (image, sample.arguments)
        }
        7 => {
            let sample = Sample::valid(random);
            (sample.card.image(), sample.arguments)
        }
        _ => {
            let sample = Sample::wild(random);
            (sample.card.image(), sample.arguments)
        }
    };
    [ROOMY_BUFFER, random.below(ROOMY_BUFFER)].map(|length| Input::MakeSheet {
        image: image.clone(),
        form,
        arguments,
        length,
    })
}

/// A sheet that is read in a form and converted, in buffers of a near length where it can be: one that
/// each form can say, one that is refused, one to be written, and one with a byte changed.
fn conversions(random: &mut Random, form: Form) -> Vec<Input> {
    let mut sheet = match random.below(4) {
        0 => Sheet::convertible(random).bytes(form),
        1 | 2 => {
            let number = random.pick(convert_damages(form));
            Sheet::unconvertible(random, number, form)
        }
        _ => {
            let layout = random.pick(form.layouts());
            Sheet::valid(random, layout, false).bytes(form)
        }
    };
    if let (true, false) = (random.one_in(8), sheet.is_empty()) {
        let offset = random.below(sheet.len());
        sheet[offset] = changed(random, sheet[offset]);
    }
    let roomy = sheet.len() + 2;
    let exact = sheet::convert(&sheet, form, &mut vec![0; roomy]).length;
    let short = random.below(exact.max(1));
    let lengths = match exact {
        0 => vec![0, roomy],
        _ => vec![short, exact - 1, exact, exact + 1],
    };
    let conversion = |length| Input::Convert {
        sheet: sheet.clone(),
        form,
        length,
    };
    lengths.into_iter().map(conversion).collect()
}

#[cfg(test)]
mod tests {
    use super::*;

    /// The same seed gives the same inputs, however many rounds are drawn, and another seed others.
    #[test]
    fn same_seed() {
        let first: Vec<_> = Rounds::new(7).take(40).collect();
        let again: Vec<_> = Rounds::new(7).take(50).collect();
        assert_eq!(first, again[..40]);
        let other: Vec<_> = Rounds::new(8).take(40).collect();
        assert!(
            first
                .iter()
                .zip(&other)
                .all(|(first, other)| first != other)
        );
    }
}
