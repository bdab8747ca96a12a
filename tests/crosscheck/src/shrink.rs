//! The smallest input that still differs, found greedily: calls and blocks are dropped, layouts made
//! plain and of the smaller size, editions the later, sheets narrow, rows of bytes cut and bytes lowered, most often to 0, as
//! long as the difference stays.

use crate::input::Input;
use second::calls::{Call, Step, block_count};
use second::crc::{lay_crcs, lay_magic_crc};
use second::images::without_block;
use second::layout::{Layout, SMALL, is_of_size};
use second::reader::Arguments;
use second::sheet::{COUNT, Form, KINDS, narrow};
use std::iter;
use std::ops::Range;

/// Passes over all edits, and calls in all of them, after which the input is small enough.
const MOST_PASSES: usize = 64;
const MOST_CALLS: usize = 10_000_000;

/// A change that makes an input smaller. It does nothing where the input has no such place any
/// more.
#[derive(Debug, Clone, Copy)]
enum Edit {
    /// Drops so many calls of a list.
    Drop { first: usize, calls: usize },
    /// Takes the Magic Packet block from a layout, and mends the CRCs of the images or not.
    Plain { index: usize, mends: bool },
    /// States the smaller size, cuts the image to it, and mends its CRCs or not.
    Small { index: usize, mends: bool },
    /// Names the later edition.
    Later { index: usize },
    /// Takes a sheet for narrow, and narrows its bytes or not.
    Narrow { mends: bool },
    /// Lowers an array's length, an entry or how often a step is taken.
    Number { index: usize, lower: Lower },
    /// Drops so many blocks of an image or of a sheet.
    Block {
        row: usize,
        first: usize,
        blocks: usize,
    },
    /// Cuts a row of bytes.
    Cut { row: usize, lower: Lower },
    /// Lowers a byte, and mends the CRCs of its image.
    Byte {
        row: usize,
        offset: usize,
        lower: Lower,
        mends: bool,
    },
}

#[derive(Debug, Clone, Copy)]
enum Lower {
    Zero,
    Half,
    Less,
}

const LOWER: [Lower; 3] = [Lower::Zero, Lower::Half, Lower::Less];

impl Lower {
    fn of(self, number: usize) -> usize {
        match self {
            Self::Zero => 0,
            Self::Half => number / 2,
            Self::Less => number.saturating_sub(1),
        }
    }
}

/// A row of bytes that a call is lent.
struct Row<'a> {
    bytes: &'a mut Vec<u8>,
    sort: Sort,
}

#[derive(Clone, Copy, PartialEq, Eq)]
enum Sort {
    /// With the arguments that say whose leaf is read.
    Image(Arguments),
    /// An image of which the Magic Packet block alone is read, with its stated size.
    Block(u16),
    /// An image of which a CRC is asked, with its stated size.
    Bare(u16),
    Sheet(Form),
    Other,
}

impl<'a> Row<'a> {
    fn new(bytes: &'a mut Vec<u8>, sort: Sort) -> Self {
        Self { bytes, sort }
    }

    fn block_count(&self) -> usize {
        match self.sort {
            Sort::Image(arguments) => block_count(self.bytes, arguments),
            Sort::Sheet(form) => block_sizes(self.bytes, form).map_or(0, |sizes| sizes.len()),
            Sort::Block(_) | Sort::Bare(_) | Sort::Other => 0,
        }
    }

    /// The size that is stated of an image.
    fn stated_size(&self) -> Option<u16> {
        match self.sort {
            Sort::Image(arguments) => Some(arguments.layout.size),
            Sort::Block(size) | Sort::Bare(size) => Some(size),
            Sort::Sheet(_) | Sort::Other => None,
        }
    }

    /// Cuts an image of which the smaller size is stated to it.
    fn cut_to_small(&mut self) {
        if self.stated_size() == Some(SMALL) {
            self.bytes.truncate(SMALL.into());
        }
    }

    fn drop_block(&mut self, number: usize) {
        match self.sort {
            Sort::Image(arguments) => {
                if let Some(image) = without_block(self.bytes, arguments, number) {
                    self.bytes.copy_from_slice(&image);
                }
            }
            Sort::Sheet(form) => drop_from_sheet(self.bytes, form, number),
            Sort::Block(_) | Sort::Bare(_) | Sort::Other => {}
        }
    }

    /// Whether an image's CRCs can be mended.
    fn has_crcs(&self) -> bool {
        matches!(self.sort, Sort::Image(_) | Sort::Block(_))
    }

    fn mend(&mut self) {
        let is_whole = |size| is_of_size(self.bytes, size);
        if !self.stated_size().is_some_and(is_whole) {
            return;
        }
        match self.sort {
            Sort::Image(arguments) => lay_crcs(self.bytes, arguments.layout),
            Sort::Block(_) => lay_magic_crc(self.bytes),
            Sort::Bare(_) | Sort::Sheet(_) | Sort::Other => {}
        }
    }
}

/// The smallest input that was found to differ, by the first one that does.
pub fn shrink(mut input: Input, mut differs: impl FnMut(&Input) -> bool) -> Input {
    let mut calls = 0;
    for _ in 0..MOST_PASSES {
        let mut is_smaller = false;
        for edit in edits(&input) {
            let mut smaller = input.clone();
            edit.apply(&mut smaller);
            if smaller == input {
                continue;
            }
            calls += smaller.cost();
            if calls > MOST_CALLS {
                return input;
            }
            if differs(&smaller) {
                input = smaller;
                is_smaller = true;
            }
        }
        if !is_smaller {
            break;
        }
    }
    input
}

/// The edits of one pass, those that take most first.
fn edits(input: &Input) -> Vec<Edit> {
    let mut input = input.clone();
    let mut edits = Vec::new();
    let drops = runs(list_length(&input));
    edits.extend(drops.map(|(first, calls)| Edit::Drop { first, calls }));
    for (index, layout) in layouts(&mut input).iter().enumerate() {
        if layout.magic {
            edits.extend([true, false].map(|mends| Edit::Plain { index, mends }));
        }
    }
    for (index, size) in sizes(&mut input).into_iter().enumerate() {
        if *size != SMALL {
            edits.extend([true, false].map(|mends| Edit::Small { index, mends }));
        }
    }
    for (index, first_edition) in editions(&mut input).iter().enumerate() {
        if **first_edition {
            edits.push(Edit::Later { index });
        }
    }
    if let Some(Form::Wide) = written_form(&mut input) {
        edits.extend([true, false].map(|mends| Edit::Narrow { mends }));
    }
    let numbers = numbers(&mut input).len();
    for index in 0..numbers {
        edits.extend(LOWER.map(|lower| Edit::Number { index, lower }));
    }
    for (index, row) in rows(&mut input).iter().enumerate() {
        let drops = runs(row.block_count());
        edits.extend(drops.map(|(first, blocks)| Edit::Block {
            row: index,
            first,
            blocks,
        }));
        edits.extend(LOWER.map(|lower| Edit::Cut { row: index, lower }));
        let mendings: &[bool] = match row.has_crcs() {
            true => &[true, false],
            false => &[false],
        };
        for &mends in mendings {
            for offset in (0..row.bytes.len()).filter(|&offset| row.bytes[offset] > 0) {
                edits.extend(LOWER.map(|lower| Edit::Byte {
                    row: index,
                    offset,
                    lower,
                    mends,
                }));
            }
        }
    }
    edits
}

/// Where runs of a list of so many start, and how long they are: all of it, halves, and so on down to
/// single ones; from the last, so that the places before a dropped run stay.
fn runs(list: usize) -> impl Iterator<Item = (usize, usize)> {
    let lengths = iter::successors(Some(list), |length| Some(length / 2));
    let lengths = lengths.take_while(|&length| length > 0);
    lengths.flat_map(move |length| {
        let firsts = (0..list).step_by(length).rev();
        firsts.map(move |first| (first, length))
    })
}

impl Edit {
    fn apply(self, input: &mut Input) {
        match self {
            Self::Drop { first, calls } => drop_calls(input, first, calls),
            Self::Plain { index, mends } => {
                if let Some(layout) = layouts(input).get_mut(index) {
                    layout.magic = false;
                }
                if mends {
                    rows(input).iter_mut().for_each(Row::mend);
                }
            }
            Self::Small { index, mends } => {
                if let Some(size) = sizes(input).get_mut(index) {
                    **size = SMALL;
                }
                rows(input).iter_mut().for_each(Row::cut_to_small);
                if mends {
                    rows(input).iter_mut().for_each(Row::mend);
                }
            }
            Self::Later { index } => {
                if let Some(first_edition) = editions(input).get_mut(index) {
                    **first_edition = false;
                }
            }
            Self::Narrow { mends } => take_for_narrow(input, mends),
            Self::Number { index, lower } => {
                if let Some(number) = numbers(input).get_mut(index) {
                    **number = lower.of(**number);
                }
            }
            Self::Block { row, first, blocks } => {
                if let Some(row) = rows(input).get_mut(row) {
                    let dropped = (first..first + blocks).rev();
                    dropped.for_each(|number| row.drop_block(number));
                }
            }
            Self::Cut { row, lower } => {
                if let Some(Row { bytes, .. }) = rows(input).get_mut(row) {
                    bytes.truncate(lower.of(bytes.len()));
                }
            }
            Self::Byte {
                row,
                offset,
                lower,
                mends,
            } => {
                let mut rows = rows(input);
                let Some(row) = rows.get_mut(row) else {
                    return;
                };
                if let Some(byte) = row.bytes.get_mut(offset) {
                    *byte = lower.of((*byte).into()) as u8;
                }
                if mends {
                    row.mend();
                }
            }
        }
    }
}

fn list_length(input: &Input) -> usize {
    match input {
        Input::Walk(steps) => steps.len(),
        Input::Levels { list, .. } => list.len(),
        Input::Twins { reports, .. } => reports.len(),
        _ => 0,
    }
}

fn drop_calls(input: &mut Input, first: usize, calls: usize) {
    let length = list_length(input);
    let dropped = first.min(length)..(first + calls).min(length);
    match input {
        Input::Walk(steps) => drop(steps.drain(dropped)),
        Input::Levels { list, .. } => drop(list.drain(dropped)),
        Input::Twins { reports, .. } => drop(reports.drain(dropped)),
        _ => {}
    }
}

/// The form of a call that writes or makes a sheet.
fn written_form(input: &mut Input) -> Option<Form> {
    match input {
        Input::Write { form, .. } | Input::MakeSheet { form, .. } => Some(*form),
        _ => None,
    }
}

/// The same call for the narrow form, with its sheet narrowed or not.
fn take_for_narrow(input: &mut Input, mends: bool) {
    match input {
        Input::Write { sheet, form, .. } => {
            *form = Form::Narrow;
            let mut buffer = vec![0; sheet.len()];
            let made = narrow(sheet, &mut buffer);
            if mends && made.number == 0 {
                *sheet = buffer[..made.length].to_vec();
            }
        }
        Input::MakeSheet { form, .. } => *form = Form::Narrow,
        _ => {}
    }
}

/// Where the sizes of a sheet's blocks stand, and behind them the bodies; none where it is too short for
/// them.
fn block_sizes(sheet: &[u8], form: Form) -> Option<Range<usize>> {
    let head = form.place(KINDS);
    let (count, _) = form.sizes(sheet.get(..head)?);
    let sizes = head + 2 * count..head + 3 * count;
    (sizes.end <= sheet.len()).then_some(sizes)
}

/// Takes a block out of a sheet, its kind, its size and its body, where the sheet has room for all
/// three.
fn drop_from_sheet(sheet: &mut Vec<u8>, form: Form, number: usize) {
    let Some(sizes) = block_sizes(sheet, form).filter(|sizes| number < sizes.len()) else {
        return;
    };
    let (count, total) = form.sizes(sheet);
    let size = usize::from(sheet[sizes.start + number]);
    let before = sheet[sizes.start..sizes.start + number].iter();
    let body = sizes.end + before.map(|&size| usize::from(size)).sum::<usize>();
    if body + size > sheet.len() {
        return;
    }
    let kind = form.place(KINDS) + 2 * number;
    sheet.drain(body..body + size);
    sheet.remove(sizes.start + number);
    sheet.drain(kind..kind + 2);
    let width = form.width();
    for (place, size) in [(COUNT, count - 1), (form.total(), total.wrapping_sub(size))] {
        sheet[place..place + width].copy_from_slice(&size.to_le_bytes()[..width]);
    }
}

fn numbers(input: &mut Input) -> Vec<&mut usize> {
    match input {
        Input::Read { kinds, offsets, .. } => vec![kinds, offsets],
        Input::View { entry, .. } => vec![entry],
        Input::Walk(steps) => steps.iter_mut().map(|(_, times)| times).collect(),
        Input::MakeSheet { length, .. } | Input::Convert { length, .. } => vec![length],
        _ => Vec::new(),
    }
}

/// The arguments of the calls that take them.
fn all_arguments(input: &mut Input) -> Vec<&mut Arguments> {
    match input {
        Input::Read { arguments, .. }
        | Input::View { arguments, .. }
        | Input::Levels { arguments, .. }
        | Input::Twins { arguments, .. }
        | Input::MakeSheet { arguments, .. } => vec![arguments],
        Input::Walk(steps) => {
            let loads = steps.iter_mut().filter_map(|(step, _)| match step {
                Step::Load(_, arguments) => Some(arguments),
                Step::Look(_) | Step::Clear => None,
            });
            loads.collect()
        }
        _ => Vec::new(),
    }
}

fn layouts(input: &mut Input) -> Vec<&mut Layout> {
    match input {
        Input::SromCrc(_, layout) | Input::Write { layout, .. } => vec![layout],
        _ => all_arguments(input)
            .into_iter()
            .map(|it| &mut it.layout)
            .collect(),
    }
}

/// The editions that are named.
fn editions(input: &mut Input) -> Vec<&mut bool> {
    match input {
        Input::Write { first_edition, .. } => vec![first_edition],
        _ => all_arguments(input)
            .into_iter()
            .map(|it| &mut it.first_edition)
            .collect(),
    }
}

/// The sizes that are stated, in layouts or alone.
fn sizes(input: &mut Input) -> Vec<&mut u16> {
    match input {
        Input::IdCrc(_, size)
        | Input::MagicCrc(_, size)
        | Input::ReadMagic(_, size)
        | Input::WriteMagic(_, _, size) => vec![size],
        _ => layouts(input).into_iter().map(|it| &mut it.size).collect(),
    }
}

fn rows(input: &mut Input) -> Vec<Row<'_>> {
    match input {
        Input::SromCrc(image, Layout { size, .. })
        | Input::IdCrc(image, size)
        | Input::MagicCrc(image, size) => vec![Row::new(image, Sort::Bare(*size))],
        Input::ReadMagic(image, size) | Input::WriteMagic(_, image, size) => {
            vec![Row::new(image, Sort::Block(*size))]
        }
        Input::Read {
            image, arguments, ..
        }
        | Input::View {
            image, arguments, ..
        }
        | Input::MakeSheet {
            image, arguments, ..
        } => vec![Row::new(image, Sort::Image(*arguments))],
        Input::Write {
            sheet,
            form,
            layout,
            image,
            ..
        } => {
            let block = Sort::Block(layout.size);
            vec![Row::new(sheet, Sort::Sheet(*form)), Row::new(image, block)]
        }
        Input::Convert { sheet, form, .. } => vec![Row::new(sheet, Sort::Sheet(*form))],
        Input::Walk(steps) => {
            let rows = steps.iter_mut().filter_map(|(step, _)| match step {
                Step::Load(image, arguments) => Some(Row::new(image, Sort::Image(*arguments))),
                Step::Look(report) => Some(Row::new(report, Sort::Other)),
                Step::Clear => None,
            });
            rows.collect()
        }
        Input::Levels {
            image,
            arguments,
            list,
            ..
        } => {
            let reports = list.iter_mut().filter_map(|call| match call {
                Call::Look(report) => Some(Row::new(report, Sort::Other)),
                _ => None,
            });
            let image = Row::new(image, Sort::Image(*arguments));
            [image].into_iter().chain(reports).collect()
        }
        Input::Twins {
            image,
            arguments,
            reports,
        } => {
            let reports = reports.iter_mut().map(|it| Row::new(it, Sort::Other));
            let image = Row::new(image, Sort::Image(*arguments));
            [image].into_iter().chain(reports).collect()
        }
    }
}

#[cfg(test)]
mod tests {
    use super::*;
    use crate::rounds::Rounds;
    use second::images::{Card, MagicBlock, Sample, block};
    use second::layout::{LARGE, LAYOUTS, SIZES};
    use second::magic::read_magic;
    use second::random::Random;
    use second::reader::read_all;
    use second::sheet::{convert, served, write};
    use second::sheets::{Sheet, output};
    use second::walk::{Autosense, Way};

    const ARGUMENTS: Arguments = Arguments::newest(21143);

    /// A difference at one byte above 6: that byte alone is left, and it is 7.
    #[test]
    fn one_byte() {
        for layout in LAYOUTS {
            let input = Input::SromCrc(Random::new(1).row(layout.size.into()), layout);
            let is_high = |bytes: &[u8]| bytes.get(40).is_some_and(|&byte| byte > 6);
            let smallest = shrink(input, |input| match input {
                Input::SromCrc(bytes, _) => is_high(bytes),
                _ => false,
            });
            let mut expected = vec![0; 41];
            expected[40] = 7;
            assert_eq!(smallest, Input::SromCrc(expected, Layout::PLAIN));
        }
    }

    /// A difference at a right Magic Packet block: its CRC is mended, so that all else becomes 0. The
    /// size becomes the smaller one, unless the difference needs the larger.
    #[test]
    fn mended_block() {
        for (needed, left) in [(None, SMALL), (Some(SMALL), SMALL), (Some(LARGE), LARGE)] {
            let is_right = |input: &Input| match input {
                Input::ReadMagic(image, size) => {
                    read_magic(image, *size).number == 0 && needed.is_none_or(|it| it == *size)
                }
                _ => false,
            };
            let size = needed.unwrap_or(LARGE);
            let mut image = Random::new(4).row(size.into());
            MagicBlock::valid(&mut Random::new(5)).lay(&mut image);
            let smallest = shrink(Input::ReadMagic(image, size), is_right);
            let mut expected = vec![0; left.into()];
            lay_magic_crc(&mut expected);
            assert_eq!(smallest, Input::ReadMagic(expected, left));
        }
    }

    /// A difference at accepted images of one layout stays in that layout; one at any accepted image
    /// becomes plain and, where its leaf has a place there, of the smaller size.
    #[test]
    fn plain_layout() {
        let layout_of = |input: &Input| match input {
            Input::View {
                image, arguments, ..
            } if read_all(image, *arguments).0.number == 0 => Some(arguments.layout),
            _ => None,
        };
        let blocks = vec![block::sia(0, None, 1, 2); 2];
        let card = Card::tidy(21143, 0x0800, blocks);
        for layout in LAYOUTS {
            let card = card.clone().laid_out(&mut Random::new(6), layout);
            let input = Input::View {
                image: card.image(),
                arguments: ARGUMENTS.laid_out(layout),
                entry: 9,
            };
            let smallest = shrink(input.clone(), |input| layout_of(input).is_some());
            assert_eq!(layout_of(&smallest), Some(Layout::PLAIN));
            let smallest = shrink(input, |input| layout_of(input) == Some(layout));
            assert_eq!(layout_of(&smallest), Some(layout));
            let Input::View { image, .. } = smallest else {
                panic!("another call: {smallest:?}");
            };
            assert_eq!(image.len(), layout.size.into());
        }
    }

    /// A difference at images that one edition alone accepts stays in it; one at any accepted image is
    /// named the later.
    #[test]
    fn later_edition() {
        let number = |input: &Input, first_edition| match input {
            Input::View {
                image, arguments, ..
            } => {
                read_all(image, arguments.in_edition(first_edition))
                    .0
                    .number
            }
            _ => panic!("another call"),
        };
        let edition = |input: &Input| match input {
            Input::View { arguments, .. } => arguments.first_edition,
            _ => panic!("another call"),
        };
        let mut random = Random::new(9);
        for layout in LAYOUTS {
            let sample = Sample::first_version(&mut random, layout, true);
            let mut card = sample.card;
            card.leaves
                .iter_mut()
                .for_each(|leaf| leaf.connection = 0x0200);
            let input = Input::View {
                image: card.image(),
                arguments: sample.arguments,
                entry: 0,
            };
            let alone = |input: &Input| number(input, true) == 0 && number(input, false) == 11;
            let is_first = |input: &Input| edition(input) && alone(input);
            assert!(edition(&shrink(input.clone(), is_first)));
            let smallest = shrink(input, |input| number(input, edition(input)) == 0);
            assert!(!edition(&smallest), "{smallest:02x?}");
        }
    }

    /// A difference at a stated size that no ROM has, whatever the image: nothing of it is left.
    #[test]
    fn stated_size() {
        for size in SIZES {
            let sample = Sample::valid_in(&mut Random::new(7), Layout::new(size, true));
            let input = Input::Read {
                image: sample.card.image(),
                arguments: sample.arguments.laid_out(Layout::new(256, true)),
                kinds: 9,
                offsets: 9,
            };
            let is_other = |input: &Input| match input {
                Input::Read { arguments, .. } => arguments.layout.size == 256,
                _ => false,
            };
            let Input::Read {
                image, arguments, ..
            } = shrink(input, is_other)
            else {
                panic!("another call");
            };
            assert_eq!(arguments.layout, Layout::new(256, false));
            assert!(image.is_empty());
        }
    }

    /// A difference at a look with two links up after a load: both calls are left, and the report
    /// has two bytes.
    #[test]
    fn two_calls() {
        let mut steps = vec![(Step::Clear, 3)];
        for round in 0..20 {
            steps.push((Step::Load(vec![round; 128], ARGUMENTS), 1));
            steps.push((Step::Look(vec![round % 2; 30]), 1_000));
        }
        let differs = |steps: &[(Step, usize)]| {
            let load = steps
                .iter()
                .position(|(step, times)| matches!(step, Step::Load(..)) && *times > 0);
            let later = load.map_or(&[][..], |load| &steps[load..]);
            later.iter().any(|(step, times)| match step {
                Step::Look(report) => report.starts_with(&[1, 1]) && *times > 4,
                _ => false,
            })
        };
        let smallest = shrink(Input::Walk(steps), |input| match input {
            Input::Walk(steps) => differs(steps),
            _ => false,
        });
        let expected = vec![
            (Step::Load(Vec::new(), ARGUMENTS), 1),
            (Step::Look(vec![1, 1]), 5),
        ];
        assert_eq!(smallest, Input::Walk(expected));
    }

    /// A difference between two levels under a fixed type: a load, a look and the newest choice are
    /// left.
    #[test]
    fn two_levels() {
        let differ = |input: &Input| {
            let Input::Levels {
                image,
                arguments,
                level,
                list,
            } = input
            else {
                return false;
            };
            let [newest, older] = [arguments.level, *level].map(|level| {
                let arguments = Arguments {
                    level,
                    ..*arguments
                };
                let mut walk = Autosense::default();
                for call in list {
                    match call {
                        Call::Load => walk.load(image, arguments),
                        Call::Look(report) => walk.look(report),
                        Call::Clear => walk.clear(),
                    };
                }
                walk.walk()
            });
            Way::of(newest.connection) == Way::Fixed && newest.selected != older.selected
        };
        for input in Rounds::new(2).flatten().filter(differ).take(10) {
            let smallest = shrink(input, differ);
            let Input::Levels {
                image,
                arguments,
                list,
                ..
            } = smallest
            else {
                panic!("another call: {smallest:?}");
            };
            assert_eq!(list, [Call::Load, Call::Look(vec![0])]);
            assert_eq!(read_all(&image, arguments).0.blocks, 1);
        }
    }

    /// A difference at accepted images alone: the CRCs are mended, so that what is not needed
    /// becomes 0 all the same.
    #[test]
    fn mended_image() {
        let accepts_two = |input: &Input| match input {
            Input::Read {
                image, arguments, ..
            } => read_all(image, *arguments).0.listed > 1,
            _ => false,
        };
        let drawn = Rounds::new(1).flatten().filter(accepts_two).take(20);
        for input in drawn {
            let smallest = shrink(input, accepts_two);
            let Input::Read {
                image,
                arguments,
                kinds,
                offsets,
            } = smallest
            else {
                panic!("another call: {smallest:?}");
            };
            assert_eq!((kinds, offsets), (0, 0));
            let (answer, _) = read_all(&image, arguments);
            assert_eq!((answer.listed, answer.blocks), (2, 2));
            assert_eq!(image[..16], [0; 16]);
            assert_eq!(image[20..26], [0; 6], "{image:02x?}");
        }
    }

    /// A difference at accepted sheets with a block: one block is left, in the narrow form.
    #[test]
    fn dropped_blocks() {
        let mut random = Random::new(2);
        for (form, layout) in served() {
            let drawn = iter::repeat_with(|| Input::Write {
                sheet: Sheet::valid(&mut random, layout, true).bytes(form),
                form,
                layout,
                first_edition: true,
                image: output(&mut random, layout),
            });
            let has_block = |input: &Input| match input {
                Input::Write {
                    sheet,
                    form,
                    layout,
                    first_edition,
                    image,
                } => {
                    let mut image = image.clone();
                    let number = write(sheet, *form, *layout, *first_edition, &mut image);
                    number == 0 && sheet[COUNT] > 0
                }
                _ => false,
            };
            for input in drawn.filter(has_block).take(8) {
                let Input::Write {
                    sheet,
                    form,
                    layout,
                    first_edition,
                    image,
                } = shrink(input, has_block)
                else {
                    panic!("another call");
                };
                assert_eq!((sheet[COUNT], form), (1, Form::Narrow), "{sheet:02x?}");
                assert_eq!((layout, image), (Layout::PLAIN, vec![0; SMALL.into()]));
                // A code of 1.00 is lowered to one that both have.
                assert!(!first_edition, "{sheet:02x?}");
            }
        }
    }

    /// A difference at sheets that cannot be narrowed: no block is left that can be left out, and only
    /// sizes are not 0.
    #[test]
    fn too_large_sheets() {
        let mut random = Random::new(8);
        let is_too_large = |input: &Input| match input {
            Input::Convert { sheet, form, .. } => convert(sheet, *form, &mut []).number == 33,
            _ => false,
        };
        for _ in 0..20 {
            let input = Input::Convert {
                sheet: Sheet::too_large(&mut random).bytes(Form::Wide),
                form: Form::Wide,
                length: 99,
            };
            let Input::Convert {
                sheet,
                form,
                length,
            } = shrink(input, is_too_large)
            else {
                panic!("another call");
            };
            assert_eq!((form, length), (Form::Wide, 0));
            let (count, total) = form.sizes(&sheet);
            let is_least = count == 256 || (256..=510).contains(&total);
            assert!(is_least, "{count} blocks and {total} bytes");
            let sizes = block_sizes(&sheet, form).expect("it has them");
            let is_zero = |bytes: &[u8]| bytes.iter().all(|&byte| byte == 0);
            assert!(is_zero(&sheet[4..sizes.start]) && is_zero(&sheet[sizes.end..]));
        }
    }

    /// It comes to an end where every input differs, with nothing left.
    #[test]
    fn everything_differs() {
        for input in Rounds::new(3).take(3).flatten() {
            let smallest = shrink(input, |_| true);
            assert_eq!(list_length(&smallest), 0);
            let mut left = smallest.clone();
            assert!(rows(&mut left).iter().all(|row| row.bytes.is_empty()));
        }
    }
}
