//! Reading and the block view of the library against the second implementation.

use library::compare::{self, agreed};
use library::editions::{Editions, by_layout, titled, titles_by_layout};
use library::families::{Family, Numbers, numbers_table, seen_rows, show, tallies, total_row};
use second::calls::{block_count, near_lengths};
use second::crc::lay_crcs;
use second::edition::{CODES, EDITIONS, FIRST_VERSION, Rules};
use second::images::{Card, DAMAGES, Sample, WRONG_SIZES, random_image};
use second::layout::{LAYOUTS, Layout, SIZES};
use second::random::Random;
use second::reader::{self, Arguments, CHIPS, NEWEST_LEVEL};

const LEAST_CALLS: usize = 1_000_000;

/// The numbers that reading can answer.
const READ_NUMBERS: [usize; 23] = [
    0, 1, 2, 3, 4, 29, 30, 5, 6, 7, 38, 8, 9, 10, 11, 12, 13, 14, 15, 16, 17, 18, 31,
];

/// More elements than any block count, so that reading is never refused for the arrays.
const ROOMY: usize = 300;

/// Known levels and two that are none.
const LEVELS: [u8; 10] = [0, 1, 2, 3, 4, 5, 6, 7, 8, 255];

/// Of a longer table so many entries are viewed, its first and its last among them.
const MOST_VIEWS: usize = 12;

/// What is counted of leaves that are accepted.
const SEEN: [&str; 5] = ["power 1", "power 2+", "high", "blocks 92+", "blocks 255"];

/// How often reading answered each number; how often it counted one power block, and more, listed a
/// block behind byte 255, and counted more blocks than 128 bytes can hold, and the most; what it answered
/// to version 1 in each layout, and how often a block of version 1 was viewed in each layout and edition,
/// 1.01 first; and how many calls of the library were compared.
#[derive(Default)]
struct Tally {
    numbers: Numbers,
    seen: [usize; SEEN.len()],
    editions: [Editions; LAYOUTS.len()],
    views: [[usize; EDITIONS.len()]; LAYOUTS.len()],
    calls: usize,
}

impl Tally {
    /// Compares a reading into arrays of so many elements.
    fn compare_read(&mut self, image: &[u8], arguments: Arguments, lengths: (usize, usize)) {
        let reading = agreed(compare::read(image, arguments, lengths));
        let answer = reading.answer;
        self.numbers
            .count(image, arguments.layout.size, answer.number);
        let seen = [
            answer.power == 1,
            answer.power > 1,
            reading.table().iter().any(|&(_, offset)| offset > 255),
            usize::from(answer.blocks) > Layout::PLAIN.most_blocks(),
            answer.blocks == 255,
        ];
        self.seen
            .iter_mut()
            .zip(seen)
            .for_each(|(often, is_seen)| *often += usize::from(is_seen));
        if let Some(layout) = arguments.layout.index() {
            self.editions[layout].count_image(image, arguments, answer.number);
        }
        self.calls += 1;
    }

    /// Compares a view by its place, and by its bytes.
    fn compare_view(&mut self, image: &[u8], arguments: Arguments, entry: usize) {
        agreed(compare::view(image, arguments, entry));
        let bytes = library::view(image, arguments, entry);
        assert_eq!(bytes, reader::view(image, arguments, entry));
        let layout = arguments.layout.index().filter(|_| !bytes.is_empty());
        if let Some(layout) = layout
            && Rules::of(image, arguments).version == FIRST_VERSION
        {
            self.views[layout][usize::from(arguments.first_edition)] += 1;
        }
        self.calls += 1;
    }

    /// Compares readings into roomy arrays and into two pairs with lengths close to the block
    /// count, and the views of every entry, or of some of a long table, and of one past.
    fn compare(&mut self, random: &mut Random, image: &[u8], arguments: Arguments) {
        self.compare_read(image, arguments, (ROOMY, ROOMY));
        let count = block_count(image, arguments);
        self.compare_read(image, arguments, (count, count));
        let lengths = near_lengths(random, count);
        self.compare_read(image, arguments, lengths);
        let (_, entries) = reader::read_all(image, arguments);
        let listed = entries.len();
        if listed <= MOST_VIEWS {
            (0..=listed).for_each(|entry| self.compare_view(image, arguments, entry));
            return;
        }
        let some = (3..MOST_VIEWS).map(|_| random.below(listed));
        for entry in some.chain([0, listed - 1, listed]) {
            self.compare_view(image, arguments, entry);
        }
    }
}

/// "accepts exactly the images": valid cards of every chip and layout, with unknown types among
/// their blocks or with the most blocks, for some controllers and one that is none, at every level,
/// for another chip, and in the other layouts.
fn valid_cards() -> Tally {
    let (mut tally, mut random) = (Tally::default(), Random::new(1));
    for round in 0..2_500 {
        let chip = CHIPS[round % CHIPS.len()];
        let (layout, first_edition) = (random.pick(&LAYOUTS), random.one_in(2));
        let card = match chip == 21041 && random.one_in(6) {
            true => Card::longest(&mut random, layout),
            false => Card::valid(&mut random, chip, layout, first_edition),
        };
        let image = card.image();
        let step = 1 + usize::from(card.count / 6);
        for controller in (0..=card.count).rev().step_by(step) {
            for level in LEVELS {
                let arguments = Arguments {
                    chip,
                    controller,
                    level,
                    layout,
                    first_edition,
                };
                tally.compare(&mut random, &image, arguments);
            }
            let arguments = Arguments {
                chip: random.pick(&CHIPS),
                controller,
                level: NEWEST_LEVEL,
                layout,
                first_edition: random.one_in(2),
            };
            tally.compare(&mut random, &image, arguments);
            for layout in LAYOUTS {
                tally.compare_read(&image, arguments.laid_out(layout), (ROOMY, ROOMY));
            }
            // Entries that are far past the table, though not in their low bits.
            for far in [1 << 8, 1 << 16, 1 << 32, usize::MAX] {
                tally.compare_view(&image, arguments, far);
            }
        }
    }
    tally
}

/// "Elements after the listed ones": arrays of every length up to two past the block
/// count, at every level; among the cards the leaf with the most blocks of each layout.
fn array_lengths() -> Tally {
    let (mut tally, mut random) = (Tally::default(), Random::new(2));
    let mut samples: Vec<_> = (0..100).map(|_| Sample::valid(&mut random)).collect();
    samples.extend(LAYOUTS.map(|layout| Sample::longest(&mut random, layout)));
    for sample in samples {
        let image = sample.card.image();
        for level in LEVELS {
            let arguments = Arguments {
                level,
                ..sample.arguments
            };
            let count = block_count(&image, arguments);
            for length in 0..=count + 2 {
                tally.compare_read(&image, arguments, (length, length));
                tally.compare_read(&image, arguments, (length, ROOMY));
                tally.compare_read(&image, arguments, (count, length));
            }
            for entry in 0..=count + 2 {
                tally.compare_view(&image, arguments, entry);
            }
        }
    }
    tally
}

/// "a refusal is exact": each field damaged, the CRCs mended, so that the reader comes to it.
fn damaged_fields() -> Tally {
    let (mut tally, mut random) = (Tally::default(), Random::new(3));
    for round in 0..60_000 {
        let mut sample = Sample::damaged(&mut random, DAMAGES[round % DAMAGES.len()]);
        let image = sample.card.image();
        tally.compare(&mut random, &image, sample.arguments);
        // The same at another level, where the damaged block may be unknown.
        sample.arguments.level = random.pick(&LEVELS);
        tally.compare(&mut random, &image, sample.arguments);
    }
    tally
}

/// "each edition reads its own code ... and refuses the other's": cards of version 1 in each layout, with
/// the codes of both editions, and with extended blocks or for other chips, each in both editions and at
/// any level.
fn first_versions() -> Tally {
    let (mut tally, mut random) = (Tally::default(), Random::new(9));
    for (layout, first_edition) in LAYOUTS
        .into_iter()
        .flat_map(|layout| EDITIONS.map(|first_edition| (layout, first_edition)))
    {
        for round in 0..4_000 {
            let mut sample = Sample::first_version(&mut random, layout, first_edition);
            match round % 6 {
                0..3 => {
                    let code = random.pick(&CODES);
                    let leaves = sample.card.leaves.iter_mut();
                    leaves.for_each(|leaf| leaf.connection = code);
                }
                3 => _ = sample.damage(&mut random, 14),
                4 => _ = sample.damage(&mut random, 38),
                _ => {}
            }
            sample.arguments.level = random.pick(&LEVELS[..9]);
            let image = sample.card.image();
            for edition in EDITIONS {
                let arguments = sample.arguments.in_edition(edition);
                tally.compare(&mut random, &image, arguments);
            }
        }
    }
    tally
}

/// "its cause met and no earlier cause": two fields damaged.
fn two_damaged_fields() -> Tally {
    let (mut tally, mut random) = (Tally::default(), Random::new(4));
    for round in 0..20_000 {
        let mut sample = Sample::damaged(&mut random, DAMAGES[round % DAMAGES.len()]);
        let other = random.pick(&DAMAGES);
        sample.damage(&mut random, other);
        tally.compare(&mut random, &sample.card.image(), sample.arguments);
    }
    tally
}

/// Each byte of a valid image changed, before and after the CRCs are mended: to every value in the
/// ends of the first images, to a few values elsewhere and in the others.
fn changed_bytes() -> Tally {
    let (mut tally, mut random) = (Tally::default(), Random::new(5));
    for round in 0..100 {
        let sample = Sample::valid_in(&mut random, LAYOUTS[round % LAYOUTS.len()]);
        let image = sample.card.image();
        for offset in 0..image.len() {
            let is_end = offset < 64 || image.len() - offset <= 64;
            let values: Vec<u8> = match round {
                0..4 if is_end => (0..=255).collect(),
                _ => {
                    let byte = image[offset];
                    let flipped = byte ^ 1 << random.below(8);
                    vec![
                        byte.wrapping_add(1),
                        byte.wrapping_sub(1),
                        flipped,
                        random.byte(),
                    ]
                }
            };
            for value in values {
                let mut changed = image.clone();
                changed[offset] = value;
                tally.compare_read(&changed, sample.arguments, (ROOMY, ROOMY));
                lay_crcs(&mut changed, sample.arguments.layout);
                tally.compare_read(&changed, sample.arguments, (ROOMY, ROOMY));
                tally.compare_view(&changed, sample.arguments, random.below(3));
            }
        }
    }
    tally
}

/// "Every call comes to an end on every input": leaves of random bytes and images of them, the
/// CRCs mended.
fn random_bytes() -> Tally {
    let (mut tally, mut random) = (Tally::default(), Random::new(6));
    for _ in 0..80_000 {
        let Sample { card, arguments } = Sample::wild(&mut random);
        let image = match random.one_in(4) {
            true => random_image(&mut random, arguments.layout),
            false => card.image(),
        };
        let arguments = Arguments {
            controller: random.pick(&[0, 0, 0, 1]),
            level: random.pick(&[0, 1, 2, 3, 4, 5, 6, 7, 7, 7]),
            ..arguments
        };
        tally.compare(&mut random, &image, arguments);
    }
    tally
}

/// "a length other than the stated size, or a stated size other than those two": every length up to
/// 600, of a valid image with bytes after it and of random bytes, and one that is the size in its low
/// bits, each with the image's size stated, its own length, the other size and one that no ROM has.
fn image_lengths() -> Tally {
    let (mut tally, mut random) = (Tally::default(), Random::new(7));
    for round in 0..16 {
        let sample = Sample::valid_in(&mut random, LAYOUTS[round % LAYOUTS.len()]);
        let image = sample.card.image();
        let mut bytes = random.row(image.len() + (1 << 16));
        if random.one_in(2) {
            bytes[..image.len()].copy_from_slice(&image);
        }
        for length in (0..=600).chain([bytes.len()]) {
            let wrong = random.pick(&WRONG_SIZES);
            for size in SIZES.into_iter().chain([length as u16, wrong]) {
                let layout = Layout {
                    size,
                    ..sample.arguments.layout
                };
                let arguments = sample.arguments.laid_out(layout);
                let lengths = random.pick(&[(0, 0), (1, ROOMY), (ROOMY, ROOMY)]);
                tally.compare_read(&bytes[..length], arguments, lengths);
                tally.compare_view(&bytes[..length], arguments, 0);
            }
        }
    }
    tally
}

/// "An image refused with 31 at level 7 is read at every level below it", with its power blocks
/// skipped.
#[test]
fn repeated_modes_below_the_newest() {
    let mut random = Random::new(8);
    for _ in 0..2_000 {
        let Sample { card, arguments } = Sample::damaged(&mut random, 31);
        let image = card.image();
        let answer_at = |level| {
            let arguments = Arguments { level, ..arguments };
            agreed(compare::read(&image, arguments, (ROOMY, ROOMY))).answer
        };
        assert_eq!(answer_at(NEWEST_LEVEL).number, 31);
        for level in 0..NEWEST_LEVEL {
            let answer = answer_at(level);
            assert_eq!((answer.number, answer.power), (0, 0), "level {level}");
            assert!(answer.skipped >= 2, "level {level}: {answer:?}");
        }
    }
}

/// A million calls, in which each refusal is met a thousand times at each size. The table of them is
/// shown.
#[test]
fn library_reads_as_second() {
    let families: [Family<Tally>; 8] = [
        ("valid", valid_cards),
        ("arrays", array_lengths),
        ("damaged", damaged_fields),
        ("twice", two_damaged_fields),
        ("bytes", changed_bytes),
        ("random", random_bytes),
        ("lengths", image_lengths),
        ("version 1", first_versions),
    ];
    let tallies = tallies(families);
    let names = families.map(|(name, _)| name);
    let mut wrong = Vec::new();
    let numbers = tallies.each_ref().map(|tally| &tally.numbers);
    let can_answer = [&READ_NUMBERS[..], &READ_NUMBERS, &[1]];
    let mut table = numbers_table("read", &names, numbers, can_answer, &mut wrong);
    let seen = tallies.each_ref().map(|tally| &tally.seen[..]);
    table += &seen_rows(&SEEN, seen, &mut wrong);
    let editions = tallies.each_ref().map(|tally| by_layout(&tally.editions));
    let editions = editions.each_ref().map(Vec::as_slice);
    table += &seen_rows(&titles_by_layout(), editions, &mut wrong);
    let views = tallies.each_ref().map(|tally| tally.views.as_flattened());
    let viewed = |layout| ["1.01 views", "1.00 views"].map(|title| titled(layout, title));
    table += &seen_rows(LAYOUTS.map(viewed).as_flattened(), views, &mut wrong);
    let cells = tallies.each_ref().map(|tally| tally.calls);
    let calls: usize = cells.iter().sum();
    table += &total_row("calls", &cells);
    show(&table);
    assert!(wrong.is_empty(), "{wrong:?}");
    assert!(calls >= LEAST_CALLS, "only {calls} calls were compared");
}
