//! Document 02, request 12, over the compiled library: walks of version 1 against the second
//! implementation, the two editions against each other, a code of 1.00 against its twin of 1.01, and
//! the levels against each other.

use library::compare::{self, Difference, Pair, agreed};
use library::editions::{Editions, by_layout, titled, titles_by_layout};
use library::families::{Family, seen_rows, show, tallies, total_row};
use library::levels::Older;
use library::{Arguments, Made, Walk};
use second::calls::{self, Call, Habits};
use second::edition::{CODES, CORRECTED, EDITIONS, FIRST_VERSION, taken_as};
use second::images::{DAMAGES, Sample};
use second::layout::{LAYOUTS, Layout};
use second::random::Random;
use second::reader::{self, HIGHEST_COUNT, NEWEST_LEVEL};
use second::sheet::{CONNECTION, Form, VERSION, served_editions};
use second::sheets::{Sheet, output, tidy};

/// Arrays that are never too short.
const LENGTHS: (usize, usize) = (HIGHEST_COUNT, HIGHEST_COUNT);

/// What each test asks for of everything that it counts.
const LEAST_OFTEN: usize = 1_000;

/// A list of calls for an image.
fn list(random: &mut Random, image: &[u8], arguments: Arguments, length: usize) -> Vec<Call> {
    let blocks = calls::block_count(image, arguments);
    Habits::new(random, blocks).list(random, length)
}

/// Each layout in each edition.
fn layouts_and_editions() -> impl Iterator<Item = (Layout, bool)> {
    let editions = |layout| EDITIONS.map(|first_edition| (layout, first_edition));
    LAYOUTS.into_iter().flat_map(editions)
}

/// What loads answered to version 1 in each layout, the looks that were accepted at walks of it in each
/// edition, 1.01 first, and those that got 32.
#[derive(Default)]
struct Walks {
    loads: [Editions; LAYOUTS.len()],
    looks: [[usize; EDITIONS.len()]; LAYOUTS.len()],
    without_medium: usize,
    calls: usize,
}

impl Walks {
    /// Compares a list of calls on a sample.
    fn compare(&mut self, random: &mut Random, sample: &Sample) {
        let Sample { card, arguments } = sample;
        let (image, arguments) = (card.image(), *arguments);
        let layout = card.layout().index().expect("a ROM's size");
        let mut pair = agreed(Pair::fresh());
        for call in list(random, &image, arguments, 6) {
            let number = agreed(pair.call(&call, &image, arguments));
            self.calls += 1;
            match call {
                Call::Load if number != 21 => {
                    self.loads[layout].count_image(&image, arguments, number);
                }
                Call::Look(_) if number == 0 => {
                    self.looks[layout][usize::from(arguments.first_edition)] += 1;
                }
                Call::Look(_) => self.without_medium += usize::from(number == 32),
                Call::Load | Call::Clear => {}
            }
        }
    }
}

/// Cards of version 1 in every layout and edition, autosensed and fixed, at any level.
fn valid_walks() -> Walks {
    let (mut walks, mut random) = (Walks::default(), Random::new(1));
    for (layout, first_edition) in layouts_and_editions() {
        for _ in 0..2_000 {
            let mut sample = Sample::first_version(&mut random, layout, first_edition);
            calls::connect(&mut random, &mut sample.card, first_edition);
            calls::mark(&mut random, &mut sample.card);
            sample.arguments.level = random.pick(&[0, 3, NEWEST_LEVEL]);
            walks.compare(&mut random, &sample);
        }
    }
    walks
}

/// The same with the causes that version 1 brings.
fn refused_walks() -> Walks {
    let (mut walks, mut random) = (Walks::default(), Random::new(2));
    for (layout, first_edition) in layouts_and_editions() {
        for round in 0..8_000 {
            let mut sample = Sample::first_version(&mut random, layout, first_edition);
            let number = [11, 11, 11, 14, 38][round % 5];
            if sample.damage(&mut random, number) {
                walks.compare(&mut random, &sample);
            }
        }
    }
    walks
}

/// The codes of edition 1.00, and the same cards with those of 1.01, each in both editions.
fn walks_of_codes() -> Walks {
    let (mut walks, mut random) = (Walks::default(), Random::new(3));
    for (first, _) in CORRECTED {
        for _ in 0..4_000 {
            let sample = calls::of_code(&mut random, first);
            for card in [&sample, &sample.corrected()] {
                for first_edition in EDITIONS {
                    let mut sample = card.clone();
                    sample.arguments.first_edition = first_edition;
                    walks.compare(&mut random, &sample);
                }
            }
        }
    }
    walks
}

/// "Codes are kept as read, but a walk takes 0x0200 as 0x0204 and 0x0203 as 0x0205": loads and looks of
/// version 1 are the second implementation's, and each cause of a refusal comes a thousand times in each
/// layout.
#[test]
fn library_walks_version_1_as_second() {
    let families: [Family<Walks>; 3] = [
        ("valid", valid_walks),
        ("refused", refused_walks),
        ("codes", walks_of_codes),
    ];
    let tallies = tallies(families);
    let mut wrong = Vec::new();
    let loads = tallies.each_ref().map(|walks| by_layout(&walks.loads));
    let loads = loads.each_ref().map(Vec::as_slice);
    let mut table = seen_rows(&titles_by_layout(), loads, &mut wrong);
    let looks = tallies.each_ref().map(|walks| walks.looks.as_flattened());
    let looked = |layout| ["1.01 looks", "1.00 looks"].map(|title| titled(layout, title));
    table += &seen_rows(LAYOUTS.map(looked).as_flattened(), looks, &mut wrong);
    let without = tallies.each_ref().map(|walks| [walks.without_medium]);
    let without = without.each_ref().map(|it| &it[..]);
    table += &seen_rows(&["32"], without, &mut wrong);
    table += &total_row("calls", &tallies.each_ref().map(|walks| walks.calls));
    show(&table);
    assert!(wrong.is_empty(), "{wrong:?}");
}

/// What the library reads of an image: the answer, the arrays, and every view's bytes.
fn reading(image: &[u8], arguments: Arguments) -> (reader::Answer, [Vec<u16>; 2], Vec<Vec<u8>>) {
    let read = agreed(compare::read(image, arguments, LENGTHS));
    let views = (0..=read.table().len())
        .map(|entry| library::view(image, arguments, entry).to_vec())
        .collect();
    (read.answer, [read.kinds, read.offsets], views)
}

/// What each call of a list answers, and the walk after it, by the library alone.
fn walked(list: &[Call], image: &[u8], arguments: Arguments) -> Vec<(u8, Walk)> {
    let mut walk = library::fresh();
    let call = |call: &Call| {
        let walked = match call {
            Call::Load => library::load(walk, image, arguments),
            Call::Look(report) => library::look(walk, report),
            Call::Clear => library::clear(walk),
        };
        walk = walked.walk;
        (walked.number, walk)
    };
    list.iter().map(call).collect()
}

/// "(other versions ignore it)": an image of version 3 or 4 is answered alike in both editions, in the
/// answer, the arrays, the views and over lists of calls, accepted or refused with any number; so is one
/// of another version.
#[test]
fn later_versions_ignore_the_edition() {
    let mut random = Random::new(4);
    let mut met = [0; 39];
    for round in 0..60_000 {
        let mut sample = match round % 3 {
            0 => Sample::wild(&mut random),
            1 => calls::sample(&mut random),
            _ => {
                let number = DAMAGES[round / 3 % DAMAGES.len()];
                Sample::damaged(&mut random, number)
            }
        };
        if sample.card.version == FIRST_VERSION {
            sample.card.version = random.pick(&[3, 4]);
        }
        // A code of 1.00 among those that are refused.
        if random.one_in(4) {
            let code = random.pick(&CODES);
            sample
                .card
                .leaves
                .iter_mut()
                .for_each(|it| it.connection = code);
        }
        let (image, arguments) = (sample.card.image(), sample.arguments);
        let [later, first] = EDITIONS.map(|edition| arguments.in_edition(edition));
        let read = reading(&image, later);
        assert_eq!(reading(&image, first), read, "{sample:02x?}");
        met[usize::from(read.0.number)] += 1;
        let list = list(&mut random, &image, arguments, 6);
        let [later, first] = [later, first].map(|arguments| walked(&list, &image, arguments));
        assert_eq!(first, later, "{sample:02x?}");
    }
    assert!(
        met[0] > LEAST_OFTEN && met[2] > 500 && met[11] > LEAST_OFTEN,
        "{met:?}"
    );
}

/// "each edition reads its own code ... and refuses the other's with 11": of the two editions exactly one
/// accepts an image of version 1 with one of the four codes that is right otherwise, and both answer
/// alike to every other one; whatever the image, never both accept a code of these.
#[test]
fn one_edition_alone_reads_a_code() {
    let mut random = Random::new(5);
    let (mut by_code, mut alike, mut refused) = ([0; CODES.len()], 0, 0);
    for round in 0..60_000 {
        let (layout, edition) = (random.pick(&LAYOUTS), random.one_in(2));
        let mut sample = Sample::first_version(&mut random, layout, edition);
        let is_damaged = round % 3 == 0 && {
            let number = random.pick(&DAMAGES);
            sample.damage(&mut random, number)
        };
        let (image, arguments) = (sample.card.image(), sample.arguments);
        let [later, first] = EDITIONS.map(|edition| reading(&image, arguments.in_edition(edition)));
        let (own, other) = match edition {
            true => (&first, &later),
            false => (&later, &first),
        };
        let code = CODES.iter().position(|&code| code == own.0.connection);
        match (own.0.number, code) {
            (0, Some(code)) => {
                assert_eq!(other.0.number, 11, "{sample:02x?}");
                by_code[code] += 1;
            }
            (0, None) => {
                assert_eq!(own, other, "{sample:02x?}");
                alike += 1;
            }
            _ => refused += 1,
        }
        assert!(own.0.number == 0 || is_damaged, "{sample:02x?}");
        let both = [&later, &first].map(|it| it.0.number == 0 && CODES.contains(&it.0.connection));
        assert_ne!(both, [true; 2], "{sample:02x?}");
    }
    assert!(
        by_code.iter().all(|&often| often >= LEAST_OFTEN),
        "{by_code:?}"
    );
    assert!(
        alike >= LEAST_OFTEN && refused >= LEAST_OFTEN,
        "{alike}, {refused}"
    );
}

/// "a walk takes 0x0200 as 0x0204 and 0x0203 as 0x0205": a card of a code of 1.00 and its twin of 1.01,
/// the CRCs mended, walk alike over lists of calls, each call's number included, but for the code that
/// each keeps; and the code's own low byte, 0 or 3, would select other blocks.
#[test]
fn twins_walk_alike() {
    let mut random = Random::new(6);
    for (first, later) in CORRECTED {
        let (mut selected, mut without, mut apart) = (0, 0, 0);
        for _ in 0..10_000 {
            let sample = calls::of_code(&mut random, first);
            let twin = sample.corrected();
            let [image, other] = [&sample, &twin].map(|it| it.card.image());
            let list = list(&mut random, &image, sample.arguments, 10);
            let walks = walked(&list, &image, sample.arguments);
            let others = walked(&list, &other, twin.arguments);
            for ((number, walk), (other, twin)) in walks.into_iter().zip(others) {
                let codes = (walk.connection, twin.connection);
                let kept = if walk.loaded { (first, later) } else { (0, 0) };
                assert_eq!(codes, kept, "{sample:02x?}");
                let twin = Walk {
                    connection: walk.connection,
                    ..twin
                };
                assert_eq!((number, walk), (other, twin), "{sample:02x?}");
                without += usize::from(number == 32);
                if let Some(choice) = walk.fixed_choice().filter(|_| walk.looks > 0) {
                    assert_eq!(usize::from(walk.selected), choice);
                    selected += 1;
                }
            }
            apart +=
                usize::from(has_medium(&sample, first as u8) != has_medium(&sample, later as u8));
        }
        let often = [selected, without, apart];
        assert!(
            often.iter().all(|&often| often >= LEAST_OFTEN),
            "{first:#06x}: {often:?}"
        );
    }
}

/// Whether a block of the leaf that is read has a media code.
fn has_medium(sample: &Sample, code: u8) -> bool {
    let offset = sample.card.controllers[usize::from(sample.arguments.controller)].leaf_offset;
    let is_read = |leaf: &&second::images::Leaf| leaf.offset == usize::from(offset);
    let leaf = sample.card.leaves.iter().rfind(is_read).expect("its leaf");
    leaf.blocks.iter().any(|block| block[0] & 0x3F == code)
}

/// "so extended ones get 14 at every level": a card of version 1 has no type that a level might not know,
/// so that all levels answer it alike, tables and lists of calls included.
#[test]
fn levels_agree_on_version_1() {
    let mut random = Random::new(7);
    let mut met = [0; 2];
    for round in 0..8_000 {
        let (layout, edition) = LAYOUTS
            .into_iter()
            .flat_map(|layout| EDITIONS.map(|edition| (layout, edition)))
            .nth(round % (LAYOUTS.len() * EDITIONS.len()))
            .expect("a layout and an edition");
        let mut sample = Sample::first_version(&mut random, layout, edition);
        calls::connect(&mut random, &mut sample.card, edition);
        if round % 4 == 3 && !sample.damage(&mut random, 14) {
            continue;
        }
        let (image, arguments) = (sample.card.image(), sample.arguments);
        let newest = reading(&image, arguments);
        let list = list(&mut random, &image, arguments, 6);
        let seen = walked(&list, &image, arguments);
        for level in 0..NEWEST_LEVEL {
            let older = Arguments { level, ..arguments };
            assert_eq!(
                reading(&image, older),
                newest,
                "level {level}: {sample:02x?}"
            );
            assert_eq!(
                walked(&list, &image, older),
                seen,
                "level {level}: {sample:02x?}"
            );
            if let Some(older) = Older::new(&image, arguments, level) {
                assert!(older.removed.is_empty() && !older.is_default_removed);
                agreed::<()>(older.compare_tables());
                let shown = agreed(older.run(&list, |_, _| {}));
                let differs: Option<Difference> = shown.difference;
                assert!(differs.is_none(), "{differs:?}");
            }
        }
        assert!([0, 14].contains(&newest.0.number));
        met[usize::from(newest.0.number == 0)] += 1;
    }
    assert!(met.iter().all(|&often| often >= LEAST_OFTEN / 2), "{met:?}");
}

/// "Writing a sheet and reading it returns that sheet; making a sheet of a tidy image and writing it
/// returns that image", for version 1 in both editions, forms, sizes and layouts; "Codes are kept as
/// read", so a sheet has the edition's own, and the other edition's writer and maker answer 11 and leave
/// what they are lent.
#[test]
fn returns_of_version_1() {
    let mut random = Random::new(8);
    for (form, layout, first_edition) in served_editions() {
        let mut by_code = [0; CODES.len()];
        for _ in 0..4_000 {
            let sheet = Sheet::first_version(&mut random, layout, first_edition);
            let bytes = sheet.bytes(form);
            let before = output(&mut random, layout);
            let mut image = before.clone();
            let number = library::write(&bytes, form, layout, first_edition, &mut image);
            assert_eq!(number, 0, "{sheet:02x?}");
            let made = made_of(&image, sheet.chip, form, layout, first_edition);
            assert_eq!(made, Ok(bytes.clone()));
            assert_eq!(bytes[form.place(VERSION)], 1);
            let code = [
                bytes[form.place(CONNECTION)],
                bytes[form.place(CONNECTION) + 1],
            ];
            assert_eq!(image[30..32], code);
            let code = u16::from_le_bytes(code);
            let other = made_of(&image, sheet.chip, form, layout, !first_edition);
            let mut again = before.clone();
            let number = library::write(&bytes, form, layout, !first_edition, &mut again);
            match CODES.iter().position(|&it| it == code) {
                Some(place) => {
                    assert_eq!((number, other), (11, Err(11)), "{sheet:02x?}");
                    assert_eq!(again, before);
                    by_code[place] += 1;
                    assert_eq!(taken_as(code) != code, first_edition);
                }
                None => assert_eq!((number, &again, other), (0, &image, Ok(bytes))),
            }
            // The image back, of any tidy one that the newest reader accepts.
            let sample = tidy::tidy(&mut random, form);
            let (image, arguments) = (sample.card.image(), sample.arguments);
            let Arguments { chip, layout, .. } = arguments;
            let made = made_of(&image, chip, form, layout, arguments.first_edition);
            let mut again = image.clone();
            again[..layout.board_end()].fill(0xA5);
            let made = made.expect("it is tidy");
            let number = library::write(&made, form, layout, arguments.first_edition, &mut again);
            assert_eq!((number, again), (0, image));
        }
        let own = if first_edition {
            &by_code[..2]
        } else {
            &by_code[2..]
        };
        assert!(
            own.iter().all(|&often| often >= 200),
            "{form:?} {layout:?}: {by_code:?}"
        );
    }
}

/// The sheet that the library makes, or its number.
fn made_of(
    image: &[u8],
    chip: u16,
    form: Form,
    layout: Layout,
    first_edition: bool,
) -> Result<Vec<u8>, u8> {
    let mut buffer = vec![0xA5; form.longest(layout)];
    let made = library::make_sheet(image, chip, form, layout, first_edition, &mut buffer);
    let Made { number, length } = made;
    assert!(buffer[length..].iter().all(|&byte| byte == 0xA5));
    match number {
        0 => Ok(buffer[..length].to_vec()),
        number => Err(number),
    }
}
