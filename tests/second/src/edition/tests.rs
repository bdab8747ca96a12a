//! Document 02, request 12, sentence by sentence: reading, walks and sheets of version 1.

use super::*;
use crate::calls::{self, Call, Habits};
use crate::images::{Card, Image, Sample, block};
use crate::layout::{LAYOUTS, Layout};
use crate::random::Random;
use crate::reader::{Answer, CHIPS, read, read_all, view};
use crate::sheet::{Form, LONGEST_WIDE_SHEET, VERSION, make, served_editions, write};
use crate::sheets::{Sheet, output};
use crate::walk::{Autosense, Way};

/// A card of this version with one leaf of whole blocks.
fn card_of(version: u8, chip: u16, connection: u16, blocks: Vec<Vec<u8>>) -> Card {
    let mut card = Card::tidy(chip, connection, blocks);
    card.version = version;
    card
}

fn number(image: &[u8], arguments: Arguments) -> u8 {
    read_all(image, arguments).0.number
}

/// The blocks that version 1 has, for a chip of it.
fn blocks_of(chip: u16) -> Vec<Vec<u8>> {
    match chip {
        21041 => vec![block::media(4, None), block::media(0, Some([7; 6]))],
        _ => vec![block::compact(5, 0, 0), block::compact(4, 1, 0x8000)],
    }
}

/// "Refusal 2 now passes 1 as well"; the marks of an interrupted programming, 0 and 255, and all
/// others get 2, in both editions.
#[test]
fn versions() {
    assert_eq!(VERSIONS, [1, 3, 4]);
    for (version, first_edition) in (0..=255).flat_map(|it| EDITIONS.map(|first| (it, first))) {
        for chip in FIRST_CHIPS {
            let card = card_of(version, chip, 0x0800, blocks_of(chip));
            let arguments = Arguments::newest(chip).in_edition(first_edition);
            let expected = if [1, 3, 4].contains(&version) { 0 } else { 2 };
            let answered = number(&card.image(), arguments);
            assert_eq!(answered, expected, "{chip}, version {version}");
        }
    }
}

/// "1.00 had 0x0200 and 0x0203 where 1.01 has 0x0204 and 0x0205 ... (other versions ignore it), and
/// each edition reads its own code, where the chip's row has that of 1.01, and refuses the other's
/// with 11. Codes are kept as read." By the history of 000 the 21041 has 0x0204 alone.
#[test]
fn codes_of_each_edition() {
    // Version, chip, and in which editions each of the four codes is read: in 1.01, in 1.00.
    let no = [false; 2];
    let (first, later, both) = ([false, true], [true, false], [true; 2]);
    let table = [
        (1, 21041, [first, no, later, no]),
        (1, 21140, [first, first, later, later]),
        (3, 21041, [no, no, both, no]),
        (3, 21140, [no, no, both, both]),
        (4, 21041, [no, no, both, no]),
        (4, 21140, [no, no, both, both]),
    ];
    for (version, chip, read_in) in table {
        for (code, read_in) in [0x0200, 0x0203, 0x0204, 0x0205].into_iter().zip(read_in) {
            for layout in LAYOUTS {
                let card = card_of(version, chip, code, blocks_of(chip));
                let image = card.laid_out(&mut Random::new(1), layout).image();
                for (first_edition, is_read) in EDITIONS.into_iter().zip(read_in) {
                    let arguments = Arguments::newest(chip).laid_out(layout);
                    let (answer, _) = read_all(&image, arguments.in_edition(first_edition));
                    let expected = if is_read { (0, code) } else { (11, 0) };
                    assert_eq!(
                        (answer.number, answer.connection),
                        expected,
                        "{chip}, version {version}, {code:#06x}, first {first_edition}"
                    );
                }
            }
        }
    }
}

/// The other codes of the chip's row are those of both editions: of all words, the two differ in
/// the four alone.
#[test]
fn other_codes() {
    for chip in FIRST_CHIPS {
        let rules = |first_edition| Rules {
            chip,
            version: 1,
            first_edition,
        };
        for code in 0..=u16::MAX {
            let in_row = connections(chip).any(|it| it == code);
            let [later, first] = EDITIONS.map(|edition| rules(edition).permit(code));
            assert_eq!(later, in_row, "{code:#06x}");
            if !CODES.contains(&code) {
                assert_eq!(first, in_row, "{code:#06x}");
            }
        }
    }
}

/// "38 version 1 with a chip other than 21041 or 21140, after 7 in the reader": between 7 and 8, in both
/// editions; and versions 3 and 4 have every chip.
#[test]
fn chips_of_version_1() {
    for first_edition in EDITIONS {
        for chip in CHIPS {
            let newest = Arguments::newest(chip).in_edition(first_edition);
            let later = [21142, 21143, 21145].contains(&chip);
            let image = card_of(1, chip, 0x0800, vec![]).image();
            assert_eq!(number(&image, newest), if later { 38 } else { 0 });
            for version in [3, 4] {
                let image = card_of(version, chip, 0x0800, vec![]).image();
                assert_eq!(number(&image, newest), 0);
            }
            // 6, 7, 38, 8, 9: of two causes the one that stands first.
            let controller = Arguments {
                controller: 1,
                ..newest
            };
            assert_eq!(number(&image, controller), 6);
            let no_chip = Arguments {
                chip: 21144,
                ..newest
            };
            assert_eq!(number(&image, no_chip), 7);
            let level = Arguments { level: 8, ..newest };
            assert_eq!(number(&image, level), if later { 38 } else { 8 });
            let mut card = card_of(1, chip, 0x0800, vec![]);
            card.controllers[0].leaf_offset = 0;
            let outside = card.image();
            assert_eq!(number(&outside, newest), if later { 38 } else { 10 });
        }
    }
}

/// "Version 1 has 21041 and compact blocks only, so extended ones get 14 at every level", also types
/// that the level does not know or the 21140 has, and behind blocks that are right; but 13 is judged
/// before it.
#[test]
fn extended_blocks() {
    let right = block::compact(0, 0, 0);
    let extended = [
        block::non_mii(0, 0, 0),
        block::phy(1, &block::Phy::default()),
        block::reset(&[]),
        block::power(0, &[]),
        block::extended(9, &[1, 2]),
        vec![0x80],
    ];
    for (level, first_edition) in (0..=7).flat_map(|it| EDITIONS.map(|first| (it, first))) {
        let arguments = Arguments::at_level(21140, level).in_edition(first_edition);
        for extended in &extended {
            for blocks in [
                vec![extended.clone()],
                vec![right.clone(), extended.clone()],
            ] {
                let image = card_of(1, 21140, 0x0800, blocks).image();
                assert_eq!(
                    number(&image, arguments),
                    14,
                    "level {level}: {extended:02x?}"
                );
            }
        }
        for layout in LAYOUTS {
            // Behind compact blocks up to the last place, and one byte further.
            let before = (layout.leaf_limit() - 34).saturating_sub(100) / 4;
            let left = layout.leaf_limit() - 34 - 4 * before;
            let arguments = arguments.laid_out(layout);
            for (length, expected) in [(left - 1, 14), (left, 13)] {
                let mut blocks = vec![right.clone(); before];
                blocks.push(vec![0x80 | length as u8, 9]);
                let card = card_of(1, 21140, 0x0800, blocks);
                let image = card.laid_out(&mut Random::new(1), layout).image();
                assert_eq!(number(&image, arguments), expected, "{layout:?}");
            }
        }
    }
}

/// The same of the first refused block: what stands before it is judged as ever, and a 21041 block has
/// no extended form.
#[test]
fn blocks_as_ever() {
    for level in 0..=7 {
        let arguments = Arguments::at_level(21140, level);
        let cases = [
            (vec![block::compact(2, 0, 0), vec![0x80]], 16),
            (vec![block::compact(0, 0, 0x0100)], 16),
            (
                vec![block::compact(0, 0, 0x4000), block::compact(1, 0, 0x4000)],
                18,
            ),
        ];
        for (blocks, expected) in cases {
            let image = card_of(1, 21140, 0x0800, blocks).image();
            assert_eq!(number(&image, arguments), expected);
        }
        let image = card_of(1, 21041, 0x0800, vec![vec![0x84]]).image();
        assert_eq!(number(&image, Arguments::at_level(21041, level)), 16);
    }
}

/// "other versions ignore it": what versions 3 and 4 answer does not go by the edition, whatever the
/// image, table and views included.
#[test]
fn later_versions_ignore_the_edition() {
    let mut random = Random::new(2);
    let mut accepted = [0; 2];
    for round in 0..6_000 {
        let mut sample = match round % 3 {
            0 => Sample::wild(&mut random),
            _ => Sample::valid(&mut random),
        };
        sample.card.version = random.pick(&[3, 4]);
        let image = sample.card.image();
        let answers = EDITIONS.map(|edition| {
            let arguments = sample.arguments.in_edition(edition);
            let (answer, table) = read_all(&image, arguments);
            let views: Vec<_> = (0..=table.len())
                .map(|entry| view(&image, arguments, entry))
                .collect();
            (answer, table, views)
        });
        assert_eq!(answers[0], answers[1], "{sample:02x?}");
        accepted[usize::from(answers[0].0.number == 0)] += 1;
    }
    assert!(accepted.iter().all(|&often| often > 500), "{accepted:?}");
}

/// "each edition ... refuses the other's": an image of version 1 with one of the four codes is never
/// accepted in both editions, and every other one is answered alike.
#[test]
fn one_edition_alone() {
    let mut random = Random::new(3);
    let mut met = [0; 3];
    for layout in LAYOUTS {
        for _ in 0..2_000 {
            let edition = random.one_in(2);
            let sample = Sample::first_version(&mut random, layout, edition);
            let image = sample.card.image();
            let [later, first] =
                EDITIONS.map(|edition| read_all(&image, sample.arguments.in_edition(edition)).0);
            let accepted = if edition { first } else { later };
            assert_eq!(accepted.number, 0, "{sample:02x?}");
            let other = if edition { later } else { first };
            let expected = match CODES.contains(&accepted.connection) {
                true => Answer {
                    number: 11,
                    ..Answer::default()
                },
                false => accepted,
            };
            assert_eq!(other, expected, "{sample:02x?}");
            met[match expected.number {
                0 => 0,
                _ => 1 + usize::from(edition),
            }] += 1;
        }
    }
    assert!(met.iter().all(|&often| often > 1_000), "{met:?}");
}

/// The arrays of a refused reading are left, for both causes of an edition.
#[test]
fn arrays_are_left() {
    let image = card_of(1, 21140, 0x0200, blocks_of(21140)).image();
    let (mut kinds, mut offsets) = ([9; 4], [9; 4]);
    for arguments in [Arguments::newest(21140), Arguments::newest(21143)] {
        let answer = read(&image, arguments, &mut kinds, &mut offsets);
        assert!([11, 38].contains(&answer.number));
        assert_eq!((kinds, offsets), ([9; 4], [9; 4]));
    }
}

/// "a walk takes 0x0200 as 0x0204 and 0x0203 as 0x0205", which are fixed types: the first block in
/// table order with media code 4, or 5, and not that of the code's own low byte, 0 or 3.
#[test]
fn walks_of_first_codes() {
    let media = |codes: &[u8]| {
        codes
            .iter()
            .map(|&code| block::compact(code, 0, 0))
            .collect()
    };
    let blocks = || media(&[4, 5, 0, 3]);
    for (code, selected) in [(0x0200, 0), (0x0203, 1), (0x0204, 0), (0x0205, 1)] {
        assert_eq!(Way::of(code), Way::Fixed);
        let arguments = Arguments::newest(21140).in_edition(code < 0x0204);
        let image = card_of(1, 21140, code, blocks()).image();
        let mut walk = Autosense::default();
        assert_eq!(walk.load(&image, arguments), 0);
        assert_eq!(walk.walk().connection, code, "kept as read");
        assert_eq!(walk.look(&[0, 0, 1, 1]), 0);
        let walk = walk.walk();
        assert_eq!(
            (walk.selected, walk.settled, walk.switches),
            (selected, true, 1)
        );
        // Without such a block, although one has the code's own low byte.
        let image = card_of(1, 21140, code, media(&[0, 3])).image();
        let mut walk = Autosense::default();
        assert_eq!((walk.load(&image, arguments), walk.look(&[1, 1])), (0, 32));
    }
    let image = card_of(1, 21041, 0x0200, vec![vec![4], vec![0]]).image();
    let mut walk = Autosense::default();
    walk.load(&image, Arguments::newest(21041).in_edition(true));
    assert_eq!((walk.look(&[0, 1]), walk.walk().selected), (0, 0));
}

#[test]
fn taken_codes() {
    let other = (0..=u16::MAX).filter(|&code| taken_as(code) != code);
    assert!(other.eq([0x0200, 0x0203]));
    assert_eq!([0x0200, 0x0203].map(taken_as), [0x0204, 0x0205]);
}

/// A card of a first code and its twin of 1.01 walk alike over lists of calls, but for the code that
/// each keeps.
#[test]
fn twins() {
    let mut random = Random::new(4);
    let mut met = [[0; 3]; 2];
    for ((first, later), met) in CORRECTED.into_iter().zip(&mut met) {
        for _ in 0..3_000 {
            let sample = calls::of_code(&mut random, first);
            let twin = sample.corrected();
            let images = [&sample, &twin].map(|it| it.card.image());
            let arguments = [sample.arguments, twin.arguments];
            let blocks = calls::block_count(&images[0], arguments[0]);
            let habits = Habits::new(&mut random, blocks);
            let mut walks: [Autosense; 2] = Default::default();
            for call in habits.list(&mut random, 8) {
                let mut numbers = [0; 2];
                for (place, walk) in walks.iter_mut().enumerate() {
                    numbers[place] = match &call {
                        Call::Load => walk.load(&images[place], arguments[place]),
                        Call::Look(report) => walk.look(report),
                        Call::Clear => walk.clear(),
                    };
                }
                let [walk, mut other] = walks.each_ref().map(Autosense::walk);
                if walk.loaded {
                    assert_eq!((walk.connection, other.connection), (first, later));
                }
                other.connection = walk.connection;
                assert_eq!(numbers[0], numbers[1], "{sample:02x?}");
                assert_eq!(walk, other, "{sample:02x?}");
                if let Call::Look(_) = call {
                    met[match numbers[0] {
                        0 => 0,
                        32 => 1,
                        _ => 2,
                    }] += 1;
                }
            }
        }
    }
    assert!(met.iter().flatten().all(|&often| often > 100), "{met:?}");
}

/// What the writer answers to a sheet over an output, and the image after it.
fn written(sheet: &[u8], form: Form, layout: Layout, first_edition: bool) -> (u8, Image) {
    let mut image = output(&mut Random::new(5), layout);
    let number = write(sheet, form, layout, first_edition, &mut image);
    (number, image)
}

/// "Codes are kept as read", in a sheet too, and "each edition reads its own code": the writer and the
/// sheet maker of the edition take it, and those of the other give 11, in every form and layout.
#[test]
fn sheets_of_codes() {
    for (form, layout, first_edition) in served_editions() {
        for (chip, code) in [(21041, 0x0200), (21140, 0x0200), (21140, 0x0203)] {
            let code = if first_edition { code } else { taken_as(code) };
            let mut sheet = Sheet::new(chip, code, &blocks_of(chip));
            sheet.version = 1;
            let bytes = sheet.bytes(form);
            assert_eq!(written(&bytes, form, layout, !first_edition).0, 11);
            let (number, image) = written(&bytes, form, layout, first_edition);
            assert_eq!((number, image[18]), (0, 1));
            assert_eq!(image[30..32], code.to_le_bytes());
            let mut buffer = [0; LONGEST_WIDE_SHEET];
            let made = make(&image, chip, form, layout, first_edition, &mut buffer);
            assert_eq!((made.number, &buffer[..made.length]), (0, &bytes[..]));
            assert_eq!(bytes[form.place(VERSION)], 1);
            let made = make(&image, chip, form, layout, !first_edition, &mut buffer);
            assert_eq!((made.number, made.length), (11, 0));
        }
    }
}

/// "38 ... after 7 in the reader", "extended ones get 14": the newest reader's numbers of a sheet of
/// version 1, and 25 and 26 before them.
#[test]
fn sheets_that_are_refused() {
    for (form, layout, first_edition) in served_editions() {
        let number = |chip, blocks: &[Vec<u8>]| {
            let mut sheet = Sheet::new(chip, 0x0800, blocks);
            sheet.version = 1;
            written(&sheet.bytes(form), form, layout, first_edition).0
        };
        assert_eq!(number(21140, &[block::compact(0, 0, 0)]), 0);
        for kind in [0, 1, 5, 6, 7, 255] {
            assert_eq!(number(21140, &[block::extended(kind, &[])]), 14);
            assert_eq!(number(21041, &[block::media(0, None)]), 0);
        }
        for chip in [21142, 21143, 21145] {
            assert_eq!(number(chip, &[]), 38);
            assert_eq!(number(chip, &[block::media(0, None)]), 25);
            let count = if form.is_wide() { 5 } else { 1 };
            let many = vec![block::extended(9, &[0; 100]); count];
            assert_eq!(number(chip, &many), 26);
        }
    }
}

/// The cards and damages that others test with meet what the request speaks of, in each layout: accepted
/// cards of version 1 in each edition, 11 for each of the codes in the other edition, 38, and 14 of
/// version 1 for types that the level knows, and for others.
#[test]
fn samples_of_version_1() {
    let mut random = Random::new(6);
    for layout in LAYOUTS {
        let mut met = [0; 9];
        for round in 0..12_000 {
            let number = [0, 11, 14, 38][round % 4];
            let sample = match number {
                0 => Sample::valid_in(&mut random, layout),
                _ => Sample::damaged_in(&mut random, number, layout),
            };
            let image = sample.card.image();
            let Arguments { level, .. } = sample.arguments;
            assert_eq!(read_all(&image, sample.arguments).0.number, number);
            if sample.card.version != FIRST_VERSION {
                continue;
            }
            let edition = usize::from(sample.arguments.first_edition);
            let leaf = sample.card.leaves.last().unwrap();
            let place = match number {
                0 => edition,
                11 => match CODES.iter().position(|&code| code == leaf.connection) {
                    Some(code) if (code < 2) != sample.arguments.first_edition => 2 + code,
                    _ => continue,
                },
                14 => {
                    let refused = leaf.blocks.iter().find(|it| it[0] & 0x80 != 0).unwrap();
                    6 + usize::from(refused[0] != 0x80 && refused[1] >= level)
                }
                _ => 8,
            };
            met[place] += 1;
        }
        assert!(met.iter().all(|&often| often > 20), "{layout:?}: {met:?}");
    }
}
