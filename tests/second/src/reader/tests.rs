use super::*;
use crate::cases::{Expected, cases};
use crate::crc::lay_crcs;
use crate::images::{Card, DAMAGES, Image, Leaf, Sample, block};
use crate::layout::{LAYOUTS, SIZES};
use crate::random::Random;
use crate::specification;

const PATTERN: u16 = 0xA5A5;

/// The answer and the entries of the table, kind and offset. The elements after it are checked to
/// be unchanged, and all of them where the reading is refused.
fn read_table(image: &[u8], arguments: Arguments) -> (Answer, Vec<(u16, u16)>) {
    let (mut kinds, mut offsets) = ([PATTERN; HIGHEST_COUNT], [PATTERN; HIGHEST_COUNT]);
    let answer = read(image, arguments, &mut kinds, &mut offsets);
    let listed = usize::from(answer.listed);
    assert_eq!(kinds[listed..], [PATTERN; HIGHEST_COUNT][listed..]);
    assert_eq!(offsets[listed..], [PATTERN; HIGHEST_COUNT][listed..]);
    let table = kinds.into_iter().zip(offsets).take(listed).collect();
    (answer, table)
}

fn number(image: &[u8], arguments: Arguments) -> u8 {
    read_table(image, arguments).0.number
}

fn tidy(chip: u16, blocks: &[&[u8]]) -> Image {
    let blocks = blocks.iter().map(|block| block.to_vec()).collect();
    Card::tidy(chip, 0x0800, blocks).image()
}

/// What the newest reader answers for one controller and the leaf at 30.
fn number_of(chip: u16, blocks: &[&[u8]]) -> u8 {
    number(&tidy(chip, blocks), Arguments::newest(chip))
}

/// A leaf for the chip whose last block starts at the offset, after a block that every chip but the
/// 21041 steps over, or one-byte blocks of the 21041.
fn ending_at(chip: u16, layout: Layout, start: usize, last: &[u8]) -> Image {
    const PLACES: usize = 50;
    let mut blocks = match chip {
        21041 => vec![vec![0]; PLACES],
        _ => vec![block::extended(9, &[0; PLACES - 2])],
    };
    blocks.push(last.to_vec());
    let leaf = Leaf::new(start - PLACES - header_size(chip), chip, 0x0800, blocks);
    laid_out(Card::new(1, vec![leaf]), layout).image()
}

/// "Blocks to prove", a to j.
#[test]
fn document_cases() {
    for case in cases() {
        let (answer, table) = read_table(&case.image, case.arguments);
        match case.expected {
            Expected::Accepted(entries, skipped) => {
                assert_eq!(answer.number, 0, "case {}", case.name);
                assert_eq!(table, entries, "case {}", case.name);
                assert_eq!(answer.skipped, skipped, "case {}", case.name);
                let others = (answer.resets, answer.power);
                assert_eq!(others, (0, 0), "case {}", case.name);
                assert_eq!(answer.default_number, NO_DEFAULT, "case {}", case.name);
            }
            Expected::Refused(number) => {
                assert_eq!(answer, refused(number), "case {}", case.name);
            }
        }
    }
}

/// Case a, byte by byte: "`00 08 01 86 02 00 01 00 02 00`".
#[test]
fn case_a_bytes() {
    let leaf = [0x00, 0x08, 0x01, 0x86, 0x02, 0x00, 0x01, 0x00, 0x02, 0x00];
    assert_eq!(cases()[0].image[30..40], leaf);
}

fn refused(number: u8) -> Answer {
    Answer {
        number,
        connection: 0,
        control: 0,
        address: 0,
        blocks: 0,
        listed: 0,
        resets: 0,
        skipped: 0,
        power: 0,
        default_number: 0,
    }
}

/// "a length other than the stated size, or a stated size other than those two", before any other
/// cause.
#[test]
fn image_length() {
    let bytes = [0xFF; 600];
    for length in 0..=bytes.len() {
        for stated in [length as u16, 0, 127, 128, 256, 511, 512, 513, 65_535] {
            let is_served = stated == 128 || stated == 512;
            let is_right = is_served && length == stated.into();
            for magic in [false, true] {
                let layout = Layout::new(stated, magic);
                let arguments = Arguments::newest(21143).laid_out(layout);
                let image = &bytes[..length];
                let expected = refused(if is_right { 2 } else { 1 });
                assert_eq!(
                    read_table(image, arguments).0,
                    expected,
                    "{length} {stated}"
                );
                assert!(view(image, arguments, 0).is_empty());
            }
        }
    }
}

/// The same of images that are accepted as they are: cut to a byte less, with a byte more, cut or
/// lengthened to the other size, and with any other size stated.
#[test]
fn stated_size() {
    for layout in LAYOUTS {
        let image = laid_out(Card::tidy(21143, 0x0800, vec![vec![0x81, 0x09]]), layout).image();
        let number_as = |image: &[u8], size| {
            let arguments = Arguments::newest(21143).laid_out(Layout { size, ..layout });
            number(image, arguments)
        };
        assert_eq!(number_as(&image, layout.size), 0);
        for stated in (0..=u16::MAX).filter(|&stated| stated != layout.size) {
            assert_eq!(number_as(&image, stated), 1, "{stated}");
        }
        for length in (0..=600).filter(|&length| length != image.len()) {
            let mut other = image.clone();
            other.resize(length, 0);
            assert_eq!(number_as(&other, layout.size), 1, "{length}");
        }
    }
}

/// "18 version (3 or 4)"; "Refusal 2 now passes 1 as well", which the 21143 is not one of.
#[test]
fn versions() {
    for version in 0..=255 {
        let mut card = Card::tidy(21143, 0x0800, vec![]);
        card.version = version;
        let expected = match version {
            3 | 4 => 0,
            1 => 38,
            _ => 2,
        };
        assert_eq!(
            number(&card.image(), Arguments::newest(21143)),
            expected,
            "{version}"
        );
    }
}

/// A card with so many controllers, all with device number 0, and an empty leaf.
fn empty_leaf(controllers: usize, offset: usize) -> Card {
    let mut card = Card::new(controllers, vec![Leaf::new(offset, 21143, 0x0800, vec![])]);
    card.controllers
        .iter_mut()
        .for_each(|controller| controller.device = 0);
    card
}

/// "19 controller count n, 1 to 32": a leaf fits beside 31 controllers and no longer beside 32. With
/// a Magic Packet block "the controller count is at most 20 (else 5)". "At 512 the controller count
/// is at most 32 in both layouts."
#[test]
fn controller_counts() {
    let most = [(31, 120), (20, 87), (32, 400), (32, 400)];
    for (layout, (most, offset)) in LAYOUTS.into_iter().zip(most) {
        for count in 0..=255 {
            let mut card = laid_out(empty_leaf(most, offset), layout);
            card.count = count;
            let expected = match count {
                _ if (1..=most).contains(&count.into()) => 0,
                32 if layout == Layout::PLAIN => 10,
                _ => 5,
            };
            let arguments = Arguments::newest(21143).laid_out(layout);
            assert_eq!(number(&card.image(), arguments), expected, "{count}");
        }
    }
}

/// The card in a layout.
fn laid_out(card: Card, layout: Layout) -> Card {
    card.laid_out(&mut Random::new(1), layout)
}

/// "Byte 26+3n is reserved", for the n that was read, and no other byte; the count is judged first.
#[test]
fn reserved_byte() {
    for controllers in 1..=10 {
        for other in 0..=10 {
            let mut image = empty_leaf(controllers, 60).image();
            image[26 + 3 * other] = 1;
            lay_crcs(&mut image, Layout::PLAIN);
            let expected = if other == controllers { 5 } else { 0 };
            assert_eq!(
                number(&image, Arguments::newest(21143)),
                expected,
                "{other} of {controllers}"
            );
        }
    }
    let mut card = empty_leaf(1, 60);
    (card.count, card.reserved) = (0, 1);
    assert_eq!(number(&card.image(), Arguments::newest(21143)), 5);
}

/// "6 controller not below n".
#[test]
fn controllers() {
    let card = empty_leaf(4, 60);
    for controller in 0..=255 {
        let arguments = Arguments {
            controller,
            ..Arguments::newest(21143)
        };
        let expected = if controller < 4 { 0 } else { 6 };
        assert_eq!(number(&card.image(), arguments), expected, "{controller}");
    }
}

/// "7 chip", for numbers that are none of the five.
#[test]
fn chips() {
    let image = tidy(21143, &[]);
    let accepted = (20_000..22_000).filter(|&chip| number(&image, Arguments::newest(chip)) != 7);
    assert!(accepted.eq([21041, 21140, 21142, 21143, 21145]));
}

/// "8 level over 6", and since power blocks "Levels go to 7"; also where no extended type can stand.
#[test]
fn levels() {
    for chip in CHIPS {
        for level in 0..=255 {
            let expected = if level <= 7 { 0 } else { 8 };
            let answered = number(&tidy(chip, &[]), Arguments::at_level(chip, level));
            assert_eq!(answered, expected, "{chip} level {level}");
        }
    }
}

/// "address base + i"; "9 address over 2^48 - 1".
#[test]
fn addresses() {
    let mut card = empty_leaf(4, 60);
    card.address = 0x0800_2BFF_FFFE;
    let image = card.image();
    assert_eq!(image[20..26], [0x08, 0x00, 0x2B, 0xFF, 0xFF, 0xFE]);
    let read_one = |image: &Image, controller| {
        let arguments = Arguments {
            controller,
            ..Arguments::newest(21143)
        };
        read_table(image, arguments).0
    };
    assert_eq!(read_one(&image, 3).address, 0x0800_2C00_0001);
    card.address = 0xFFFF_FFFF_FFFD;
    let image = card.image();
    assert_eq!(read_one(&image, 2).address, 0xFFFF_FFFF_FFFF);
    assert_eq!(read_one(&image, 3), refused(9));
}

/// "A leaf starts at 27+3n or later", and its header ends before 124, or before 92 with a Magic
/// Packet block, and at 512 bytes before 508 or 476: "10 leaf header outside its bounds", also where
/// only the offset's high byte says so.
#[test]
fn leaf_bounds() {
    for (layout, limit) in LAYOUTS.into_iter().zip([124, 92, 508, 476]) {
        for chip in CHIPS {
            let last = if chip == 21140 { limit - 4 } else { limit - 3 };
            for controllers in 1..=3 {
                let first = 27 + 3 * controllers;
                for offset in (0..=700).chain((256..=u16::MAX).step_by(257)) {
                    let place = usize::from(offset);
                    let is_inside = (first..=last).contains(&place);
                    let laid = if is_inside { place } else { first };
                    let leaf = Leaf::new(laid, chip, 0x0800, vec![]);
                    let mut card = laid_out(Card::new(controllers, vec![leaf]), layout);
                    card.controllers[0].leaf_offset = offset;
                    let expected = if is_inside { 0 } else { 10 };
                    let arguments = Arguments::newest(chip).laid_out(layout);
                    let answered = number(&card.image(), arguments);
                    assert_eq!(answered, expected, "{chip}, {controllers}, {offset}");
                }
            }
        }
    }
}

/// "A leaf ... ends, with all its blocks, before 124", or "before 92", and at 512 bytes 384 later: an
/// unknown type whose last byte stands just before is accepted, and one byte more is 13.
#[test]
fn last_places() {
    let longest = [(30, 0xDA), (30, 0xBA), (414, 0xDA), (414, 0xBA)];
    for (layout, (offset, longest)) in LAYOUTS.into_iter().zip(longest) {
        for (first, expected) in [(longest, 0), (longest + 1, 13)] {
            let body = vec![0x55; usize::from(first & 0x7F) - 1];
            let unknown = block::extended(9, &body);
            assert_eq!(unknown[0], first);
            let leaf = Leaf::new(offset, 21143, 0x0800, vec![unknown]);
            let card = laid_out(Card::new(1, vec![leaf]), layout);
            let arguments = Arguments::newest(21143).laid_out(layout);
            assert_eq!(number(&card.image(), arguments), expected, "{layout:?}");
        }
    }
}

/// The layouts with a Magic Packet block, of either size and of one controller or of none, and by how
/// much the block's "inner offsets all move".
fn with_block() -> impl Iterator<Item = (Layout, u8, usize)> {
    let sizes = SIZES.into_iter().zip([0, 384]);
    sizes.flat_map(|(size, moved)| [1, 0].map(|count| (Layout::new(size, true), count, moved)))
}

/// "29 Magic CRC differs, after 4": every value of byte 126, or at 512 bytes 510, but the right one,
/// before the controller count is judged.
#[test]
fn magic_crc() {
    for (layout, count, moved) in with_block() {
        let arguments = Arguments::newest(21143).laid_out(layout);
        let mut card = laid_out(empty_leaf(1, 60), layout);
        card.count = count;
        let image = card.image();
        for value in 0..=255 {
            let mut changed = image.clone();
            changed[126 + moved] = value;
            let is_right = value == image[126 + moved];
            let expected = match (is_right, count) {
                (false, _) => 29,
                (true, 1) => 0,
                (true, _) => 5,
            };
            assert_eq!(number(&changed, arguments), expected, "{value}");
        }
    }
}

/// "30 one of bytes 110 to 125, or 127, is not 0, after 29", or at 512 bytes 384 later: each of them,
/// with a right CRC, before the controller count is judged. The block's other bytes may hold
/// anything.
#[test]
fn magic_reserved_bytes() {
    for (layout, count, moved) in with_block() {
        let arguments = Arguments::newest(21143).laid_out(layout);
        let mut card = laid_out(empty_leaf(1, 60), layout);
        card.count = count;
        for offset in (96..=127).filter(|&offset| offset != 126) {
            let is_reserved = (110..=125).contains(&offset) || offset == 127;
            for value in [0, 1, 0x80, 0xFF] {
                let mut image = card.image();
                image[offset + moved] = value;
                lay_crcs(&mut image, layout);
                let expected = match (is_reserved && value > 0, count) {
                    (true, _) => 30,
                    (false, 1) => 0,
                    (false, _) => 5,
                };
                assert_eq!(number(&image, arguments), expected, "{value} at {offset}");
            }
        }
    }
}

/// "Other bytes may hold private data and are not judged": without the block so do bytes 96 to 123
/// behind a leaf, and the maker's; with it those from the leaf's end to 91, and the maker's; and at
/// 512 bytes all up to the SROM CRC.
#[test]
fn unjudged_bytes() {
    for (layout, crc) in LAYOUTS.into_iter().zip([126, 94, 510, 478]) {
        let card = laid_out(Card::tidy(21143, 0x0800, vec![]), layout);
        let arguments = Arguments::newest(21143).laid_out(layout);
        for offset in 33..crc {
            for value in [1, 0x80, 0xFF] {
                let mut image = card.image();
                image[offset] = value;
                lay_crcs(&mut image, layout);
                assert_eq!(number(&image, arguments), 0, "{value} at {offset}");
            }
        }
    }
}

/// "The caller says that it is there": an image of either layout is refused with 3 in the other, and
/// with 1 where the other size is stated.
#[test]
fn layout_of_the_caller() {
    for layout in LAYOUTS {
        let card = laid_out(Card::tidy(21143, 0x0800, vec![]), layout);
        for told in LAYOUTS {
            let expected = match told {
                _ if told == layout => 0,
                _ if told.size == layout.size => 3,
                _ => 1,
            };
            let arguments = Arguments::newest(21143).laid_out(told);
            assert_eq!(number(&card.image(), arguments), expected, "{told:?}");
        }
    }
}

/// "Leaves may be shared", and each controller may have its own: the device number is no index. At
/// 512 bytes they stand behind byte 255 too, where the offset's high byte matters.
#[test]
fn leaf_of_each_controller() {
    let leaf = |offset, code| Leaf::new(offset, 21041, 0x0800, vec![vec![code]]);
    for (layout, moved) in LAYOUTS.into_iter().zip([0, 0, 256, 384]) {
        let leaves = vec![leaf(50 + moved, 0), leaf(60 + moved, 1), leaf(70, 2)];
        let mut card = laid_out(Card::new(4, leaves), layout);
        card.controllers.reverse();
        assert_eq!(card.controllers[3].device, 0);
        let image = card.image();
        for (controller, offset) in [(0, 53 + moved), (1, 73), (2, 63 + moved), (3, 53 + moved)] {
            let arguments = Arguments {
                controller,
                ..Arguments::newest(21041).laid_out(layout)
            };
            assert_eq!(read_table(&image, arguments).1, [(257, offset as u16)]);
        }
    }
}

/// "Connection types", whose rows have 9, 19 and 20 of them; "11 connection type" for those that
/// are not in the chip's row, be it by one bit.
#[test]
fn connection_types() {
    let is_accepted = |chip, connection| {
        let answer = read_table(
            &Card::tidy(chip, connection, vec![]).image(),
            Arguments::newest(chip),
        )
        .0;
        assert!(answer == refused(11) || answer.connection == connection);
        answer.number == 0
    };
    let rows = CHIPS.map(|chip| connections(chip).collect::<Vec<_>>());
    for (chip, row) in CHIPS.into_iter().zip(&rows) {
        for &connection in row {
            assert!(is_accepted(chip, connection));
            for near in (0..16).map(|bit| connection ^ 1 << bit) {
                assert_eq!(is_accepted(chip, near), row.contains(&near), "{near:#06x}");
            }
        }
    }
    assert_eq!(rows.each_ref().map(Vec::len), [9, 19, 20, 20, 20]);
    let only_21041: Vec<_> = rows[0].iter().filter(|it| !rows[2].contains(it)).collect();
    assert_eq!(only_21041, [&0x0400, &0x0900]);
    assert!(rows[1].iter().all(|it| rows[2].contains(it)));
    assert!(rows[2].contains(&0x0002) && !rows[1].contains(&0x0002));
    assert_eq!(rows[2], rows[3]);
    assert_eq!(rows[3], rows[4]);
}

/// "for the 21140 only a general purpose control byte"; "control byte (0 but for the 21140)".
#[test]
fn control_byte() {
    for chip in CHIPS {
        let mut card = Card::tidy(chip, 0x0800, vec![]);
        card.leaves[0].control = 0x1F;
        let expected = if chip == 21140 { 0x1F } else { 0 };
        assert_eq!(
            read_table(&card.image(), Arguments::newest(chip)).0.control,
            expected
        );
    }
}

/// A block count of 0 is accepted, with nothing listed, even into arrays without elements.
#[test]
fn no_blocks() {
    for chip in CHIPS {
        let image = tidy(chip, &[]);
        let answer = read(&image, Arguments::newest(chip), &mut [], &mut []);
        let expected = Answer {
            connection: 0x0800,
            address: 0x0800_2B00_0000,
            default_number: NO_DEFAULT,
            ..refused(0)
        };
        assert_eq!(answer, expected);
        assert!(view(&image, Arguments::newest(chip), 0).is_empty());
    }
}

/// "12 a lent array shorter than the block count", either one, before any block is judged; the
/// count is of all blocks, not of the listed ones.
#[test]
fn short_arrays() {
    let accepted = tidy(21143, &[&[0x81, 0x09], &[0x82, 0x05, 0x00], &[0x81, 0x0A]]);
    let bad_block = tidy(21143, &[&[0x80], &[0x80], &[0x80]]);
    for (image, otherwise) in [(accepted, 0), (bad_block, 14)] {
        for first in 0..6 {
            for second in 0..6 {
                let (mut kinds, mut offsets) = ([PATTERN; 6], [PATTERN; 6]);
                let answer = read(
                    &image,
                    Arguments::newest(21143),
                    &mut kinds[..first],
                    &mut offsets[..second],
                );
                let expected = if first < 3 || second < 3 {
                    12
                } else {
                    otherwise
                };
                assert_eq!(answer.number, expected);
                assert_eq!((kinds, offsets), ([PATTERN; 6], [PATTERN; 6]));
            }
        }
    }
}

/// "13 block past 123", or 91 with a Magic Packet block, and at 512 bytes 507 or 475, comes before all
/// else that is wrong with the block.
#[test]
fn past_the_limit() {
    for (layout, last) in LAYOUTS.into_iter().zip([123, 91, 507, 475]) {
        let number_at = |chip, start, block: &[u8]| {
            let arguments = Arguments::newest(chip).laid_out(layout);
            number(&ending_at(chip, layout, start, block), arguments)
        };
        // No place for the block at all.
        assert_eq!(number_at(21143, last + 1, &[0x80]), 13);
        assert_eq!(number_at(21041, last + 1, &[0x00]), 13);
        // A compact block that the chip does not permit.
        for start in last - 3..=last {
            let expected = if start == last - 3 { 14 } else { 13 };
            let answered = number_at(21143, start, &[0x02, 0, 0, 0xFF]);
            assert_eq!(answered, expected, "{start}");
        }
        // A known type with a wrong length, and a type that the chip does not permit.
        for (length, kind) in [(5, 2), (90, 2), (5, 0), (5, 9)] {
            let block = [0x80 | length, kind, 0xFF, 0xFF, 0xFF];
            assert_eq!(number_at(21143, last - 4, &block), 13, "{length} {kind}");
        }
        // A 21041 block with EXT and the reserved bit.
        for start in last - 6..=last {
            let expected = if start == last - 6 { 16 } else { 13 };
            let answered = number_at(21041, start, &[0xC0, 0, 0, 0, 0, 0, 0]);
            assert_eq!(answered, expected, "{start}");
        }
        // As many blocks are counted as have a place, and one more.
        for (count, expected) in [(50, 0), (51, 13)] {
            let offset = last + 1 - 50 - 3;
            let leaf = Leaf::new(offset, 21041, 0x0800, vec![vec![0]; count]);
            let card = laid_out(Card::new(1, vec![leaf]), layout);
            let arguments = Arguments::newest(21041).laid_out(layout);
            assert_eq!(number(&card.image(), arguments), expected, "{count}");
        }
    }
}

/// "Blocks rise to 255": as many are listed, the last first, with starts on both sides of byte 255;
/// of arrays that are shorter by one element 12 is answered.
#[test]
fn most_blocks() {
    for layout in [Layout::LARGE_PLAIN, Layout::LARGE_MAGIC] {
        let sample = Sample::longest(&mut Random::new(1), layout);
        let image = sample.card.image();
        let (answer, table) = read_table(&image, sample.arguments);
        let counts = (answer.number, answer.blocks, answer.listed);
        assert_eq!(counts, (0, 255, 255));
        assert_eq!(answer.default_number, NO_DEFAULT);
        let starts = (33..33 + 255).rev().map(|start| (257, start));
        assert!(table.into_iter().eq(starts));
        for (entry, start) in [(0, 287), (254, 33)] {
            let part = view(&image, sample.arguments, entry);
            assert_eq!(part.as_ptr_range(), image[start..=start].as_ptr_range());
        }
        assert!(view(&image, sample.arguments, 255).is_empty());
        let (mut kinds, mut offsets) = ([PATTERN; 255], [PATTERN; 254]);
        let answer = read(&image, sample.arguments, &mut kinds, &mut offsets);
        assert_eq!(answer, refused(12));
        assert_eq!((kinds, offsets), ([PATTERN; 255], [PATTERN; 254]));
    }
}

/// "14 extended length 0", at every level, also as the leaf's last byte.
#[test]
fn extended_length_zero() {
    for level in 0..=NEWEST_LEVEL {
        for chip in [21140, 21142, 21143, 21145] {
            let arguments = Arguments::at_level(chip, level);
            assert_eq!(number(&tidy(chip, &[&[0x80]]), arguments), 14);
            for (layout, last) in LAYOUTS.into_iter().zip([123, 91, 507, 475]) {
                let image = ending_at(chip, layout, last, &[0x80]);
                assert_eq!(number(&image, arguments.laid_out(layout)), 14);
            }
        }
    }
}

/// A right block of each kind: a 21041 block, a compact block and types 0 to 6.
fn right_blocks() -> [(u16, Vec<u8>); 9] {
    [
        (MEDIA_21041, block::media(0, None)),
        (COMPACT, block::compact(0, 0, 0)),
        (0, block::non_mii(0, 0, 0)),
        (1, block::phy(1, &block::Phy::default())),
        (2, block::sia(0, None, 0, 0)),
        (3, block::phy(3, &block::Phy::default())),
        (4, block::symbol(3, 0, 0, 0)),
        (5, block::reset(&[])),
        (6, block::power(1, &[])),
    ]
}

/// Number, listed, resets, skipped and power of an answer.
fn counts(answer: &Answer) -> [u8; 5] {
    let Answer {
        number,
        listed,
        resets,
        skipped,
        power,
        ..
    } = *answer;
    [number, listed, resets, skipped, power]
}

/// "Permitted": each kind for each chip, and "type 6 is permitted on 21143 and 21145"; "a compact or
/// known type not permitted for the chip" is 14, and below its level a type is stepped over on every
/// chip.
#[test]
fn permitted_for_the_chip() {
    let permitted = [
        (21140, [true, true, true, false, false, false, true, false]),
        (21142, [false, false, false, true, true, false, true, false]),
        (21143, [false, false, false, true, true, true, true, true]),
        (21145, [false, false, false, true, true, true, true, true]),
    ];
    for (chip, row) in permitted {
        for ((kind, block), is_permitted) in right_blocks()[1..].iter().zip(row) {
            for level in 0..=NEWEST_LEVEL {
                let is_known = *kind == COMPACT || *kind < level.into();
                let answer = read_table(&tidy(chip, &[block]), Arguments::at_level(chip, level)).0;
                let expected = match (is_known, is_permitted) {
                    (false, _) => [0, 0, 0, 1, 0],
                    (true, false) => [14, 0, 0, 0, 0],
                    (true, true) if *kind == 5 => [0, 0, 1, 0, 0],
                    (true, true) if *kind == 6 => [0, 0, 0, 0, 1],
                    (true, true) => [0, 1, 0, 0, 0],
                };
                assert_eq!(
                    counts(&answer),
                    expected,
                    "{chip}, level {level}, {block:02x?}"
                );
            }
        }
    }
}

/// Compact and 21041 blocks are "known at every level", and level 0 knows no extended type.
#[test]
fn level_zero() {
    let image = tidy(21041, &[&[0x00], &[0x44, 1, 2, 3, 4, 5, 6]]);
    assert_eq!(
        read_table(&image, Arguments::at_level(21041, 0)).1,
        [(257, 34), (257, 33)]
    );
    let image = tidy(21140, &[&[0x85, 0x00, 0xFF, 0, 0, 0], &[0x03, 0, 0, 0]]);
    let (answer, table) = read_table(&image, Arguments::at_level(21140, 0));
    assert_eq!((answer.skipped, table.as_slice()), (1, &[(256, 40)][..]));
    assert_eq!(number(&image, Arguments::at_level(21140, 1)), 16);
}

/// "is stepped over by its length, unjudged": any type from 7 on, of any length.
#[test]
fn unknown_types() {
    for kind in 7..=255 {
        for length in 1..=80 {
            let unknown = block::extended(kind, &vec![kind; length - 1]);
            let last = block::sia(4, None, 0, 0);
            let (answer, table) =
                read_table(&tidy(21143, &[&unknown, &last]), Arguments::newest(21143));
            assert_eq!((answer.number, answer.skipped), (0, 1));
            assert_eq!(table, [(2, 34 + length as u16)]);
        }
    }
}

/// "15 length wrong for the type": of all lengths each type takes one.
#[test]
fn lengths() {
    let right = [
        (21140, 0, 5),
        (21140, 1, 12),
        (21143, 2, 6),
        (21143, 3, 13),
        (21143, 4, 8),
        (21143, 5, 2),
        (21143, 6, 3),
    ];
    for (chip, kind, right_length) in right {
        for length in 1..=80 {
            let mut body = vec![0; length - 1];
            // A code that types 0, 2 and 4 do not refuse; a PHY number for the others.
            if let (Some(code), 4) = (body.first_mut(), kind) {
                *code = 3;
            }
            let expected = if length == right_length { 0 } else { 15 };
            let answered = number_of(chip, &[&block::extended(kind, &body)]);
            assert_eq!(answered, expected, "type {kind}, length {length}");
        }
    }
}

/// "Type 2, length 6, or 12 if EXT".
#[test]
fn lengths_with_ext() {
    for length in 2..=80 {
        for code in [0x00, 0x40] {
            let mut body = vec![0; length - 1];
            body[0] = code;
            let right = if code == 0 { 6 } else { 12 };
            let expected = if length == right { 0 } else { 15 };
            let answered = number_of(21143, &[&block::extended(2, &body)]);
            assert_eq!(answered, expected, "{code:#x}, length {length}");
        }
    }
}

/// "12+g+r" and "13+2g+2r", with g and r in their places: every pair of them is accepted in its
/// own length only.
#[test]
fn phy_sequences() {
    for (chip, kind, unit) in [(21140, 1, 1), (21143, 3, 2)] {
        for select in 0..12 {
            for reset in 0..12 {
                let fields = block::Phy {
                    select: vec![0xFF; unit * select],
                    reset: vec![0xFF; unit * reset],
                    ..block::Phy::default()
                };
                let right = block::phy(kind, &fields);
                assert_eq!(number_of(chip, &[&right]), 0);
                let mut longer = [right.as_slice(), &[0]].concat();
                longer[0] += 1;
                assert_eq!(number_of(chip, &[&longer]), 15);
                let mut shorter = right[..right.len() - 1].to_vec();
                shorter[0] -= 1;
                assert_eq!(number_of(chip, &[&shorter]), 15);
            }
        }
    }
}

/// "g or r past the block's end", also where g itself stands outside: 15, though later bytes of the
/// image would fit.
#[test]
fn sequences_past_the_end() {
    for (chip, kind) in [(21140, 1), (21143, 3)] {
        // g outside the block.
        assert_eq!(number_of(chip, &[&[0x81, kind]]), 15);
        assert_eq!(number_of(chip, &[&[0x82, kind, 0x00]]), 15);
        // r outside the block: just, and as far as g can reach.
        let mut block = [0; 14];
        block[..2].copy_from_slice(&[0x8D, kind]);
        for g in [10, 11, 40, 120, 255] {
            block[3] = g;
            assert_eq!(number_of(chip, &[&block]), 15, "g {g}");
        }
        // r inside the block, its sequence not.
        for r in [1, 10, 0x80, 255] {
            (block[3], block[4]) = (0, r);
            let expected = if (kind, r) == (1, 1) { 0 } else { 15 };
            assert_eq!(number_of(chip, &[&block]), expected, "r {r}");
        }
    }
    // Type 5 without r, and with one that reaches too far.
    assert_eq!(number_of(21143, &[&[0x81, 0x05]]), 15);
    for r in 0..=255 {
        let expected = if r == 1 { 0 } else { 15 };
        assert_eq!(number_of(21143, &[&[0x84, 0x05, r, 0, 0]]), expected);
    }
    // Type 6 without a mode, without g, and with one that reaches too far.
    assert_eq!(number_of(21143, &[&[0x81, 0x06]]), 15);
    assert_eq!(number_of(21143, &[&[0x82, 0x06, 0x01]]), 15);
    for g in 0..=255 {
        let expected = if g == 1 { 0 } else { 15 };
        assert_eq!(number_of(21143, &[&[0x85, 0x06, 0x01, g, 0, 0]]), expected);
    }
}

/// "length 2g+3; a mode byte, g, g words": with every g that a leaf has room for, in its own length
/// only.
#[test]
fn power_sequences() {
    for chip in [21143, 21145] {
        for words in 0..=40 {
            let right = block::power(0x01, &vec![0xFFFF; words]);
            assert_eq!(usize::from(right[0] & 0x7F), 2 * words + 3);
            assert_eq!(number_of(chip, &[&right]), 0, "{words}");
            let mut longer = [right.as_slice(), &[0]].concat();
            longer[0] += 1;
            assert_eq!(number_of(chip, &[&longer]), 15, "{words}");
            let mut shorter = right[..right.len() - 1].to_vec();
            shorter[0] -= 1;
            assert_eq!(number_of(chip, &[&shorter]), 15, "{words}");
        }
    }
}

/// "They are counted as power (a new answer field, 0 below level 7), not listed": between media, with
/// g 0 and g 2. The bytes are section 7.5.2.1.5's.
#[test]
fn power_blocks() {
    let sia = block::sia(0, None, 1, 2);
    let power: [&[u8]; 2] = [
        &[0x83, 0x06, 0x01, 0x00],
        &[0x87, 0x06, 0x0E, 0x02, 0x21, 0x08, 0x00, 0x00],
    ];
    assert_eq!(block::power(0x0E, &[0x0821, 0x0000]), power[1]);
    for chip in [21143, 21145] {
        let image = tidy(chip, &[power[0], &sia, power[1], &sia]);
        let (answer, table) = read_table(&image, Arguments::newest(chip));
        assert_eq!(counts(&answer), [0, 2, 0, 0, 2]);
        assert_eq!((answer.blocks, answer.default_number), (4, NO_DEFAULT));
        assert_eq!(table, [(2, 52), (2, 37)]);
        assert!(view(&image, Arguments::newest(chip), 2).is_empty());
        for level in 3..7 {
            let (answer, older) = read_table(&image, Arguments::at_level(chip, level));
            assert_eq!(counts(&answer), [0, 2, 0, 2, 0]);
            assert_eq!(older, table);
        }
        for block in power {
            let image = tidy(chip, &[block]);
            let answer = read_table(&image, Arguments::newest(chip)).0;
            assert_eq!(counts(&answer), [0, 0, 0, 0, 1]);
        }
    }
}

/// "the byte is not judged otherwise": every mode byte of a single block, its reserved bits too.
#[test]
fn single_modes() {
    for mode in 0..=255 {
        for chip in [21143, 21145] {
            let image = tidy(chip, &[&block::power(mode, &[])]);
            let answer = read_table(&image, Arguments::newest(chip)).0;
            assert_eq!(counts(&answer), [0, 0, 0, 0, 1], "{chip} {mode:#x}");
        }
    }
}

/// "No bit of the mode byte may be set in two blocks": every pair of mode bytes, and 31 "after 18"
/// with all other answer fields 0; "An image refused with 31 at level 7 is read at every level below
/// it".
#[test]
fn repeated_modes() {
    let blocks = |first, second| [block::power(first, &[]), block::power(second, &[])];
    for first in 0..=255 {
        for second in 0..=255 {
            let blocks = blocks(first, second);
            let image = tidy(21143, &[&blocks[0], &blocks[1]]);
            let answer = read_table(&image, Arguments::newest(21143)).0;
            if first & second == 0 {
                assert_eq!(counts(&answer), [0, 0, 0, 0, 2], "{first:#x} {second:#x}");
            } else {
                assert_eq!(answer, refused(31), "{first:#x} {second:#x}");
            }
        }
    }
    for chip in [21143, 21145] {
        for (first, second, expected) in [(0x01, 0x0E, 0), (0x03, 0x02, 31), (0x90, 0x80, 31)] {
            let blocks = blocks(first, second);
            let image = tidy(chip, &[&blocks[0], &blocks[1]]);
            assert_eq!(number(&image, Arguments::newest(chip)), expected);
            assert!(view(&image, Arguments::newest(chip), 0).is_empty());
            for level in 0..7 {
                let answer = read_table(&image, Arguments::at_level(chip, level)).0;
                assert_eq!(counts(&answer), [0, 0, 0, 2, 0], "level {level}");
            }
        }
    }
}

/// "set in two blocks": two of three power blocks, wherever they stand, with other blocks between
/// them.
#[test]
fn repeated_modes_apart() {
    let modes = |modes: [u8; 3]| {
        let sia = block::sia(0, None, 0, 0);
        let [first, second, third] = modes.map(|mode| block::power(mode, &[1, 2]));
        number_of(21143, &[&first, &sia, &second, &sia, &third])
    };
    assert_eq!(modes([0x01, 0x02, 0x04]), 0);
    assert_eq!(modes([0x00, 0x00, 0x00]), 0);
    assert_eq!(modes([0x01, 0x02, 0x01]), 31);
    assert_eq!(modes([0x05, 0x02, 0x0C]), 31);
    assert_eq!(modes([0x01, 0x02, 0x02]), 31);
    assert_eq!(modes([0x01, 0x01, 0x02]), 31);
    assert_eq!(modes([0xF0, 0x0F, 0x10]), 31);
    assert_eq!(modes([0x01, 0x01, 0x01]), 31);
}

/// "31 a mode bit set twice, after 18": a leaf that also has two defaults, two type 5 blocks, or a
/// block that is refused behind them, is refused for that; and so is a block of a type that the chip
/// does not permit.
#[test]
fn repeated_modes_come_last() {
    let power = block::power(0x03, &[]);
    let default = block::symbol(3, 0, 0, 0x4000);
    let reset = block::reset(&[]);
    let wrong_code = block::sia(3, None, 0, 0);
    assert_eq!(number_of(21143, &[&power, &default, &power, &default]), 18);
    assert_eq!(number_of(21143, &[&reset, &power, &power, &reset]), 18);
    assert_eq!(number_of(21143, &[&power, &power, &default, &reset]), 31);
    assert_eq!(number_of(21143, &[&power, &power, &wrong_code]), 16);
    assert_eq!(number_of(21143, &[&power, &power, &[0x83, 0x06, 0, 1]]), 15);
    assert_eq!(number_of(21143, &[&power, &power, &[0x80]]), 14);
    assert_eq!(number_of(21142, &[&power, &power]), 14);
    assert_eq!(number_of(21140, &[&power, &power]), 14);
}

/// "document 01's sum of counts gains that term": for valid cards at every level, and power is "0
/// below level 7".
#[test]
fn sum_of_counts() {
    let mut random = Random::new(2);
    let mut with_power = 0;
    for _ in 0..2_000 {
        let sample = Sample::valid(&mut random);
        let image = sample.card.image();
        for level in 0..=NEWEST_LEVEL {
            let arguments = Arguments {
                level,
                ..sample.arguments
            };
            let answer = read_table(&image, arguments).0;
            let [number, terms @ ..] = counts(&answer);
            assert_eq!((number, terms.iter().sum()), (0, answer.blocks));
            assert!(level == 7 || answer.power == 0, "level {level}");
            with_power += usize::from(answer.power > 0);
        }
    }
    assert!(with_power > 200, "only {with_power} have power blocks");
}

/// "Media codes", with the reserved bits: of all code bytes those of the kind are accepted.
#[test]
fn codes() {
    let of_sia = |code: u8| matches!(code & 0x3F, 0 | 1 | 2 | 4) && code & 0x80 == 0;
    let of_compact = |code: u8| matches!(code, 0 | 1 | 3 | 4 | 5 | 6 | 7 | 8);
    let of_symbol = |code: u8| matches!(code, 3 | 5 | 6 | 7 | 8);
    for code in 0..=255 {
        let expected = |is_right| if is_right { 0 } else { 16 };
        let media = [code, 0, 0, 0, 0, 0, 0];
        let size = if code & 0x40 == 0 { 1 } else { 7 };
        let answered = number_of(21041, &[&media[..size]]);
        assert_eq!(answered, expected(of_sia(code)), "21041 {code:#x}");
        let registers = (code & 0x40 != 0).then_some([0; 6]);
        let answered = number_of(21143, &[&block::sia(code, registers, 0, 0)]);
        assert_eq!(answered, expected(of_sia(code)), "type 2 {code:#x}");
        if code & 0x80 == 0 {
            let answered = number_of(21140, &[&block::compact(code, 0, 0)]);
            assert_eq!(answered, expected(of_compact(code)), "compact {code:#x}");
        }
        let answered = number_of(21140, &[&block::non_mii(code, 0, 0)]);
        assert_eq!(answered, expected(of_compact(code)), "type 0 {code:#x}");
        let answered = number_of(21143, &[&block::symbol(code, 0, 0, 0)]);
        assert_eq!(answered, expected(of_symbol(code)), "type 4 {code:#x}");
    }
}

/// "Command bits 13:8" of a compact block and of type 0; in type 4 they are any.
#[test]
fn commands() {
    for bit in 0..16 {
        let command = 1 << bit;
        let expected = if (8..=13).contains(&bit) { 16 } else { 0 };
        assert_eq!(
            number_of(21140, &[&block::compact(0, 0, command)]),
            expected
        );
        assert_eq!(
            number_of(21140, &[&block::non_mii(0, 0, command)]),
            expected
        );
        assert_eq!(number_of(21143, &[&block::symbol(3, 0, 0, command)]), 0);
    }
}

/// "Advertisement bits 9:5" against "capability bits 15:11": each bit of one word with each of the
/// other.
#[test]
fn advertisements() {
    for capability in 0..16 {
        for advertised in 0..16 {
            let fields = block::Phy {
                capabilities: 1 << capability,
                advertisement: 1 << advertised,
                ..block::Phy::default()
            };
            let is_judged = (5..=9).contains(&advertised);
            let expected = match is_judged && capability != advertised + 6 {
                true => 17,
                false => 0,
            };
            for (chip, kind) in [(21140, 1), (21143, 3)] {
                let answered = number_of(chip, &[&block::phy(kind, &fields)]);
                assert_eq!(answered, expected, "{capability} {advertised}");
            }
        }
    }
}

/// "two type 5 blocks, or one and a PHY block (type 1 or 3) with r above 0", among known blocks.
#[test]
fn resets() {
    let phy = |kind, steps| {
        let fields = block::Phy {
            reset: vec![0; steps],
            ..block::Phy::default()
        };
        block::phy(kind, &fields)
    };
    let reset = block::reset(&[1]);
    for (chip, kind) in [(21140, 1), (21142, 3), (21143, 3), (21145, 3)] {
        let (with, without) = (phy(kind, 2), phy(kind, 0));
        for (blocks, expected) in [
            ([&with, &with], 0),
            ([&without, &reset], 0),
            ([&with, &reset], 18),
            ([&reset, &with], 18),
            ([&reset, &reset], 18),
        ] {
            let image = tidy(chip, &[blocks[0], blocks[1]]);
            assert_eq!(number(&image, Arguments::newest(chip)), expected);
            // Type 5 is not known below level 6.
            assert_eq!(number(&image, Arguments::at_level(chip, 5)), 0);
        }
    }
}

/// "command bit 15 is Active_Invalid, 14 Default", and the default "counts only with bit 15 clear
/// and a code other than 4, 5, 8"; "two defaults" are 18.
#[test]
fn defaults() {
    type Maker = fn(u8, u16) -> Vec<u8>;
    let makers: [(u16, &[u8], Maker); 3] = [
        (21140, &[0, 1, 3, 4, 5, 6, 7, 8], |code, command| {
            block::compact(code, 0, command)
        }),
        (21140, &[0, 1, 3, 4, 5, 6, 7, 8], |code, command| {
            block::non_mii(code, 0, command)
        }),
        (21143, &[3, 5, 6, 7, 8], |code, command| {
            block::symbol(code, 0, 0, command)
        }),
    ];
    for (chip, codes, maker) in makers {
        for &code in codes {
            for command in [0x0000, 0x4000, 0x8000, 0xC000] {
                let counts = command == 0x4000 && ![4, 5, 8].contains(&code);
                let unknown = block::extended(9, &[]);
                let (one, none) = (maker(code, command), maker(code, 0));
                let image = tidy(chip, &[&unknown, &none, &one]);
                let expected = if counts { 2 } else { NO_DEFAULT };
                let answer = read_table(&image, Arguments::newest(chip)).0;
                assert_eq!(answer.default_number, expected, "{one:02x?}");
                let expected = if counts { 18 } else { 0 };
                assert_eq!(number_of(chip, &[&one, &unknown, &one]), expected);
            }
        }
    }
    // A default of a type that is not known is none.
    let image = tidy(21143, &[&block::symbol(3, 0, 0, 0x4000)]);
    assert_eq!(
        read_table(&image, Arguments::at_level(21143, 4))
            .0
            .default_number,
        NO_DEFAULT
    );
    assert_eq!(
        read_table(&image, Arguments::at_level(21143, 5))
            .0
            .default_number,
        0
    );
}

/// "blocks judged one after another (13 to 17 each), 18 last": the first refused block decides.
#[test]
fn first_refused_block() {
    let wrong_code = block::sia(3, None, 0, 0);
    let wrong_length: &[u8] = &[0x85, 0x02, 0, 0, 0, 0];
    let reset = block::reset(&[]);
    assert_eq!(number_of(21143, &[&wrong_code, wrong_length]), 16);
    assert_eq!(number_of(21143, &[wrong_length, &wrong_code]), 15);
    assert_eq!(number_of(21143, &[&reset, &reset, &wrong_code]), 16);
}

/// "hands back that block's bytes as part of the image, or an empty part": entries of the table,
/// and no block where the reading is refused.
#[test]
fn views() {
    let (first, last) = (block::sia(0, Some([7; 6]), 1, 2), block::symbol(3, 4, 5, 6));
    let unknown = block::extended(200, &[1, 2, 3]);
    let image = tidy(21143, &[&first, &unknown, &block::reset(&[8]), &last]);
    let arguments = Arguments::newest(21143);
    assert_eq!(view(&image, arguments, 0), last);
    assert_eq!(view(&image, arguments, 1), first);
    assert_eq!(view(&image, arguments, 0).as_ptr(), &image[56]);
    for entry in [2, 3, 255, 256, usize::MAX] {
        assert!(view(&image, arguments, entry).is_empty());
    }
    assert!(view(&image, Arguments::at_level(21143, 8), 0).is_empty());
    assert!(view(&image[..image.len() - 1], arguments, 0).is_empty());
}

/// "The answer holds" each field: a card with all of them, in each layout.
#[test]
fn whole_answer() {
    let blocks = vec![
        block::compact(0, 0x0F, 0x008E),
        block::extended(77, &[0xFF; 3]),
        block::non_mii(3, 0x6D, 0x4071),
        block::reset(&[0x0102, 0x0304]),
        block::phy(1, &block::Phy::default()),
    ];
    let mut leaf = Leaf::new(40, 21140, 0x8800, blocks);
    leaf.control = 0x1E;
    let mut card = Card::new(3, vec![leaf]);
    card.address = 0x0000_F812_34FF;
    let expected = Answer {
        number: 0,
        connection: 0x8800,
        control: 0x1E,
        address: 0x0000_F812_3500,
        blocks: 5,
        listed: 3,
        resets: 1,
        skipped: 1,
        power: 0,
        default_number: 2,
    };
    for layout in LAYOUTS {
        let arguments = Arguments {
            chip: 21140,
            controller: 1,
            level: NEWEST_LEVEL,
            layout,
            first_edition: false,
        };
        let image = laid_out(card.clone(), layout).image();
        let (answer, table) = read_table(&image, arguments);
        assert_eq!(answer, expected);
        assert_eq!(table, [(1, 66), (0, 53), (256, 44)]);
    }
}

/// The one-pass form reads alike.
#[test]
fn fast_equals_plain() {
    let mut random = Random::new(1);
    for round in 0..30_000 {
        let mut sample = match round % 3 {
            0 => Sample::valid(&mut random),
            1 => {
                let number = random.pick(&DAMAGES);
                Sample::damaged(&mut random, number)
            }
            _ => Sample::wild(&mut random),
        };
        if random.one_in(2) {
            sample.arguments.level = random.below(usize::from(NEWEST_LEVEL) + 2) as u8;
        }
        let image = sample.card.image();
        let (first, second) = (random.below(12), random.below(12));
        let (mut plain, mut fast) = ([[PATTERN; 12]; 2], [[PATTERN; 12]; 2]);
        let [kinds, offsets] = &mut plain;
        let answer = read(
            &image,
            sample.arguments,
            &mut kinds[..first],
            &mut offsets[..second],
        );
        let [kinds, offsets] = &mut fast;
        let fast_answer = fast::read(
            &image,
            sample.arguments,
            &mut kinds[..first],
            &mut offsets[..second],
        );
        assert_eq!(fast_answer, answer, "{sample:02x?}");
        assert_eq!(fast, plain, "{sample:02x?}");
        for entry in 0..=usize::from(answer.listed) {
            let bytes = view(&image, sample.arguments, entry);
            let fast_bytes = fast::view(&image, sample.arguments, entry);
            assert_eq!(fast_bytes.as_ptr_range(), bytes.as_ptr_range());
        }
    }
}

/// The blocks that crates/format computes with: each is the last of its leaf.
#[test]
fn worked_blocks() {
    let text = specification::text("format/specs/Cases.antt");
    let cases = specification::cases(&text, "block_cases");
    assert!(cases.len() >= 40, "only {} blocks", cases.len());
    for (made_by, words) in cases {
        let rest = specification::bytes(words[2]);
        let limit = Layout::PLAIN.leaf_limit();
        let start = limit - rest.len();
        let mut image = vec![0; Layout::PLAIN.size.into()];
        image[start..limit].copy_from_slice(&rest);
        let arguments = Arguments {
            chip: words[0].parse().unwrap(),
            level: words[1].parse().unwrap(),
            ..Arguments::newest(0)
        };
        let found = match block(&image, start, arguments) {
            Ok(it) if it.is_listed() => {
                let (size, invalid, default) = (it.size, it.is_active_invalid, it.is_default);
                let (capabilities, resets) = (it.capabilities, it.resets_phy);
                match it.code {
                    Some(code) => {
                        assert_eq!((capabilities, resets), (0, false), "{words:?}");
                        format!("medium_block {size} {code} {invalid} {default}")
                    }
                    None => {
                        assert_eq!((invalid, default), (false, false), "{words:?}");
                        format!("phy_block {size} 0x{capabilities:04X} {resets}")
                    }
                }
            }
            Ok(it) if it.kind == Some(POWER) => format!("power_block {}", it.size),
            other => {
                // One that is not whole has the size that its first byte asks for.
                let whole = first_block(&rest, arguments.chip).map(|it| it.len().to_string());
                let size = whole.unwrap_or_else(|| words[3].to_string());
                format!("unlisted_block {size} {}", Refusal::number(&other))
            }
        };
        let expected = format!("{made_by} {}", words[3..].join(" "));
        assert_eq!(found, expected, "{words:?}");
    }
}
