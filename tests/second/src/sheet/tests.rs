use super::*;
use crate::crc::lay_crcs;
use crate::images::{Card, DAMAGES, Image, Leaf, MagicBlock, Sample, block};
use crate::layout::SMALL;
use crate::random::Random;
use crate::sheets::converted::convert_damages;
use crate::sheets::tidy::{TIDY_DAMAGES, damaged, tidy};
use crate::sheets::{Sheet, output, sheet_damages, unserved};
use Form::{Narrow, Wide};

const PATTERN: u8 = 0xA5;

/// More bytes than any sheet of an accepted image has.
const ROOMY: usize = LONGEST_WIDE_SHEET + 40;

/// "serve both ROM sizes in the wide one; the old form gets 1 for any but 128 bytes": each form with
/// each layout that it serves.
const SERVED: [(Form, Layout); 6] = [
    (Narrow, Layout::PLAIN),
    (Narrow, Layout::MAGIC),
    (Wide, Layout::PLAIN),
    (Wide, Layout::MAGIC),
    (Wide, Layout::LARGE_PLAIN),
    (Wide, Layout::LARGE_MAGIC),
];

/// The last places of a leaf in each of them: "26 leaf past 123", "leaves end before 92", and at 512
/// bytes 384 bytes later.
const LAST_PLACES: [usize; 6] = [123, 91, 123, 91, 507, 475];

/// What the writer answers over an output, and the image if it accepts; otherwise the output is
/// checked to be unchanged.
fn written_in(
    output: &Image,
    sheet: &[u8],
    form: Form,
    layout: Layout,
    first_edition: bool,
) -> Result<Image, u8> {
    let mut image = output.clone();
    match write(sheet, form, layout, first_edition, &mut image) {
        0 => Ok(image),
        number => {
            assert_eq!(image, *output);
            Err(number)
        }
    }
}

/// The same in the later edition.
fn written_over(output: &Image, sheet: &[u8], form: Form, layout: Layout) -> Result<Image, u8> {
    written_in(output, sheet, form, layout, false)
}

/// The same of a form at the smaller size, without a Magic Packet block.
fn written(sheet: &[u8], form: Form) -> Result<Image, u8> {
    written_over(&vec![PATTERN; SMALL.into()], sheet, form, Layout::PLAIN)
}

/// What a call answers into a buffer of so many bytes, and the sheet if it accepts; the bytes past it
/// are checked to be unchanged, and all of them where it refuses.
fn laid_in(length: usize, call: impl FnOnce(&mut [u8]) -> Made) -> Result<Vec<u8>, u8> {
    let mut buffer = vec![PATTERN; length];
    let made = call(&mut buffer);
    assert!(buffer[made.length..].iter().all(|&byte| byte == PATTERN));
    match made.number {
        0 => Ok(buffer[..made.length].to_vec()),
        number => {
            assert_eq!(made.length, 0);
            Err(number)
        }
    }
}

/// What the maker answers, of the chip, layout and edition of these arguments.
fn made_by(image: &[u8], arguments: Arguments, form: Form, length: usize) -> Result<Vec<u8>, u8> {
    let Arguments {
        chip,
        layout,
        first_edition,
        ..
    } = arguments;
    laid_in(length, |buffer| {
        make(image, chip, form, layout, first_edition, buffer)
    })
}

/// The same in the later edition.
fn made_in(
    image: &[u8],
    chip: u16,
    (form, layout): (Form, Layout),
    length: usize,
) -> Result<Vec<u8>, u8> {
    made_by(
        image,
        Arguments::newest(chip).laid_out(layout),
        form,
        length,
    )
}

fn made(image: &[u8], chip: u16, served: (Form, Layout)) -> Result<Vec<u8>, u8> {
    made_in(image, chip, served, ROOMY)
}

/// What the converter that reads a form answers, in the same way.
fn converted_in(sheet: &[u8], form: Form, length: usize) -> Result<Vec<u8>, u8> {
    laid_in(length, |buffer| match form {
        Narrow => widen(sheet, buffer),
        Wide => narrow(sheet, buffer),
    })
}

fn converted(sheet: &[u8], form: Form) -> Result<Vec<u8>, u8> {
    converted_in(sheet, form, sheet.len() + 9)
}

/// A sheet, worked out by hand, with four blocks: extended ones without length and type, a compact
/// one whole, an unknown one without body.
#[rustfmt::skip]
const WORKED_SHEET: [u8; 66] = [
    // Four blocks, 20 body bytes.
    4, 20,
    // ID bytes 0 to 15, and 17.
    0x11, 0x10, 0x0B, 0x50, 0, 0, 0, 0, 0, 0, 0, 0, 0, 0, 0, 0, 0x20,
    // Version, address, device number.
    3, 0x00, 0x00, 0xF8, 0x12, 0x34, 0x56, 5,
    // Chip 21140, autosense, control byte, the maker's bytes.
    0x94, 0x52, 0x00, 0x08, 0x1F, 0x4D, 0x4B,
    // Kinds: compact, type 1, type 9, type 0.
    0x00, 0x01, 0x01, 0x00, 0x09, 0x00, 0x00, 0x00,
    // Sizes.
    4, 12, 0, 4,
    // The compact block, the default.
    0x00, 0x1B, 0x8E, 0x40,
    // Type 1: PHY 0, one byte of select sequence, no reset sequence, four words.
    0x00, 0x01, 0x08, 0x00, 0x00, 0x78, 0xE0, 0x01, 0x00, 0x50, 0x00, 0x18,
    // Type 0.
    0x03, 0x09, 0x61, 0x80,
];

/// The worked sheet in a form: "In the wide sheet N and T are words, and all that follows stands two
/// bytes later".
fn worked(form: Form) -> Vec<u8> {
    match form {
        Narrow => WORKED_SHEET.to_vec(),
        Wide => [&[4, 0, 20, 0], &WORKED_SHEET[2..]].concat(),
    }
}

/// The image of the worked sheet up to the leaf's last byte, but for the ID CRC: "n = 1, the leaf
/// at 30".
#[rustfmt::skip]
const WORKED_IMAGE: [u8; 60] = [
    0x11, 0x10, 0x0B, 0x50, 0, 0, 0, 0, 0, 0, 0, 0, 0, 0, 0, 0, 0, 0x20,
    3, 1, 0x00, 0x00, 0xF8, 0x12, 0x34, 0x56, 5, 30, 0, 0,
    0x00, 0x08, 0x1F, 4,
    0x00, 0x1B, 0x8E, 0x40,
    0x8D, 0x01, 0x00, 0x01, 0x08, 0x00, 0x00, 0x78, 0xE0, 0x01, 0x00, 0x50, 0x00, 0x18,
    0x81, 0x09,
    0x85, 0x00, 0x03, 0x09, 0x61, 0x80,
];

#[test]
fn forms_and_layouts() {
    assert!(served().eq(SERVED));
}

/// "Sizes first ... From 34, two parallel arrays ... Then the bodies in that order"; "both CRCs,
/// and zeros elsewhere"; "the maker's bytes then stand at 92, the SROM CRC at 94 over bytes 0 to 93";
/// "serve both ROM sizes in the wide one". The CRCs were worked out apart: zlib's CRC-32 and a
/// polynomial division.
#[test]
fn worked_sheet() {
    let small = [[0x4D, 0x4B, 0xE2, 0x01], [0x4D, 0x4B, 0xDC, 0xD9]];
    let large = [[0x4D, 0x4B, 0x21, 0xF7], [0x4D, 0x4B, 0x6F, 0xC5]];
    let last_words = [small, small, large].concat();
    for (served, last_words) in SERVED.into_iter().zip(last_words) {
        let (form, layout) = served;
        let sheet = worked(form);
        let mut image = output(&mut Random::new(6), layout);
        image[..layout.board_end()].fill(0);
        image[..60].copy_from_slice(&WORKED_IMAGE);
        image[..layout.board_end()][layout.leaf_limit()..].copy_from_slice(&last_words);
        image[16] = 0x34;
        let mut before = vec![PATTERN; layout.size.into()];
        let kept = layout.board_end()..;
        before[kept.clone()].copy_from_slice(&image[kept]);
        let written = written_over(&before, &sheet, form, layout);
        assert_eq!(written.as_ref(), Ok(&image), "{served:?}");
        assert_eq!(made(&image, 21140, served), Ok(sheet.clone()));
        let exact = made_in(&image, 21140, served, sheet.len());
        assert_eq!(made_in(&image, 21140, served, sheet.len() - 1), Err(12));
        assert_eq!(exact, Ok(sheet));
        // For another chip the block count is no count, but opens a compact block.
        assert_eq!(made(&image, 21143, served), Err(14));
    }
}

/// "Convert old sheets to wide ones and back": the worked sheet has 66 bytes and two more, and comes
/// back; "24, 33 and 12 only, in that order".
#[test]
fn worked_conversion() {
    for form in FORMS {
        let (sheet, other) = (worked(form), worked(form.other()));
        let (length, needed) = (sheet.len(), other.len());
        assert_eq!((length, needed).min((needed, length)), (66, 68));
        assert_eq!(converted(&sheet, form), Ok(other.clone()));
        for buffer in 0..80 {
            let expected = if buffer < needed {
                Err(12)
            } else {
                Ok(other.clone())
            };
            assert_eq!(converted_in(&sheet, form, buffer), expected, "{buffer}");
            // A sheet of the other form is none of this one.
            assert_eq!(converted_in(&other, form, buffer), Err(24), "{buffer}");
        }
        assert_eq!(written(&other, form), Err(24));
    }
}

/// "24 sheet length or sum": of all values of the sizes one will do, and of all lengths one.
#[test]
fn sizes_and_sums() {
    for form in FORMS {
        let right = worked(form);
        let sizes = form.place(42)..form.place(46);
        for offset in (0..form.place(2)).chain(sizes) {
            for value in 0..=255 {
                let mut sheet = right.clone();
                sheet[offset] = value;
                let expected = (value != right[offset]).then_some(24);
                assert_eq!(written(&sheet, form).err(), expected, "{value} at {offset}");
                assert_eq!(converted(&sheet, form).err(), expected);
            }
        }
        let longer = [right.as_slice(), &[0; 300]].concat();
        for length in 0..longer.len() {
            let expected = (length != right.len()).then_some(24);
            let sheet = &longer[..length];
            assert_eq!(written(sheet, form).err(), expected, "{length}");
            assert_eq!(converted(sheet, form).err(), expected, "{length}");
        }
        // Zeros are a sheet without blocks where they are as many as that has.
        for length in 0..=40 {
            let is_sheet = length == [34, 36][usize::from(form.is_wide())];
            let expected = if is_sheet { Some(7) } else { Some(24) };
            assert_eq!(written(&vec![0; length], form).err(), expected, "{length}");
            let expected = (!is_sheet).then_some(24);
            assert_eq!(converted(&vec![0; length], form).err(), expected);
        }
    }
}

/// Sizes whose sum is T in its low bits only: eight in the narrow form and sixteen in the wide one.
#[test]
fn sums_beyond_the_total() {
    for (form, bodies) in [(Narrow, vec![100, 100, 56]), (Wide, vec![255; 258])] {
        let mut sheet = Sheet::new(21143, 0x0800, &[]);
        sheet.blocks = bodies.iter().map(|&size| (9, vec![0; size])).collect();
        let (count, sum) = (bodies.len(), bodies.iter().sum::<usize>());
        let bytes = sheet.bytes(form);
        let said = sum - form.most() - 1;
        assert_eq!(form.sizes(&bytes), (count, said));
        let as_said = &bytes[..form.length(count, said)];
        for sheet in [&bytes, as_said] {
            assert_eq!(written(sheet, form), Err(24));
            assert_eq!(converted(sheet, form), Err(24));
        }
    }
}

/// "33 N over 255 in a wide sheet, or T over 255 when narrowing, after 24": sheets of 255 blocks and
/// 255 body bytes, of one more of either, and of the most that words can say.
#[test]
fn too_large_sheets() {
    let mut random = Random::new(11);
    for (count, total) in [
        (255, 255),
        (255, 0),
        (2, 255),
        (255, 256),
        (2, 256),
        (256, 255),
        (256, 0),
        (256, 256),
        (511, 0),
        (512, 1),
        (257, 65_535),
        (65_535, 0),
        (65_535, 65_535),
    ] {
        let sheet = Sheet::of_sizes(&mut random, count, total).bytes(Wide);
        assert_eq!(sheet.len(), 36 + 3 * count + total);
        let is_small = count <= 255 && total <= 255;
        let length = 34 + 3 * count + total;
        for buffer in [0, length - 1, length, length + 9] {
            let number = match buffer < length {
                _ if !is_small => Some(33),
                true => Some(12),
                false => None,
            };
            let narrowed = converted_in(&sheet, Wide, buffer);
            assert_eq!(narrowed.as_ref().err(), number.as_ref(), "{count} {total}");
            if let Ok(narrowed) = narrowed {
                let head = [count as u8, total as u8];
                assert_eq!(narrowed, [&head, &sheet[4..]].concat());
                assert_eq!(converted(&narrowed, Narrow), Ok(sheet.clone()));
            }
        }
        // T is no matter to the writer.
        let crowded = written(&sheet, Wide) == Err(33);
        assert_eq!(crowded, count > 255, "{count} {total}");
        // 24 comes first.
        let longer = [sheet.as_slice(), &[0]].concat();
        let mut other_sum = sheet.clone();
        other_sum[2] ^= 1;
        for wrong in [&longer, &other_sum, &sheet[..sheet.len() - 1]] {
            assert_eq!(written(wrong, Wide), Err(24), "{count} {total}");
            assert_eq!(converted_in(wrong, Wide, 0), Err(24), "{count} {total}");
        }
    }
}

/// "Old to wide and back returns the same bytes, and a wide sheet that converts back loses nothing":
/// of sheets with any bytes, whichever way is first, and 33 for none that was narrow.
#[test]
fn return_of_conversions() {
    let mut random = Random::new(12);
    for _ in 0..5_000 {
        let sheet = Sheet::convertible(&mut random);
        for form in FORMS {
            let bytes = sheet.bytes(form);
            let other = converted(&bytes, form).expect("both forms can say it");
            assert_eq!(other, sheet.bytes(form.other()));
            assert_eq!(converted(&other, form.other()), Ok(bytes));
        }
    }
}

/// "The writer and the sheet maker take both": the writer answers to a narrow sheet what it answers to
/// it widened, and leaves the same image, at every stated size but the larger; and what the maker
/// makes of an image of 128 bytes in the wide form is what it makes in the narrow one, widened.
#[test]
fn forms_are_written_and_made_alike() {
    let mut random = Random::new(13);
    for round in 0..20_000 {
        let layout = random.pick(Narrow.layouts());
        let number = random.pick(&sheet_damages(Narrow)[1..]);
        let first_edition = random.one_in(2);
        let sheet = match round % 2 {
            0 => Sheet::valid(&mut random, layout, first_edition).bytes(Narrow),
            _ => Sheet::damaged(&mut random, number, Narrow, layout, first_edition),
        };
        let widened = converted(&sheet, Narrow).expect("its length and sum are right");
        let (stated, output) = match random.one_in(8) {
            true => unserved(&mut random, Wide, layout.magic),
            false => (layout, output(&mut random, layout)),
        };
        if !Narrow.layouts().contains(&stated) && Wide.serves(&output, stated) {
            continue;
        }
        let [narrow, wide] = [(&sheet, Narrow), (&widened, Wide)]
            .map(|(sheet, form)| written_in(&output, sheet, form, stated, first_edition));
        assert_eq!(wide, narrow);
        if let Ok(image) = narrow {
            let newest = Arguments::newest(Narrow.chip(&sheet)).laid_out(layout);
            let made = |form| made_by(&image, newest.in_edition(first_edition), form, ROOMY);
            assert_eq!(made(Narrow), Ok(sheet));
            assert_eq!(made(Wide), Ok(widened));
        }
    }
}

/// "24 sheet length or sum, then 1 for its output, 7, then 25": every length of image but the stated
/// size's, and every stated size that the form does not serve, also one that is the image's length:
/// "the old form gets 1 for any but 128 bytes".
#[test]
fn image_lengths() {
    for form in FORMS {
        let mut no_chip = worked(form);
        no_chip[form.place(27)] += 1;
        let mut wrong_sum = worked(form);
        wrong_sum[form.total()] += 1;
        for length in 0..600 {
            for stated in [length as u16, 128, 512, 0, 127, 256, 65_535] {
                let is_right = match form {
                    Narrow => length == 128 && stated == 128,
                    Wide => [128, 512].contains(&length) && length == stated.into(),
                };
                for (sheet, number) in [
                    (worked(form), if is_right { 0 } else { 1 }),
                    (no_chip.clone(), if is_right { 7 } else { 1 }),
                    (wrong_sum.clone(), 24),
                ] {
                    let mut image = vec![PATTERN; length];
                    let layout = Layout::new(stated, false);
                    let answered = write(&sheet, form, layout, false, &mut image);
                    assert_eq!(answered, number, "{form:?}: {length} as {stated}");
                    let is_unchanged = image.iter().all(|&byte| byte == PATTERN);
                    assert_eq!(is_unchanged, number != 0 || length == 0);
                }
            }
        }
    }
}

/// The same of the sheet maker, whose first cause it is: a tidy card of 512 bytes gets 1 in the narrow
/// form, and every card of which another size is stated in both.
#[test]
fn images_that_are_not_served() {
    let mut random = Random::new(10);
    for layout in LAYOUTS {
        let card = Card::tidy(21143, 0x0800, vec![block::sia(0, None, 1, 2)]);
        let image = card.laid_out(&mut random, layout).image();
        for (stated, form) in [layout.size, 128, 512, 0, 127, 256, 65_535]
            .into_iter()
            .flat_map(|stated| FORMS.map(|form| (stated, form)))
        {
            let is_right = stated == layout.size && (form == Wide || stated == 128);
            let as_stated = Layout::new(stated, layout.magic);
            let made = made(&image, 21143, (form, as_stated));
            let expected = (!is_right).then_some(1);
            assert_eq!(made.err(), expected, "{form:?} {layout:?} as {stated}");
        }
    }
    for _ in 0..1_000 {
        for form in FORMS {
            let magic = random.one_in(2);
            let (layout, image) = unserved(&mut random, form, magic);
            let chip = random.pick(&[21041, 21143, 0]);
            let length = random.pick(&[0, ROOMY]);
            let made = made_in(&image, chip, (form, layout), length);
            assert_eq!(made, Err(1), "{form:?} {layout:?}");
        }
        let layout = random.pick(&[Layout::LARGE_PLAIN, Layout::LARGE_MAGIC]);
        let sample = Sample::valid_in(&mut random, layout);
        let chip = sample.arguments.chip;
        assert_eq!(made(&sample.card.image(), chip, (Narrow, layout)), Err(1));
    }
}

/// "keeps bytes 96 to 127", at 512 bytes those from 480 on, of any output that the reader accepts, and
/// nothing else of it; without the block nothing at all.
#[test]
fn kept_bytes() {
    let mut random = Random::new(7);
    for (form, layout) in SERVED {
        let sheet = Sheet::valid(&mut random, layout, false).bytes(form);
        let first = written_over(&output(&mut random, layout), &sheet, form, layout);
        let first = first.expect("a valid sheet");
        let (board, kept) = first.split_at(if layout.size == SMALL { 96 } else { 480 });
        for _ in 0..1_000 {
            let output = output(&mut random, layout);
            let image = written_over(&output, &sheet, form, layout).expect("a valid sheet");
            assert_eq!(image[..board.len()], *board);
            let expected = if layout.magic {
                &output[board.len()..]
            } else {
                kept
            };
            assert_eq!(image[board.len()..], *expected);
        }
    }
}

/// What the writer of each form answers to a sheet, at the smaller size without a Magic Packet block.
fn number_of_sheet(sheet: &Sheet) -> u8 {
    let [narrow, wide] = FORMS.map(|form| written(&sheet.bytes(form), form));
    assert_eq!(narrow, wide);
    narrow.err().unwrap_or(0)
}

/// The same of a sheet for the chip with one block of this kind and body.
fn number_of(chip: u16, kind: u16, body: &[u8]) -> u8 {
    let mut sheet = Sheet::new(chip, 0x0800, &[]);
    sheet.blocks = vec![(kind, body.to_vec())];
    number_of_sheet(&sheet)
}

/// "25 (kind over 257, a kind of the other family than the chip's": every kind for every chip. What
/// is left to the reader is 14 and 15.
#[test]
fn kinds() {
    for chip in CHIPS {
        for kind in 0..=600 {
            let number = number_of(chip, kind, &[0]);
            let expected = match kind {
                257 if chip == 21041 => 0,
                0..=255 if chip != 21041 => match crate::reader::permitted_kinds(chip) {
                    kinds if kinds.contains(&5) && kind == 5 => 0,
                    kinds if kinds.contains(&kind) => 15,
                    _ if kind < 7 => 14,
                    _ => 0,
                },
                _ => 25,
            };
            assert_eq!(number, expected, "{chip} {kind}");
        }
        for kind in [0x0200, 0x0301, 0x8000, 0xFF00, 0xFFFF] {
            assert_eq!(number_of(chip, kind, &[0]), 25);
        }
    }
}

/// "length 2g+3; a mode byte, g, g words", of which a sheet has what stands behind the type: power
/// blocks go into the image and come back; "the newest reader's number", 31 after 18.
#[test]
fn power_blocks() {
    let blocks = |modes: [u8; 3]| {
        let mut sheet = Sheet::new(21143, 0x0800, &[]);
        sheet.blocks = vec![
            (6, vec![modes[0], 0]),
            (4, vec![3, 0, 0, 0, 0, 0, 0x40]),
            (6, vec![modes[1], 2, 0x21, 0x08, 0x00, 0x00]),
            (6, vec![modes[2], 0]),
        ];
        sheet
    };
    #[rustfmt::skip]
    let leaf = [
        0x00, 0x08, 4,
        0x83, 0x06, 0x01, 0,
        0x88, 0x04, 3, 0, 0, 0, 0, 0, 0x40,
        0x87, 0x06, 0x0E, 2, 0x21, 0x08, 0x00, 0x00,
        0x83, 0x06, 0x80, 0,
    ];
    for form in FORMS {
        let sheet = blocks([0x01, 0x0E, 0x80]).bytes(form);
        let image = written(&sheet, form).expect("the modes differ");
        assert_eq!(image[30..58], leaf);
        assert_eq!(made(&image, 21143, (form, Layout::PLAIN)), Ok(sheet));
    }
    assert_eq!(number_of_sheet(&blocks([0x01, 0x0E, 0x81])), 31);
    assert_eq!(number_of_sheet(&blocks([0x03, 0x02, 0x80])), 31);
    let mut defaults = blocks([0x03, 0x02, 0x80]);
    defaults.blocks.push(defaults.blocks[1].clone());
    assert_eq!(number_of_sheet(&defaults), 18);
    for chip in [21140, 21142] {
        let other = Sheet {
            chip,
            ..blocks([0x03, 0x02, 0x80])
        };
        assert_eq!(number_of_sheet(&other), 14);
    }
}

/// "extended body over 126", where 126 bytes are still too many for a leaf of 128 bytes: 26. A leaf of
/// 512 bytes has room for them.
#[test]
fn extended_bodies() {
    for size in 0..=255 {
        let expected = match size {
            0..=89 => 0,
            90..=126 => 26,
            _ => 25,
        };
        assert_eq!(number_of(21143, 9, &vec![0; size]), expected, "{size}");
        let mut sheet = Sheet::new(21143, 0x0800, &[]);
        sheet.blocks = vec![(9, vec![0; size])];
        let mut image = vec![PATTERN; 512];
        let number = write(
            &sheet.bytes(Wide),
            Wide,
            Layout::LARGE_PLAIN,
            false,
            &mut image,
        );
        assert_eq!(number, if size <= 126 { 0 } else { 25 }, "{size}");
    }
}

/// "compact not 4 bytes or top bit set", also for chips whose reader would answer 14.
#[test]
fn compact_bodies() {
    for (chip, otherwise) in [(21140, 0), (21142, 14), (21143, 14), (21145, 14)] {
        for size in 0..=20 {
            let expected = if size == 4 { otherwise } else { 25 };
            assert_eq!(number_of(chip, 256, &vec![0; size]), expected, "{size}");
        }
        for code in 0x80..=0xFF {
            assert_eq!(number_of(chip, 256, &[code, 0, 0, 0]), 25);
        }
        let wrong_code = if chip == 21140 { 16 } else { 14 };
        assert_eq!(number_of(chip, 256, &[0x7F, 0, 0, 0]), wrong_code);
    }
}

/// "21041 body not 1 or 7 as EXT says".
#[test]
fn media_bodies() {
    for size in 0..=20 {
        for code in [0x00, 0x40, 0x80, 0xC0] {
            let mut body = vec![0; size];
            if let Some(first) = body.first_mut() {
                *first = code;
            }
            let right = if code & 0x40 == 0 { 1 } else { 7 };
            let expected = match size == right {
                true if code & 0x80 == 0 => 0,
                true => 16,
                false => 25,
            };
            assert_eq!(number_of(21041, 257, &body), expected, "{code:#x} {size}");
        }
    }
}

/// "control byte not 0 on a chip but the 21140".
#[test]
fn control_bytes() {
    for chip in CHIPS {
        for control in 0..=255 {
            let mut sheet = Sheet::new(chip, 0x0800, &[]);
            sheet.control = control;
            let is_right = chip == 21140 || control == 0;
            let expected = if is_right { 0 } else { 25 };
            assert_eq!(number_of_sheet(&sheet), expected);
        }
    }
}

/// Blocks of the chip that fill so many places, and as few as can be.
fn filling(chip: u16, places: usize) -> Vec<Vec<u8>> {
    let whole = |size: usize| match (chip, size) {
        (21041, 7) => block::media(0, Some([0; 6])),
        (21041, _) => block::media(0, None),
        _ => block::extended(9, &vec![0; size - 2]),
    };
    let most = if chip == 21041 { 7 } else { 100 };
    let mut blocks = vec![whole(most); places / most];
    match (chip, places % most) {
        (21041, rest) => blocks.extend(vec![whole(1); rest]),
        (_, 0) => {}
        // A block has two bytes at least.
        (_, 1) => {
            blocks.pop();
            blocks.push(whole(most + 1));
        }
        (_, rest) => blocks.push(whole(rest)),
    }
    blocks
}

/// "26 leaf past 123", or 91 with the block, and 384 bytes later at 512 bytes: the last byte there is
/// accepted and the next refused, and 26 comes after 25 and before what the reader says.
#[test]
fn leaf_limits() {
    let mut random = Random::new(8);
    for ((form, layout), last) in SERVED.into_iter().zip(LAST_PLACES) {
        let output = output(&mut random, layout);
        let written = |sheet: &Sheet| written_over(&output, &sheet.bytes(form), form, layout);
        for chip in CHIPS {
            let places = last + 1 - 30 - header_size(chip);
            for size in places - 5..places + 5 {
                let mut sheet = Sheet::new(chip, 0x0800, &filling(chip, size));
                let expected = (size > places).then_some(26);
                assert_eq!(written(&sheet).err(), expected, "{chip} {size}");
                sheet.version = 7;
                let expected = expected.unwrap_or(2);
                assert_eq!(written(&sheet), Err(expected), "{chip} {size}");
                sheet.blocks.push((400, vec![]));
                assert_eq!(written(&sheet), Err(25), "{chip} {size}");
            }
        }
    }
}

/// "A tidy image has n = 1, leaf at 30, zeros after the leaf's last byte up to 123", or "zeros to
/// 91" with the block, and 384 bytes later at 512 bytes: else 27, and 27 before 12.
#[test]
fn tidiness() {
    let mut random = Random::new(9);
    let sia = block::sia(0, None, 1, 2);
    for ((form, layout), last) in SERVED.into_iter().zip(LAST_PLACES) {
        let magic = MagicBlock::of_layout(&mut random, layout);
        let made_of = |card: &Card, chip, length| {
            let image = Card {
                magic,
                ..card.clone()
            }
            .image();
            made_in(&image, chip, (form, layout), length)
        };
        let head = [34, 36][usize::from(form.is_wide())];
        let card = Card::tidy(21143, 0x0800, vec![sia.clone()]).sized(layout.size);
        let length = made_of(&card, 21143, ROOMY).map(|sheet| sheet.len());
        assert_eq!(length, Ok(head + 3 + 5));
        for offset in 40..=last {
            let mut card = card.clone();
            card.private[offset] = 1;
            assert_eq!(made_of(&card, 21143, ROOMY), Err(27), "{offset}");
            assert_eq!(made_of(&card, 21143, 0), Err(27), "{offset}");
        }
        for offset in 31..=last - 9 {
            let leaf = Leaf::new(offset, 21143, 0x0800, vec![sia.clone()]);
            let card = Card::new(1, vec![leaf]).sized(layout.size);
            assert_eq!(made_of(&card, 21143, ROOMY), Err(27), "leaf at {offset}");
        }
        let leaf = Leaf::new(33, 21143, 0x0800, vec![sia.clone()]);
        let card = Card::new(2, vec![leaf]).sized(layout.size);
        assert_eq!(made_of(&card, 21143, ROOMY), Err(27));
        // Bytes that belong to the maker, and those of the ID block, may hold anything.
        let mut card = Card::tidy(21041, 0x0800, vec![]).sized(layout.size);
        card.private[..18].fill(0xFF);
        card.maker = [1, 2];
        let sheet = made_of(&card, 21041, ROOMY).expect("it is tidy");
        assert_eq!(sheet.len(), head);
        assert_eq!(sheet[head - 32..head - 15], [0xFF; 17]);
        assert_eq!(sheet[head - 2..], [1, 2]);
    }
}

/// "it answers the sheet's length, and buffer bytes past it are unchanged"; "12 sheet buffer too
/// short": every buffer's length, for the longest sheet of each form and layout.
#[test]
fn buffer_lengths() {
    let mut random = Random::new(1);
    let lengths = [398, 34 + 4 * 59, 400, 36 + 4 * 59, 1272, 1242];
    for (served, expected) in SERVED.into_iter().zip(lengths) {
        let (form, layout) = served;
        let longest = Sheet::longest(&mut random, layout, false);
        let magic = MagicBlock::of_layout(&mut random, layout);
        let image = longest.card(layout.size, magic).image();
        let sheet = made(&image, 21041, served).expect("it is tidy");
        assert_eq!(sheet, longest.bytes(form));
        assert_eq!(sheet.len(), expected, "{served:?}");
        assert_eq!(form.longest(layout), expected, "{served:?}");
        for length in 0..=ROOMY {
            let expected = if length < sheet.len() {
                Err(12)
            } else {
                Ok(sheet.clone())
            };
            assert_eq!(made_in(&image, 21041, served, length), expected);
        }
    }
}

/// A block of each form and size that a leaf for the chip can hold.
fn block_forms(chip: u16, places: usize) -> Vec<Vec<u8>> {
    let mut forms = match chip {
        21041 => return vec![block::media(0, None), block::media(0, Some([0; 6]))],
        21140 => vec![block::compact(0, 0, 0)],
        _ => vec![],
    };
    let sizes = 2..=places.min(2 + LONGEST_BODY);
    forms.extend(sizes.map(|size| block::extended(9, &vec![0; size - 2])));
    forms
}

/// "Length exactly 34+3N+T", or two more in the wide form: of all ways to fill a leaf up to its last
/// place with blocks, of which its count can name 255, no sheet is longer than the longest, and only
/// that of the 21041 is as long.
#[test]
fn longest_sheet() {
    assert_eq!([LONGEST_SHEET, LONGEST_WIDE_SHEET], [398, 1272]);
    for (form, layout) in SERVED {
        for chip in CHIPS {
            let places = layout.leaf_limit() - TIDY_LEAF - header_size(chip);
            // A block's size, and by how much it lengthens the sheet.
            let lengthens = |block: Vec<u8>| {
                let size = block.len();
                let card = Card::tidy(chip, 0x0800, vec![block]);
                let image = card.laid_out(&mut Random::new(1), layout).image();
                let sheet = made(&image, chip, (form, layout)).expect("it is tidy");
                (size, sheet.len() - form.place(KINDS))
            };
            let forms = block_forms(chip, places);
            let forms: Vec<_> = forms.into_iter().map(lengthens).collect();
            // The longest rest of a sheet for so many places, the fewest first, with one block more
            // each time.
            let mut longest = vec![0; places + 1];
            for _ in 0..HIGHEST_COUNT {
                let with_one_more = |left: usize| {
                    let fitting = forms.iter().filter(|&&(size, _)| size <= left);
                    let ways = fitting.map(|&(size, more)| more + longest[left - size]);
                    ways.max().unwrap_or(0).max(longest[left])
                };
                longest = (0..=places).map(with_one_more).collect();
            }
            let sheet = form.place(KINDS) + longest[places];
            let most = form.longest(layout);
            assert!(sheet <= most, "{chip}: {sheet}");
            assert_eq!(sheet == most, chip == 21041, "{chip}: {sheet}");
        }
    }
}

/// "Sheet maker: reader's numbers (12 apart)" at level 7 for controller 0: every damaged image is
/// refused as the newest reader does, however short the buffer.
#[test]
fn refused_images() {
    let mut random = Random::new(2);
    for form in FORMS {
        for number in TIDY_DAMAGES {
            for _ in 0..200 {
                let sample = damaged(&mut random, number, form);
                let length = random.pick(&[0, 34, ROOMY]);
                let made = made_by(&sample.card.image(), sample.arguments, form, length);
                assert_eq!(made, Err(number), "{sample:02x?}");
            }
        }
    }
}

/// "Writing a sheet and reading it returns that sheet", and the image is tidy, as the maker accepts
/// it: over any output, for every form and layout that it serves.
#[test]
fn return_of_the_sheet() {
    let mut random = Random::new(3);
    for round in 0..30_000 {
        let (form, layout) = SERVED[round % SERVED.len()];
        let first_edition = random.one_in(2);
        let sheet = Sheet::valid(&mut random, layout, first_edition);
        let newest = Arguments::newest(sheet.chip).laid_out(layout);
        let bytes = sheet.bytes(form);
        let output = output(&mut random, layout);
        let image = written_in(&output, &bytes, form, layout, first_edition);
        let image = image.expect("a valid sheet");
        let made = made_by(&image, newest.in_edition(first_edition), form, bytes.len());
        assert_eq!(made, Ok(bytes));
    }
}

/// "making a sheet of a tidy image and writing it returns that image", and with the block "a tidy
/// image comes back when the buffer already holds its bytes 96 to 127": of valid cards, and of those
/// with changed bytes that are accepted still.
#[test]
fn return_of_the_image() {
    let mut random = Random::new(4);
    for served in SERVED {
        let (form, layout) = served;
        let mut met = 0;
        for _ in 0..10_000 {
            let first_edition = random.one_in(2);
            let sheet = Sheet::valid(&mut random, layout, first_edition);
            let magic = MagicBlock::of_layout(&mut random, layout);
            let mut image = sheet.card(layout.size, magic).image();
            if random.one_in(2) {
                image[random.below(layout.leaf_limit())] = random.byte();
                lay_crcs(&mut image, layout);
            }
            let newest = Arguments::newest(sheet.chip).laid_out(layout);
            let newest = newest.in_edition(first_edition);
            if let Ok(made) = made_by(&image, newest, form, ROOMY) {
                let mut output = random.row(image.len());
                let kept = layout.board_end()..;
                output[kept.clone()].copy_from_slice(&image[kept]);
                let again = written_in(&output, &made, form, layout, first_edition);
                assert_eq!(again, Ok(image), "{sheet:02x?}");
                met += 1;
            }
        }
        assert!(met > 5_000, "{served:?}: only {met}");
    }
}

/// The form without allocation writes, makes and converts alike.
#[test]
fn fast_equals_plain() {
    let mut random = Random::new(5);
    for round in 0..60_000 {
        let form = FORMS[round % 2];
        let mut layout = random.pick(form.layouts());
        let first_edition = random.one_in(2);
        let mut sheet = match random.below(4) {
            0 => Sheet::valid(&mut random, layout, first_edition).bytes(form),
            1 => Sheet::wild(&mut random, form),
            _ => {
                let number = random.pick(&sheet_damages(form));
                Sheet::damaged(&mut random, number, form, layout, first_edition)
            }
        };
        if let (true, false) = (random.one_in(2), sheet.is_empty()) {
            let place = random.below(sheet.len());
            sheet[place] = random.byte();
        }
        let mut image = output(&mut random, layout);
        MagicBlock::any(&mut random).lay(&mut image);
        if random.one_in(4) {
            (layout, image) = unserved(&mut random, form, layout.magic);
        }
        let mut fast_image = image.clone();
        let number = write(&sheet, form, layout, first_edition, &mut image);
        let fast_number = fast::write(&sheet, form, layout, first_edition, &mut fast_image);
        assert_eq!(fast_number, number, "{sheet:02x?}");
        assert_eq!(fast_image, image, "{sheet:02x?}");

        let sample = match random.below(3) {
            0 => tidy(&mut random, form),
            1 => Sample::valid(&mut random),
            _ => {
                let number = random.pick(&DAMAGES);
                Sample::damaged(&mut random, number)
            }
        };
        let (image, arguments) = (sample.card.image(), sample.arguments);
        let Arguments { chip, layout, .. } = arguments;
        let laid = made_by(&image, arguments, form, ROOMY);
        let make_fast = |buffer: &mut [u8]| {
            fast::make(&image, chip, form, layout, arguments.first_edition, buffer)
        };
        let made_fast = |length| laid_in(length, make_fast);
        for length in near_lengths(&laid) {
            let plain = made_by(&image, arguments, form, length);
            assert_eq!(made_fast(length), plain, "{length}");
        }

        let sheet = match random.below(3) {
            0 => sheet,
            1 => Sheet::convertible(&mut random).bytes(form),
            _ => {
                let number = random.pick(convert_damages(form));
                Sheet::unconvertible(&mut random, number, form)
            }
        };
        let laid = converted(&sheet, form);
        for length in near_lengths(&laid) {
            let plain = converted_in(&sheet, form, length);
            let fast = laid_in(length, |buffer| match form {
                Narrow => fast::widen(&sheet, buffer),
                Wide => fast::narrow(&sheet, buffer),
            });
            assert_eq!(fast, plain, "{length}: {sheet:02x?}");
        }
    }
}

/// Lengths of buffers about that of a sheet, and others.
fn near_lengths(laid: &Result<Vec<u8>, u8>) -> [usize; 4] {
    let length = laid.as_ref().map_or(34, Vec::len);
    [0, length - 1, length, length + 40]
}
