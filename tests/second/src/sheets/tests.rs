use super::*;
use crate::images::MAGIC_DAMAGES;
use crate::sheet::{served_editions, write};

/// "Writing a sheet": each valid sheet is accepted, with the image that the builder of images lays,
/// and behind it the block that the output held.
#[test]
fn valid_sheets_are_accepted() {
    let mut random = Random::new(1);
    for (form, layout, first_edition) in served_editions() {
        let (mut last_places, mut longest) = (0, 0);
        for _ in 0..5_000 {
            let sheet = Sheet::valid(&mut random, layout, first_edition);
            let magic = MagicBlock::of_layout(&mut random, layout);
            let mut image = random.row(layout.size.into());
            if let Some(block) = magic {
                block.lay(&mut image);
            }
            let bytes = sheet.bytes(form);
            assert_eq!(
                write(&bytes, form, layout, first_edition, &mut image),
                0,
                "{sheet:02x?}"
            );
            assert_eq!(
                image,
                sheet.card(layout.size, magic).image(),
                "{sheet:02x?}"
            );
            last_places += usize::from(sheet.leaf_end() == layout.leaf_limit());
            longest += usize::from(bytes.len() == form.longest(layout));
        }
        assert!(
            last_places > 250 && longest > 50,
            "{form:?} {layout:?}: only {last_places} leaves up to the limit, {longest} longest"
        );
    }
}

/// "serve both ROM sizes in the wide one; the old form gets 1 for any but 128 bytes", after 24 and 33:
/// an output that is not served is refused with 1 whatever else is wrong.
#[test]
fn outputs_that_are_not_served() {
    let mut random = Random::new(5);
    for (form, layout, first_edition) in served_editions() {
        for number in [0].into_iter().chain(sheet_damages(form)) {
            for _ in 0..200 {
                let sheet = match number {
                    0 => Sheet::valid(&mut random, layout, first_edition).bytes(form),
                    _ => Sheet::damaged(&mut random, number, form, layout, first_edition),
                };
                let (stated, before) = unserved(&mut random, form, layout.magic);
                let mut image = before.clone();
                let expected = if [24, 33].contains(&number) {
                    number
                } else {
                    1
                };
                let answered = write(&sheet, form, stated, first_edition, &mut image);
                assert_eq!(answered, expected, "{form:?} {stated:?}");
                assert_eq!(image, before, "{form:?} {stated:?}");
            }
        }
    }
}

/// "its cause met and no earlier cause ... image unchanged": each damage is refused with its own
/// number.
#[test]
fn damages_are_refused() {
    let mut random = Random::new(2);
    for (form, layout, first_edition) in served_editions() {
        for number in sheet_damages(form) {
            for _ in 0..500 {
                let sheet = Sheet::damaged(&mut random, number, form, layout, first_edition);
                let before = output(&mut random, layout);
                let mut image = before.clone();
                let answered = write(&sheet, form, layout, first_edition, &mut image);
                assert_eq!(answered, number, "{form:?} {layout:?} {sheet:02x?}");
                assert_eq!(image, before, "{sheet:02x?}");
            }
        }
    }
}

/// "then": of two damaged fields the one that the writer meets first is answered.
#[test]
fn first_cause_first() {
    let mut random = Random::new(3);
    for (form, layout, first_edition) in served_editions() {
        let damages = sheet_damages(form);
        for (place, &first) in damages[1..].iter().enumerate() {
            for &later in &damages[2 + place..] {
                // From 14 to 17 the first block that is refused decides, not the number.
                if [14, 15, 16, 17].contains(&first) && later < 18 {
                    continue;
                }
                meets_first(&mut random, [first, later], form, layout, first_edition);
            }
        }
    }
}

/// Two damages to each of some sheets.
fn meets_first(
    random: &mut Random,
    [first, later]: [u8; 2],
    form: Form,
    layout: Layout,
    first_edition: bool,
) {
    let (mut met, mut tries) = (0, 0);
    while met < 20 && tries < 100_000 {
        tries += 1;
        let mut sheet = Sheet::valid(random, layout, first_edition);
        let mut damages = |number| sheet.damage(random, number, form, layout, first_edition);
        if damages(later) && damages(first) {
            let mut image = output(random, layout);
            let number = write(&sheet.bytes(form), form, layout, first_edition, &mut image);
            assert_eq!(number, first, "{later}: {sheet:02x?}");
            met += 1;
        }
    }
    assert_eq!(met, 20, "{first} and {later}");
}

/// "keeps bytes 96 to 127, judged with the rest": a damaged block of the output is refused with its
/// own number, where the writer meets no cause before: 24, 33, 7, 25, 26, and the reader's 2.
#[test]
fn blocks_of_the_output() {
    let mut random = Random::new(4);
    let before = [24, 33, 7, 25, 26, 2];
    for (form, layout, first_edition) in served_editions().filter(|(_, layout, _)| layout.magic) {
        for block in MAGIC_DAMAGES {
            for number in [0].into_iter().chain(sheet_damages(form)) {
                for _ in 0..100 {
                    let sheet = match number {
                        0 => Sheet::valid(&mut random, layout, first_edition).bytes(form),
                        _ => Sheet::damaged(&mut random, number, form, layout, first_edition),
                    };
                    let mut output = output(&mut random, layout);
                    MagicBlock::damaged(&mut random, block).lay(&mut output);
                    let expected = if before.contains(&number) {
                        number
                    } else {
                        block
                    };
                    let mut image = output.clone();
                    let answered = write(&sheet, form, layout, first_edition, &mut image);
                    assert_eq!(answered, expected, "{block} and {number}: {sheet:02x?}");
                    assert_eq!(image, output);
                }
            }
        }
    }
}
