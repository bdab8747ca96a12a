use super::*;
use crate::calls::{self, Call, Habits};
use crate::cases::{CASES_K, REPORTS_K, card_b, cases};
use crate::edition::FIRST_VERSION;
use crate::images::block::{self, Phy};
use crate::images::{Card, DAMAGES, Image, Sample};
use crate::layout::{LAYOUTS, Layout};
use crate::random::Random;
use crate::reader::{CHIPS, NEWEST_LEVEL, connections, first_block, read_all};
use crate::specification::{self, arguments, number, opened};

fn image(chip: u16, connection: u16, blocks: Vec<Vec<u8>>) -> Image {
    Card::tidy(chip, connection, blocks).image()
}

/// A walk that has read the image.
fn loaded(image: &Image, arguments: Arguments) -> Autosense {
    let mut walk = Autosense::default();
    assert_eq!(walk.load(image, arguments), 0);
    walk
}

/// What is compared after a call: settled, selected, looks and switches.
fn state(walk: &Autosense) -> (bool, u8, u16, u16) {
    let walk = walk.walk();
    (walk.settled, walk.selected, walk.looks, walk.switches)
}

/// The selected blocks after each accepted look.
fn selections(walk: &mut Autosense, reports: &[&[u8]]) -> Vec<u8> {
    let look = |report: &&[u8]| {
        assert_eq!(walk.look(report), 0, "{report:?}");
        walk.walk().selected
    };
    reports.iter().map(look).collect()
}

/// A 21140 leaf: compact blocks with these commands, in which bit 15 is Active_Invalid and 14
/// Default.
fn compacts(connection: u16, commands: &[u16]) -> Autosense {
    let blocks = commands.iter().map(|&it| block::compact(0, 0, it));
    loaded(
        &image(21140, connection, blocks.collect()),
        Arguments::newest(21140),
    )
}

/// "k b, reports 000, 101, 100: none, block 2, block 0, 2 switches; under 0x8800: none, 2, 2, 1
/// switch", and so under 0xFFFF.
#[test]
fn case_k() {
    let case_b = &cases()[1];
    assert_eq!(card_b(0x0800).image(), case_b.image);
    let reports = REPORTS_K.each_ref().map(|report| report.as_slice());
    for case in CASES_K {
        let mut walk = loaded(&card_b(case.connection).image(), case_b.arguments);
        assert_eq!(selections(&mut walk, &reports), case.selected);
        let last = case.selected[2];
        assert_eq!(state(&walk), (true, last, 3, case.switches));
    }
}

/// A row that begins with these flags.
fn row(flags: &[u8]) -> [u8; ROW_LENGTH] {
    let mut row = [0; ROW_LENGTH];
    row[..flags.len()].copy_from_slice(flags);
    row
}

/// "State when loaded: settled (no), selected (none), looks (0), switches (0)", and a flag for each
/// property of each block.
#[test]
fn loaded_rows() {
    let blocks = vec![
        block::symbol(3, 0, 0, 0x8000),
        block::extended(9, &[]),
        block::symbol(6, 0, 0, 0x4000),
        block::reset(&[]),
        block::sia(0, None, 0x8000, 0x8000),
        block::symbol(5, 0, 0, 0xC000),
    ];
    let image = |connection| image(21143, connection, blocks.clone());
    let expected = Walk {
        loaded: true,
        connection: 0x0800,
        blocks: 6,
        rows: Rows {
            listed: row(&[1, 0, 1, 0, 1, 1]),
            active_invalid: row(&[1, 0, 0, 0, 0, 1]),
            fixed: row(&[]),
        },
        default_number: 2,
        settled: false,
        selected: NONE,
        looks: 0,
        switches: 0,
    };
    let walk = |connection, level| {
        let arguments = Arguments::at_level(21143, level);
        loaded(&image(connection), arguments).walk()
    };
    assert_eq!(walk(0x0800, NEWEST_LEVEL), expected);
    // Of the listed blocks the first has the medium of 0x0003.
    let fixed = Walk {
        connection: 0x0003,
        rows: Rows {
            fixed: row(&[1]),
            ..expected.rows
        },
        ..expected
    };
    assert_eq!(walk(0x0003, NEWEST_LEVEL), fixed);
    // A reader that does not know type 4 sees none of these properties, nor the default.
    for before in [expected, fixed] {
        let older = Walk {
            rows: Rows {
                listed: row(&[0, 0, 0, 0, 1]),
                ..Rows::EMPTY
            },
            default_number: NONE,
            ..before
        };
        assert_eq!(walk(before.connection, 4), older);
    }
}

/// "Clearing makes it fresh and always succeeds."
#[test]
fn clearing() {
    let mut walk = Autosense::default();
    assert_eq!(walk.clear(), 0);
    assert_eq!(walk.walk(), Walk::FRESH);
    let mut walk = compacts(0x0800, &[0, 0]);
    selections(&mut walk, &[&[1, 0], &[0, 1]]);
    assert_eq!(walk.clear(), 0);
    assert_eq!(walk.walk(), Walk::FRESH);
    assert_eq!(walk.look(&[0, 0]), 20);
}

/// "Loading reads an image": its refusals but 12 leave the walk fresh; "21 already loaded" comes
/// "before any from the input".
#[test]
fn refused_loads() {
    for case in cases() {
        let mut walk = Autosense::default();
        let arguments = case.arguments;
        let (answer, _) = read_all(&case.image, arguments);
        assert_eq!(walk.load(&case.image, arguments), answer.number);
        assert_eq!(walk.walk().loaded, answer.number == 0);
        let mut walk = compacts(0x0800, &[0]);
        let before = walk.clone();
        assert_eq!(walk.load(&case.image, arguments), 21);
        assert_eq!(walk.load(&[], arguments), 21);
        assert_eq!(walk, before);
    }
    let mut random = Random::new(3);
    for number in DAMAGES {
        let Sample { card, arguments } = Sample::damaged(&mut random, number);
        let mut walk = Autosense::default();
        assert_eq!(walk.load(&card.image(), arguments), number);
        assert_eq!(walk, Autosense::Fresh);
    }
}

/// "Loading reads an image with the reader's arguments", of which the layout is one: a leaf walks
/// alike with a Magic Packet block behind it and without, in a ROM of either size.
#[test]
fn every_layout() {
    let mut random = Random::new(4);
    for _ in 0..1_000 {
        let Sample { card, arguments } = calls::accepted(&mut random, Layout::MAGIC);
        let [mut walk, mut others @ ..] = LAYOUTS.map(|layout| {
            let image = card.clone().laid_out(&mut random, layout).image();
            loaded(&image, arguments.laid_out(layout))
        });
        let habits = Habits::new(&mut random, walk.walk().blocks.into());
        for _ in 0..8 {
            let report = habits.report(&mut random);
            let number = walk.look(&report);
            for other in &mut others {
                assert_eq!(other.look(&report), number);
                assert_eq!(*other, walk);
            }
        }
    }
}

/// "Blocks rise to 255 and walk rows with them": of 255 blocks each is selected where it alone is up,
/// 254 the first in table order, and none where none is; a report of 254 bytes gets 19.
#[test]
fn most_blocks() {
    for layout in [Layout::LARGE_PLAIN, Layout::LARGE_MAGIC] {
        let Sample { card, arguments } = Sample::longest(&mut Random::new(1), layout);
        let image = card.image();
        let mut walk = loaded(&image, arguments);
        let rows = walk.walk().rows;
        assert_eq!(rows.listed[..255], [1; 255]);
        assert_eq!((rows.listed.len(), rows.listed[255]), (256, 0));
        assert_eq!(walk.walk().blocks, 255);
        assert_eq!(walk.look(&[1; 254]), 19);
        assert_eq!(selections(&mut walk, &[&[0; 255]]), [NONE]);
        assert_eq!(state(&walk), (false, NONE, 1, 0));
        for block in (0..255).rev() {
            let mut report = [0; 300];
            report[block] = 1;
            assert_eq!(selections(&mut walk, &[&report]), [block as u8]);
        }
        assert_eq!(state(&walk), (true, 0, 256, 255));
        let mut walk = loaded(&image, arguments);
        assert_eq!(selections(&mut walk, &[&[1; 255]]), [254]);
        assert_eq!(selections(&mut walk, &[&[0; 255]]), [NONE]);
    }
}

/// "by the low byte's media code below 9, else a PHY block with the capability bit of the MII name
/// (0x0009 bit 11, 0x020A bit 12, 0x000D bit 13, 0x020E bit 14, 0x000F bit 15)"; "0x0010 and 0x0211
/// always get" 32.
const FIXED: [(u16, Option<Medium>); 18] = [
    (0x0000, Some(Medium::Code(0))),
    (0x0100, Some(Medium::Code(0))),
    (0x0400, Some(Medium::Code(0))),
    (0x0001, Some(Medium::Code(1))),
    (0x0002, Some(Medium::Code(2))),
    (0x0003, Some(Medium::Code(3))),
    (0x0204, Some(Medium::Code(4))),
    (0x0205, Some(Medium::Code(5))),
    (0x0006, Some(Medium::Code(6))),
    (0x0007, Some(Medium::Code(7))),
    (0x0208, Some(Medium::Code(8))),
    (0x0009, Some(Medium::Capability(11))),
    (0x020A, Some(Medium::Capability(12))),
    (0x000D, Some(Medium::Capability(13))),
    (0x020E, Some(Medium::Capability(14))),
    (0x000F, Some(Medium::Capability(15))),
    (0x0010, None),
    (0x0211, None),
];

/// Every fixed connection type of every chip, with its medium.
fn fixed_types() -> Vec<(u16, u16, Option<Medium>)> {
    let is_sensed = |connection| [0x0800, 0x8800, 0x0900, 0xFFFF].contains(&connection);
    let medium = |connection| FIXED.iter().find(|(fixed, _)| *fixed == connection);
    let mut types = Vec::new();
    for chip in CHIPS {
        for connection in connections(chip).filter(|&it| !is_sensed(it)) {
            let (_, medium) = medium(connection).expect("a fixed type");
            types.push((chip, connection, *medium));
        }
    }
    types
}

/// A block of each form that the chip has for a media code, with all bits set in its words, as if
/// they were capabilities.
fn with_code(chip: u16, code: u8) -> Vec<Vec<u8>> {
    let registers = Some([0xFF; 6]);
    match (chip, code) {
        (21041, 0 | 1 | 2 | 4) => vec![block::media(code, None), block::media(code, registers)],
        (21140, 0 | 1 | 3..=8) => vec![
            block::compact(code, 0xFF, 0xC0FF),
            block::non_mii(code, 0xFF, 0xC0FF),
        ],
        (21142 | 21143 | 21145, 0 | 1 | 2 | 4) => vec![
            block::sia(code, None, 0xFFFF, 0xFFFF),
            block::sia(code, registers, 0xFFFF, 0xFFFF),
        ],
        (21143 | 21145, 3 | 5..=8) => vec![block::symbol(code, 0xFFFF, 0xFFFF, 0xFFFF)],
        _ => vec![],
    }
}

/// The chip's PHY block with these capabilities, whose other fields all are or count this byte; the
/// 21041 has none.
fn phy(chip: u16, capabilities: u16, byte: u8) -> Option<Vec<u8>> {
    let kind = match chip {
        21041 => return None,
        21140 => 1,
        _ => 3,
    };
    let sequence = vec![byte; block::phy_unit(kind) * usize::from(byte)];
    let word = u16::from_le_bytes([byte; 2]);
    let fields = Phy {
        number: byte,
        select: sequence.clone(),
        reset: sequence,
        capabilities,
        advertisement: word,
        full_duplex: word,
        threshold: word,
        removal: byte,
    };
    Some(block::phy(kind as u8, &fields))
}

/// The chip's blocks that have a medium, and those that do not. Of these the PHY block has either
/// the media code all over, or all capabilities but the one.
fn having_and_lacking(chip: u16, medium: Option<Medium>) -> [Vec<Vec<u8>>; 2] {
    let has_code = |code: &u8| medium == Some(Medium::Code(*code));
    let (codes, other_codes): (Vec<_>, Vec<_>) = (0..9).partition(has_code);
    let blocks = |codes: Vec<u8>| codes.into_iter().flat_map(|code| with_code(chip, code));
    let (mut having, mut lacking): (Vec<_>, Vec<_>) =
        (blocks(codes).collect(), blocks(other_codes).collect());
    match medium {
        Some(Medium::Code(code)) => lacking.extend(phy(chip, 0xFFFF, code)),
        Some(Medium::Capability(bit)) => {
            having.extend(phy(chip, 1 << bit, 0));
            lacking.extend(phy(chip, !(1 << bit), 0));
        }
        None => lacking.extend(phy(chip, 0xFFFF, 0)),
    }
    [having, lacking]
}

/// "A look under a fixed type selects the first listed block for it", whatever stands behind and
/// before it in the table: on the 21140 also a compact block and type 0 for one medium. "32 no
/// listed block has the fixed medium": with every block that the chip has for another, a PHY block
/// with the media code's number in its bytes among them, and with none.
#[test]
fn fixed_types_select() {
    let mut met = 0;
    for (chip, connection, medium) in fixed_types() {
        let look = |blocks: &[&Vec<u8>]| {
            let blocks: Vec<_> = blocks.iter().map(|&it| it.clone()).collect();
            let report = vec![0; blocks.len()];
            let mut walk = loaded(&image(chip, connection, blocks), Arguments::newest(chip));
            let number = walk.look(&report);
            (number, state(&walk))
        };
        let selected = |block| (0, (true, block, 1, 1));
        let refused = (32, (false, NONE, 0, 0));
        let [having, lacking] = having_and_lacking(chip, medium);
        assert_eq!(look(&[]), refused, "{chip} {connection:#06x}");
        for other in &lacking {
            assert_eq!(look(&[other]), refused, "{chip} {connection:#06x}");
            for first in &having {
                assert_eq!(look(&[first, other]), selected(0));
                for second in &having {
                    assert_eq!(look(&[first, second, other]), selected(1));
                    assert_eq!(look(&[other, first, second]), selected(2));
                    met += 1;
                }
            }
        }
    }
    assert!(met > 500, "only {met}");
}

/// "From the state, before any from the input ... Look: 20 fresh; 22 fixed type; 23 looks at
/// 65,535", where "32 no listed block has the fixed medium" stands "in 22's place", and "Link bytes
/// are still judged by 19": the first cause of this order that is met, under each connection type.
#[test]
fn refused_looks() {
    assert_eq!(Autosense::default().look(&[]), 20);
    let mut met = [0; 33];
    for chip in CHIPS {
        for connection in connections(chip) {
            let fixed = FIXED.iter().find(|(fixed, _)| *fixed == connection);
            for code in 0..9 {
                let Some(block) = with_code(chip, code).pop() else {
                    continue;
                };
                let is_missing =
                    fixed.is_some_and(|(_, medium)| *medium != Some(Medium::Code(code)));
                let image = image(chip, connection, vec![block]);
                for looks in [0, u16::MAX - 1, u16::MAX] {
                    for report in [&[][..], &[2], &[0], &[1], &[0, 2]] {
                        let mut walk = with_looks(looks, &loaded(&image, Arguments::newest(chip)));
                        let before = walk.clone();
                        let is_report = !report.is_empty() && report[0] < 2;
                        let expected = match (is_missing, looks, is_report) {
                            (true, ..) => 32,
                            (false, u16::MAX, _) => 23,
                            (false, _, false) => 19,
                            (false, _, true) => 0,
                        };
                        let place = format!("{connection:#06x} {code} {looks} {report:?}");
                        assert_eq!(walk.look(report), expected, "{place}");
                        assert_eq!(walk == before, expected != 0, "{place}");
                        met[usize::from(expected)] += 1;
                    }
                }
            }
        }
    }
    assert!([0, 19, 23, 32].iter().all(|&it| met[it] > 200), "{met:?}");
}

/// The same walk after so many looks.
fn with_looks(looks: u16, walk: &Autosense) -> Autosense {
    let mut walk = walk.clone();
    if let Autosense::Loaded(loaded) = &mut walk {
        loaded.looks = looks;
    }
    walk
}

/// "Settled becomes yes, and step 3 counts as ever. Link bytes ... don't matter": nor do
/// Active_Invalid, a default and where the walk stands.
#[test]
fn fixed_whatever_else() {
    for (first, choice) in [(0, 0), (0, 0x8000), (0x8000, 0), (0x8000, 0x8000)] {
        let blocks = [(0, first), (0, choice), (1, 0x4000)];
        let blocks = blocks.map(|(code, command)| block::compact(code, 0, command));
        let image = image(21140, 0x0000, blocks.to_vec());
        let start = loaded(&image, Arguments::newest(21140));
        assert_eq!(start.walk().default_number, 2);
        for selected in [None, Some(0), Some(1), Some(2)] {
            for settled in [false, true] {
                for links in 0..1 << 3 {
                    let mut walk = standing(settled, selected, &start);
                    let report = [0, 1, 2].map(|block| links >> block & 1);
                    let by_rows = fast::look(walk.walk(), &report);
                    assert_eq!((walk.look(&report), by_rows.number), (0, 0));
                    let switches = u16::from(selected != Some(1));
                    assert_eq!(state(&walk), (true, 1, 1, switches), "{report:?}");
                    assert_eq!(by_rows.walk, walk.walk());
                }
            }
        }
    }
}

/// The same walk, settled or not, with a block selected.
fn standing(settled: bool, selected: Option<usize>, walk: &Autosense) -> Autosense {
    let mut walk = walk.clone();
    if let Autosense::Loaded(loaded) = &mut walk {
        (loaded.settled, loaded.selected) = (settled, selected);
    }
    walk
}

/// "Clearing makes it fresh", and a load after it goes by its own image: a medium that is there,
/// one that is not, and a type that is autosensed.
#[test]
fn fixed_and_loaded_again() {
    let blocks = [0, 3].map(|code| block::compact(code, 0, 0)).to_vec();
    let mut walk = Autosense::default();
    for (connection, number, selected) in [
        (0x0000, 0, 0),
        (0x0007, 32, NONE),
        (0x0003, 0, 1),
        (0x0800, 0, NONE),
        (0x0100, 0, 0),
    ] {
        let image = image(21140, connection, blocks.clone());
        assert_eq!(walk.load(&image, Arguments::newest(21140)), 0);
        assert_eq!(walk.look(&[0, 0]), number, "{connection:#06x}");
        assert_eq!(walk.walk().selected, selected, "{connection:#06x}");
        assert_eq!(walk.clear(), 0);
        assert_eq!(walk.look(&[0, 0]), 20);
    }
}

/// "A look under a fixed type selects the first listed block for it": whatever the reports, every
/// accepted look of a walk selects one block, and the first alone is a switch; or all are refused
/// with 32.
#[test]
fn fixed_looks() {
    let mut random = Random::new(6);
    let mut met = [0; 33];
    for _ in 0..5_000 {
        let sample = calls::fixed(&mut random);
        let mut walk = loaded(&sample.card.image(), sample.arguments);
        let choice = walk.walk().fixed_choice();
        let habits = Habits::new(&mut random, walk.walk().blocks.into());
        let mut looks = 0;
        for report in habits.reports(&mut random, 12) {
            let number = walk.look(&report);
            met[usize::from(number)] += 1;
            looks += u16::from(number == 0);
            let expected = match choice {
                Some(block) if looks > 0 => (true, block as u8, looks, 1),
                _ => (false, NONE, 0, 0),
            };
            assert_eq!(state(&walk), expected, "{sample:02x?}");
            assert_eq!(number == 32, choice.is_none(), "{sample:02x?}");
        }
    }
    assert!([0, 19, 32].iter().all(|&it| met[it] > 2_000), "{met:?}");
}

/// "19 report shorter than the block count, or one of those bytes above 1"; "later bytes are
/// ignored".
#[test]
fn reports() {
    let walk = compacts(0x0800, &[0, 0, 0]);
    for (report, expected) in [
        (&[][..], 19),
        (&[0, 0], 19),
        (&[1, 1], 19),
        (&[0, 0, 2], 19),
        (&[255, 0, 0], 19),
        (&[0, 2, 0, 0], 19),
        (&[0, 2], 19),
        (&[0, 0, 0], 0),
        (&[1, 1, 1], 0),
        (&[0, 1, 0, 2], 0),
        (&[0, 0, 0, 255, 255], 0),
    ] {
        let mut walk = walk.clone();
        let before = walk.clone();
        assert_eq!(walk.look(report), expected, "{report:?}");
        assert_eq!(walk == before, expected != 0, "{report:?}");
    }
    // Without blocks every report will do.
    let mut walk = compacts(0x0800, &[]);
    assert_eq!(selections(&mut walk, &[&[], &[255]]), [NONE, NONE]);
}

/// "With none up, the default is selected, or none; settled is unchanged", before a block has been
/// up and after.
#[test]
fn default_selected() {
    let mut walk = compacts(0x0800, &[0x4000, 0, 0]);
    assert_eq!(walk.look(&[0, 0, 0]), 0);
    assert_eq!(state(&walk), (false, 0, 1, 1));
    assert_eq!(walk.look(&[0, 0, 0]), 0);
    assert_eq!(state(&walk), (false, 0, 2, 1));
    // Not settled, so it does not stay although it is up.
    assert_eq!(walk.look(&[1, 0, 1]), 0);
    assert_eq!(state(&walk), (true, 2, 3, 2));
    assert_eq!(walk.look(&[0, 0, 0]), 0);
    assert_eq!(state(&walk), (true, 0, 4, 3));
    // Settled with the default selected: it stays while it is up.
    assert_eq!(walk.look(&[1, 0, 1]), 0);
    assert_eq!(state(&walk), (true, 0, 5, 3));
    assert_eq!(walk.look(&[0, 1, 1]), 0);
    assert_eq!(state(&walk), (true, 2, 6, 4));
}

/// "none counts as a selection": a change to it and from it is a switch.
#[test]
fn none_selected() {
    let mut walk = compacts(0x0800, &[0, 0]);
    let reports: [&[u8]; 6] = [&[0, 0], &[1, 0], &[1, 1], &[0, 0], &[0, 0], &[1, 1]];
    let selected = selections(&mut walk, &reports);
    assert_eq!(selected, [NONE, 0, 0, NONE, NONE, 1]);
    assert_eq!(state(&walk), (true, 1, 6, 3));
}

/// "the candidates are all listed entries, or, once settled, those without Active_Invalid"; such a
/// block stays selected.
#[test]
fn active_invalid() {
    // At first it is a candidate like all others, and then it stays.
    let mut walk = compacts(0x0800, &[0, 0x8000]);
    assert_eq!(
        selections(&mut walk, &[&[1, 1], &[1, 0], &[0, 0]]),
        [1, 1, 1]
    );
    assert_eq!(state(&walk), (true, 1, 3, 1));
    // Once settled on another, it is no candidate any more.
    let mut walk = compacts(0x0800, &[0, 0x8000]);
    assert_eq!(
        selections(&mut walk, &[&[1, 0], &[0, 1], &[0, 1], &[1, 1]]),
        [0, NONE, NONE, 0]
    );
    assert_eq!(state(&walk), (true, 0, 4, 3));
    // The default bit does not count beside it.
    let mut walk = compacts(0x0800, &[0, 0xC000]);
    assert_eq!(selections(&mut walk, &[&[0, 0]]), [NONE]);
}

/// "it stays where the type is 0x8800", and so where it is 0xFFFF: only with a block selected and
/// settled.
#[test]
fn sensed_once() {
    for connection in [0x8800, 0xFFFF] {
        let mut walk = compacts(connection, &[0x4000, 0, 0]);
        let reports: [&[u8]; 5] = [&[0, 0, 0], &[0, 0, 1], &[1, 1, 0], &[0, 0, 0], &[1, 0, 0]];
        assert_eq!(selections(&mut walk, &reports), [0, 2, 2, 2, 2]);
        assert_eq!(state(&walk), (true, 2, 5, 2));
    }
}

/// The same walk under another connection type.
fn under(connection: u16, walk: &Autosense) -> Autosense {
    let mut walk = walk.clone();
    if let Autosense::Loaded(loaded) = &mut walk {
        loaded.connection = connection;
    }
    walk
}

/// "Such a card walks as 0x8800 does": of two walks that are equal but for the connection type, each
/// look of a list answers the same number and leaves them equal but for it. Thousands of the looks
/// would leave a walk under 0x0800 on another block.
#[test]
fn empty_connection() {
    let mut random = Random::new(5);
    let mut otherwise = 0;
    for _ in 0..10_000 {
        let sample = calls::emptied(&mut random);
        let mut empty = loaded(&sample.card.image(), sample.arguments);
        assert_eq!(empty.walk().connection, 0xFFFF);
        let mut once = under(0x8800, &empty);
        let habits = Habits::new(&mut random, empty.walk().blocks.into());
        for report in habits.reports(&mut random, 8) {
            let mut every_look = under(0x0800, &empty);
            every_look.look(&report);
            assert_eq!(empty.look(&report), once.look(&report), "{sample:02x?}");
            assert_eq!(under(0x8800, &empty), once, "{sample:02x?}");
            otherwise += usize::from(every_look.walk().selected != empty.walk().selected);
        }
    }
    assert!(otherwise > 5_000, "only {otherwise}");
}

/// "They are counted as power ..., not listed": a power block has no flag, is no candidate though its
/// byte is 1, and leaves the blocks behind it their numbers, at the newest level and below; an image
/// refused with 31 is loaded below.
#[test]
fn power_blocks() {
    let blocks = |mode| {
        vec![
            block::power(0x01, &[]),
            block::sia(0, None, 0, 0),
            block::power(mode, &[1]),
            block::symbol(3, 0, 0, 0x4000),
            block::power(0x80, &[]),
        ]
    };
    let listed = [0, 1, 0, 1, 0];
    for level in 5..=NEWEST_LEVEL {
        let image = image(21143, 0x0800, blocks(0x0E));
        let mut walk = loaded(&image, Arguments::at_level(21143, level));
        let rows = walk.walk().rows;
        assert_eq!(rows.listed[..5], listed);
        assert_eq!(rows.active_invalid, [0; ROW_LENGTH]);
        assert_eq!(walk.walk().default_number, 3);
        let reports: [&[u8]; 3] = [&[1, 0, 1, 0, 1], &[1, 1, 1, 0, 1], &[1, 1, 1, 1, 1]];
        assert_eq!(selections(&mut walk, &reports), [3, 1, 1]);
    }
    let repeated = image(21143, 0x0800, blocks(0x0F));
    let mut walk = Autosense::default();
    assert_eq!(walk.load(&repeated, Arguments::newest(21143)), 31);
    assert_eq!(walk.load(&repeated, Arguments::at_level(21143, 6)), 0);
    assert_eq!(walk.walk().rows.listed[..5], listed);
}

/// "The first in table order": of all that are up, the last block of the leaf that is listed.
#[test]
fn table_order() {
    let blocks = vec![
        block::sia(0, None, 0, 0),
        block::phy(3, &block::Phy::default()),
        block::sia(1, None, 0, 0),
        block::reset(&[]),
        block::extended(7, &[1, 2]),
    ];
    let image = image(21143, 0x0800, blocks);
    for (level, expected) in [(7, 2), (5, 2), (4, 2), (3, 2), (2, NONE), (0, NONE)] {
        let mut walk = loaded(&image, Arguments::at_level(21143, level));
        assert_eq!(selections(&mut walk, &[&[1; 5]]), [expected]);
    }
    for (level, expected) in [(7, 1), (4, 1), (3, 0)] {
        let mut walk = loaded(&image, Arguments::at_level(21143, level));
        assert_eq!(selections(&mut walk, &[&[1, 1, 0, 1, 1]]), [expected]);
    }
}

/// "the default medium must be none of the removed entries, and no accepted look may have a removed
/// entry up": an image and a report for each, with the other met, where newest and older part.
/// Under a fixed type, "the newest choice is an entry that it lists": images with another choice,
/// where the older walk selects another block or is refused with 32.
#[test]
fn conditions_are_needed() {
    let sia = block::sia(0, None, 0, 0);
    let pair = |command| {
        let blocks = vec![sia.clone(), block::symbol(3, 0, 0, command)];
        let image = image(21143, 0x0800, blocks);
        [NEWEST_LEVEL, 4].map(|level| loaded(&image, Arguments::at_level(21143, level)))
    };
    let [mut newest, mut older] = pair(0x4000);
    assert_eq!(selections(&mut newest, &[&[0, 0]]), [1]);
    assert_eq!(selections(&mut older, &[&[0, 0]]), [NONE]);
    let [mut newest, mut older] = pair(0x0000);
    assert_eq!(selections(&mut newest, &[&[1, 1]]), [1]);
    assert_eq!(selections(&mut older, &[&[1, 1]]), [0]);
    for (code, number, selected) in [(0, 0, 0), (3, 32, NONE)] {
        let blocks = vec![block::compact(0, 0, 0), block::non_mii(code, 0, 0)];
        let image = image(21140, code.into(), blocks);
        let [mut newest, mut older] =
            [NEWEST_LEVEL, 0].map(|level| loaded(&image, Arguments::at_level(21140, level)));
        assert_eq!(selections(&mut newest, &[&[0, 0]]), [1]);
        assert_eq!(older.look(&[0, 0]), number);
        assert_eq!(older.walk().selected, selected);
    }
}

/// "23 looks at 65,535", after as many looks, each of them a switch; it comes before 19, and
/// clearing ends it.
#[test]
fn looks_spent() {
    let mut walk = compacts(0x0800, &[0, 0]);
    for look in 0..65_535 {
        let is_even = look % 2 == 0;
        assert_eq!(walk.look(&[is_even.into(), (!is_even).into()]), 0, "{look}");
    }
    assert_eq!(state(&walk), (true, 0, 65_535, 65_535));
    let before = walk.clone();
    for report in [&[][..], &[0, 0], &[0, 1], &[2, 0]] {
        assert_eq!(walk.look(report), 23);
        assert_eq!(walk, before);
    }
    assert_eq!(walk.clear(), 0);
    assert_eq!(walk.look(&[0, 0]), 20);
}

/// The walk on its rows takes the same steps.
#[test]
fn fast_equals_plain() {
    let mut random = Random::new(1);
    for _ in 0..20_000 {
        let sample = calls::sample(&mut random);
        let image = sample.card.image();
        let blocks = calls::block_count(&image, sample.arguments);
        let habits = Habits::new(&mut random, blocks);
        let (mut plain, mut by_rows) = (Autosense::default(), fast::fresh());
        assert_eq!(by_rows, plain.walk());
        for call in habits.list(&mut random, 16) {
            let (number, walked) = match &call {
                Call::Load => (
                    plain.load(&image, sample.arguments),
                    fast::load(by_rows, &image, sample.arguments),
                ),
                Call::Look(report) => (plain.look(report), fast::look(by_rows, report)),
                Call::Clear => (plain.clear(), fast::clear(by_rows)),
            };
            assert_eq!(walked.number, number, "{call:?} {sample:02x?}");
            assert_eq!(walked.walk, plain.walk(), "{call:?} {sample:02x?}");
            by_rows = walked.walk;
        }
    }
}

/// "The first in table order that is up": on valid cards, what is selected is up, listed and above
/// all others that are, whenever a walk settles.
#[test]
fn settling() {
    let mut random = Random::new(2);
    let mut met = 0;
    for _ in 0..20_000 {
        let mut sample = Sample::valid(&mut random);
        calls::autosense(&mut random, &mut sample.card);
        calls::mark(&mut random, &mut sample.card);
        let image = sample.card.image();
        let mut walk = loaded(&image, sample.arguments);
        let before = walk.walk();
        let habits = Habits::new(&mut random, before.blocks.into());
        let report = habits.links(&mut random);
        assert_eq!(walk.look(&report), 0);
        let is_listed = |block: usize| before.rows.listed[block] == 1;
        let up = (0..report.len()).filter(|&block| report[block] == 1 && is_listed(block));
        let last = up.max().map(|block| block as u8);
        let after = walk.walk();
        assert_eq!(after.settled, last.is_some());
        assert_eq!(after.selected, last.unwrap_or(before.default_number));
        met += usize::from(after.settled);
    }
    assert!(met > 5_000, "only {met} walks settled");
}

/// The looks that crates/walk computes with, at a walk of five blocks: block 1 is not listed, block
/// 3 has Active_Invalid, and those have the fixed medium that the maker of the case names: blocks 0
/// and 2, none, or 2 and 3.
#[test]
fn worked_looks() {
    let text = specification::text("walk/specs/Cases.antt");
    let cases = specification::cases(&text, "look_cases");
    assert!(cases.len() >= 30, "only {} looks", cases.len());
    for connection in ["0x0800", "0x0900", "0x8800", "0xFFFF", "0x0003"] {
        let mut types = cases.iter().map(|(_, words)| words[0]);
        assert!(types.any(|it| it == connection), "none under {connection}");
    }
    for maker in ["look", "look_without", "look_invalid"] {
        let mut makers = cases.iter().map(|(made_by, _)| *made_by);
        assert!(makers.any(|it| it == maker), "none made by {maker}");
    }
    for (made_by, words) in cases {
        let begin = format!("{made_by} = look_of ");
        let mut fixed = text.lines().filter_map(|line| line.strip_prefix(&begin));
        let fixed = specification::bytes(fixed.next().expect("the case has a maker"));
        let table = [4, 3, 2, 0].map(|block| Entry {
            block,
            is_active_invalid: block == 3,
            has_fixed_medium: fixed[block] == 1,
        });
        let some = |word: &str| Some(number(word)).filter(|&block| block != usize::from(NONE));
        let walk = |state: &str| {
            let state = arguments(state);
            assert_eq!(state[0], "stands");
            Autosense::Loaded(Loaded {
                connection: number(words[0]) as u16,
                blocks: 5,
                table: table.to_vec(),
                default: some(words[1]),
                settled: state[1].parse().unwrap(),
                selected: some(state[2]),
                looks: state[3].parse().unwrap(),
                switches: state[4].parse().unwrap(),
            })
        };
        let mut after = walk(words[2]);
        let answer = after.look(&specification::bytes(words[3]));
        assert_eq!(answer.to_string(), words[4], "{words:?}");
        assert_eq!(after, walk(words[5]), "{words:?}");
    }
}

/// The names of FixedCases.antt that it defines in one line, each before those that it is made of.
const FIXED_MAKERS: [&str; 11] = [
    "on21041",
    "on_port",
    "on_sia",
    "on_symbol",
    "block21041",
    "compact_block",
    "type0",
    "type1",
    "type2",
    "type3",
    "type4",
];

/// The text of FixedCases.antt without parentheses.
fn fixed_text() -> String {
    specification::text("walk/specs/FixedCases.antt").replace(['(', ')'], "")
}

/// The list that the text defines under a name, with one sign between elements and without its end.
fn defined(text: &str, name: &str) -> String {
    let (_, behind) = text.split_once(&format!("\n{name} =")).unwrap();
    let list = behind.split("\n\n").next().unwrap();
    list.replace("++", "∷").replace("[]", "")
}

/// The elements of a table of fixed types and of the lists in it, with their blocks as bytes.
fn fixed_table(text: &str, name: &str) -> Vec<String> {
    let mut list = defined(text, name);
    if let Some((_, symbols)) = list.split_once("fixed_with") {
        list = defined(text, "fixed_with symbols").replace("symbols", symbols);
    }
    for phy in ["type1", "type3"] {
        let phys = defined(text, "on_phy phy").replace("phy", phy);
        list = list.replace(&format!("on_phy {phy}"), &phys);
    }
    let elements = list.split('∷').map(|it| opened(it, text, &FIXED_MAKERS));
    elements.filter(|it| !it.is_empty()).collect()
}

/// The blocks that stand one behind the other in a list of bytes.
fn blocks_of(list: &str, chip: u16) -> Vec<Vec<u8>> {
    let bytes = specification::bytes(list);
    let mut rest = &bytes[..];
    let mut blocks = Vec::new();
    while let Some(block) = first_block(rest, chip) {
        blocks.push(block.to_vec());
        rest = &rest[block.len()..];
    }
    assert!(rest.is_empty(), "{list}");
    blocks
}

/// The number that a first look answers, and the block that is then selected, with all links down
/// and with all up.
fn first_looks(chip: u16, connection: u16, blocks: &[Vec<u8>]) -> [(u8, u8); 2] {
    // The codes of edition 1.00 are of version 1.
    let is_first = taken_as(connection) != connection;
    let mut card = Card::tidy(chip, connection, blocks.to_vec());
    if is_first {
        card.version = FIRST_VERSION;
    }
    let image = card.image();
    [0, 1].map(|link| {
        let mut walk = loaded(&image, Arguments::newest(chip).in_edition(is_first));
        let number = walk.look(&vec![link; blocks.len()]);
        (number, walk.walk().selected)
    })
}

/// "A look under a fixed type selects the first listed block for it", and "32 no listed block has
/// the fixed medium": crates/walk computes with two blocks that have the medium and one that has
/// another, or, where the chip can hold none, with the last alone, for each fixed type of each chip.
#[test]
fn worked_fixed_types() {
    let text = fixed_text();
    let mut types = Vec::new();
    let tables = defined(&text, "fixed_tables");
    for (chip, table) in CHIPS.into_iter().zip(tables.split('∷')) {
        for element in fixed_table(&text, table.trim()) {
            let words: Vec<_> = element.splitn(3, ' ').collect();
            let connection = number(words[1]) as u16;
            let blocks = blocks_of(words[2], chip);
            let looks = |blocks: &[Vec<u8>]| first_looks(chip, connection, blocks);
            let other = match (words[0], blocks.len()) {
                ("held", 3) => {
                    assert_eq!(looks(&blocks[..1]), [(0, 0); 2], "{element}");
                    assert_eq!(looks(&blocks), [(0, 1); 2], "{element}");
                    &blocks[2..]
                }
                ("not_held", 1) => &blocks,
                _ => panic!("{element}"),
            };
            assert_eq!(looks(other), [(32, NONE); 2], "{element}");
            types.push((chip, connection));
        }
    }
    let every_type = fixed_types().into_iter();
    assert!(every_type.map(|(chip, it, _)| (chip, it)).eq(types));
}

/// The same of the leaves that it writes out.
#[test]
fn worked_fixed_leaves() {
    let text = fixed_text();
    let mut met = 0;
    for line in defined(&text, "fixed_cases").lines() {
        let Some((_, case)) = line.split_once("case_of ") else {
            continue;
        };
        let case = opened(case, &text, &FIXED_MAKERS);
        let words: Vec<_> = case.split(' ').collect();
        let [chip, connection, list @ .., answer, selected] = &words[..] else {
            panic!("{case}");
        };
        let [chip, connection] = [chip, connection].map(|it| number(it) as u16);
        let expected = (number(answer) as u8, number(selected) as u8);
        let looks = first_looks(chip, connection, &blocks_of(&list.join(" "), chip));
        assert_eq!(looks, [expected; 2], "{case}");
        met += 1;
    }
    assert!(met >= 6, "only {met} leaves");
}
