//! What crates/worked, crates/worked_large, crates/packet, crates/image and crates/leaf compute with is
//! the second implementation's: each sheet of specs/Sheets.antt is written to its image, and made of it again;
//! each Magic Packet block of specs/Cases.antt is read as it says, at either size, boards before one
//! are refused as they say, case k, cards under fixed types, cards of 512 bytes and cards of version 1
//! are read and walked as they say, the blocks of leaves start where they say, and headers and leaves,
//! with power blocks and in version 1 too, are read as they say.

use second::cases::{REPORTS_K, card_b, cases};
use second::crc::{id_crc, lay_crcs, lay_srom_crc, magic_crc, srom_crc};
use second::edition::{CODES, FIRST_VERSION, Rules, taken_as};
use second::images::{Card, Image, Leaf, MagicBlock, TIDY_LEAF};
use second::layout::{LAYOUTS, Layout, SIZES, SMALL, magic_block, magic_block_mut, magic_offset};
use second::magic::{Magic, read_magic, write_magic};
use second::random::Random;
use second::reader::{Arguments, read_all, starts};
use second::sheet::{self, Form};
use second::specification::{self, arguments, bytes, number, numbers, opened, text};
use second::walk::{Autosense, NONE};
use std::collections::BTreeSet;
use std::fs;
use std::path::Path;

/// The names of crates/packet/specs/Cases.antt that lists use, each before those that it is made of.
const BLOCKS: [&str; 4] = ["whole_block", "other_crc", "stray_last", "fields"];

/// The same of crates/leaf/specs/Cases.antt.
const LEAVES: [&str; 11] = [
    "leaf_modes",
    "leaf_clashes",
    "leaf_between",
    "sym_default",
    "leaf_behind",
    "leaf_ports",
    "leaf_reset",
    "leaf_b",
    "leaf_h",
    "leaf_i",
    "dots",
];

/// The lists of its leaves, and whether they are of version 1.
const LEAF_LISTS: [(&str, bool); 4] = [
    ("paper_cases", false),
    ("further_cases", false),
    ("power_cases", false),
    ("first_cases", true),
];

/// The bytes of a list that may name blocks.
fn block(list: &str) -> Vec<u8> {
    bytes(&opened(list, &text("packet/specs/Cases.antt"), &BLOCKS))
}

/// A field of a case's record: what stands behind its name, up to the semicolon.
fn field<'a>(case: &'a str, name: &str) -> &'a str {
    let (_, behind) = case.split_once(&format!("  {name} =")).unwrap();
    behind.split_once(';').unwrap().0
}

#[test]
fn sheets_are_as_second_has_them() {
    let text = text("worked/specs/Sheets.antt");
    let cases: Vec<_> = text
        .split("= record {\n  chip = ")
        .skip(1)
        .filter(|case| case.starts_with("21"))
        .collect();
    assert_eq!(
        cases.len(),
        4,
        "a case for each chip's form, and one without a block"
    );
    for case in &cases {
        let chip = case.split_once(';').unwrap().0.parse().unwrap();
        let (sheet, image) = (bytes(field(case, "sheet")), bytes(field(case, "image")));
        let narrow = (Form::Narrow, Layout::PLAIN);
        both_ways(chip, narrow, &sheet, &image, vec![0; SMALL.into()]);
    }
    let (_, magic) = text.split_once("case_magic = record {\n").unwrap();
    let image = block(field(magic, "image"));
    let mut output = vec![0; SMALL.into()];
    magic_block_mut(&mut output).copy_from_slice(magic_block(&image));
    let sheet = bytes(field(cases[0], "sheet"));
    let narrow = (Form::Narrow, Layout::MAGIC);
    both_ways(21143, narrow, &sheet, &image, output);
}

/// The sheet, written over an output, is the image, and the image is made that sheet.
fn both_ways(
    chip: u16,
    (form, layout): (Form, Layout),
    sheet: &[u8],
    image: &[u8],
    mut output: Image,
) {
    assert_eq!(
        sheet::write(sheet, form, layout, false, &mut output),
        0,
        "{chip}"
    );
    assert_eq!(output[..], *image, "{chip}");
    let mut buffer = vec![0; sheet.len()];
    let made = sheet::make(&output, chip, form, layout, false, &mut buffer);
    assert_eq!((made.number, made.length), (0, sheet.len()), "{chip}");
    assert_eq!(buffer, sheet, "{chip}");
}

#[test]
fn blocks_are_as_second_has_them() {
    let text = text("packet/specs/Cases.antt");
    let cases = specification::cases(&text, "magic_cases");
    assert_eq!(cases.len(), 10, "accepted blocks, and 29, 30 and 1");
    for ((kind, words), size) in cases.iter().flat_map(|case| SIZES.map(|size| (case, size))) {
        let image = [vec![0; magic_offset(size)], block(words[0])].concat();
        let answer = read_magic(&image, size);
        if *kind == "refused_with" {
            assert_eq!(usize::from(answer.number), number(words[1]), "{words:?}");
            continue;
        }
        let magic = answer.magic;
        assert_eq!(answer.number, 0, "{words:?}");
        assert_eq!(magic.password[..], bytes(words[1]));
        assert_eq!(magic.address[..], bytes(words[2]));
        assert_eq!(usize::from(magic.command), number(words[3]));
    }
}

#[test]
fn boards_are_refused_as_second_refuses_them() {
    let text = text("worked/specs/Cases.antt");
    let boards = specification::cases(&text, "order_cases");
    assert_eq!(boards.len(), 9, "2, 4, 29, 30, 5 and what passes them");
    let arguments = Arguments::newest(21143).laid_out(Layout::MAGIC);
    for (_, words) in boards {
        let mut image = cases()[0].image.clone();
        image[number(words[0])] = number(words[1]) as u8;
        lay_srom_crc(&mut image, Layout::MAGIC);
        magic_block_mut(&mut image).copy_from_slice(&block(words[2]));
        let (answer, _) = read_all(&image, arguments);
        assert_eq!(usize::from(answer.number), number(words[3]), "{words:?}");
    }
}

#[test]
fn case_k_is_walked_as_second_walks_it() {
    let text = text("worked/specs/Cases.antt");
    let walks = specification::cases(&text, "case_k l");
    let types = walks.iter().map(|(_, words)| number(words[1]));
    assert_eq!(types.collect::<Vec<_>>(), [0x0800, 0x8800, 0xFFFF]);
    for layout in LAYOUTS {
        for (_, words) in &walks {
            let card = Card {
                magic: layout.magic.then(MagicBlock::default),
                ..card_b(number(words[1]) as u16).sized(layout.size)
            };
            let arguments = Arguments::at_level(21143, 6).laid_out(layout);
            let mut walk = Autosense::default();
            assert_eq!(walk.load(&card.image(), arguments), 0);
            let mut seen = vec![stands(0, &walk)];
            for report in REPORTS_K {
                let number = walk.look(&report);
                seen.push(stands(number, &walk));
            }
            assert_eq!(seen.join(" ∷ ") + " ∷ []", words[2], "{words:?}");
        }
    }
}

/// Where a walk stands after a call that answered a number, as the lists have it.
fn stands(number: u8, walk: &Autosense) -> String {
    if walk.blocks().is_none() {
        return format!("still_fresh {number}");
    }
    let walk = walk.walk();
    let selected = match walk.selected {
        NONE => "none".to_string(),
        block => block.to_string(),
    };
    let (settled, looks, switches) = (walk.settled, walk.looks, walk.switches);
    let call = match number {
        0 => "then".to_string(),
        number => format!("refused_then {number}"),
    };
    format!("{call} {settled} {selected} {looks} {switches}")
}

#[test]
fn cards_under_fixed_types_are_walked_as_second_walks_them() {
    let text = text("worked/specs/Cases.antt");
    let (_, list) = text.split_once("\nfixed_image_cases =\n").unwrap();
    let (list, _) = list.split_once("\n\n").unwrap();
    let cases: Vec<_> = list.split("under_fixed").skip(1).collect();
    assert!(cases.len() >= 4, "only {} cards", cases.len());
    for case in cases {
        let case = case.split_whitespace().collect::<Vec<_>>().join(" ");
        let [reading, calls, seen] = arguments(&case)[..3] else {
            panic!("{case}");
        };
        let reading = arguments(reading);
        let (chip, level) = (number(reading[1]) as u16, number(reading[2]) as u8);
        let leaf = bytes(&opened(reading[3], &text, &["leaf_twice"]));
        let (image, reader) = (with_leaf(chip, &leaf), Arguments::at_level(chip, level));
        let (answer, entries) = read_all(&image, reader);
        let counts = [answer.listed, answer.resets, answer.skipped].map(|it| it.to_string());
        assert_eq!(counts, reading[4..7], "{case}");
        assert_eq!(tables(&entries), reading[7..], "{case}");
        let mut walk = Autosense::default();
        assert_eq!(walk.load(&image, reader), 0);
        let mut found = Vec::new();
        let mut words = arguments(calls).into_iter();
        while let Some(word) = words.next() {
            if word == "look" {
                let number = walk.look(&bytes(words.next().unwrap()));
                found.push(stands(number, &walk));
            }
        }
        assert_eq!(found.join(" ∷ ") + " ∷ []", seen, "{case}");
    }
}

/// The reports of the looks in a list of calls.
fn reports(calls: &str) -> Vec<Vec<u8>> {
    let words = arguments(calls);
    let looks = words.windows(2).filter(|pair| pair[0] == "look");
    looks.map(|pair| bytes(pair[1])).collect()
}

/// The records of a list of crates/worked_large, each as one line: those that it has, and those that a name with arguments
/// stands for.
fn records(text: &str, list: &str) -> Vec<String> {
    let (_, behind) = text.split_once(&format!("\n{list} =")).unwrap();
    let (list, _) = behind.split_once("\n\n").unwrap();
    let line = |text: &str| text.split_whitespace().collect::<Vec<_>>().join(" ");
    let list = line(list);
    if let Some((_, record)) = list.split_once("record {") {
        return vec![record.to_owned()];
    }
    let elements = list.split('∷').map(str::trim).filter(|it| *it != "[]");
    let record = |element| {
        let given = arguments(element);
        let (_, behind) = text.split_once(&format!("\n{} l ", given[0])).unwrap();
        let (parameters, behind) = behind.split_once(" = record {\n").unwrap();
        let (body, _) = behind.split_once("\n}").unwrap();
        let parameters: Vec<_> = ["l"].into_iter().chain(parameters.split(' ')).collect();
        let value = |word: &str| match parameters.iter().position(|it| *it == word) {
            Some(place) => given[1 + place].to_owned(),
            None => word.to_owned(),
        };
        let field = |field: &str| {
            let (name, it) = field.split_once(" = ")?;
            let it = it.replace('(', "( ").replace(')', " )");
            let words: Vec<_> = it.split_whitespace().map(value).collect();
            Some(format!("{} = {};", name.trim(), words.join(" ")))
        };
        body.split(';').filter_map(field).collect()
    };
    elements.map(record).collect()
}

#[test]
fn large_cards_are_read_and_walked_as_second_does() {
    let text = text("worked_large/specs/Cases.antt");
    let lists = [
        "plain_cards",
        "magic_cards",
        "twenty_one_cards",
        "longest_cards",
    ];
    let cards: Vec<_> = lists.iter().flat_map(|list| records(&text, list)).collect();
    assert_eq!(cards.len(), 9, "three of each layout, two, and the longest");
    for card in cards {
        let field = |name: &str| {
            let (_, behind) = card.split_once(&format!("{name} = ")).unwrap();
            behind.split_once(';').unwrap().0.trim()
        };
        let layout = match field("layout") {
            "with_magic" => Layout::MAGIC,
            "large without_magic" => Layout::LARGE_PLAIN,
            "large with_magic" => Layout::LARGE_MAGIC,
            other => panic!("{other} is no layout"),
        };
        let (controllers, start) = (number(field("controllers")), number(field("start")));
        let reading = arguments(field("reading"));
        let (chip, level) = (number(reading[1]) as u16, number(reading[2]) as u8);
        let leaf = bytes(&opened(reading[3], &text, &["leaf_to"]));
        let empty = Leaf::new(start, chip, 0x0800, vec![]);
        let mut image = Card::new(controllers, vec![empty])
            .laid_out(&mut Random::new(1), layout)
            .image();
        let places = image[start..layout.leaf_limit()].iter_mut();
        places.zip(leaf).for_each(|(place, byte)| *place = byte);
        lay_crcs(&mut image, layout);
        let reader = Arguments {
            chip,
            controller: controllers as u8 - 1,
            level,
            layout,
            first_edition: false,
        };
        let (answer, entries) = read_all(&image, reader);
        if reading[0] == "leaves.refused" {
            assert_eq!(usize::from(answer.number), number(reading[4]), "{card}");
            continue;
        }
        let counts = [answer.number, answer.listed, answer.resets, answer.skipped];
        let expected = reading[4..7].iter().map(|word| number(word));
        assert!(
            counts
                .into_iter()
                .map(usize::from)
                .eq([0].into_iter().chain(expected)),
            "{card}"
        );
        let (kinds, offsets): (Vec<_>, Vec<_>) = entries.into_iter().unzip();
        assert_eq!(kinds, listed(reading[7]), "{card}");
        assert_eq!(offsets, listed(reading[8]), "{card}");
        let mut walk = Autosense::default();
        let mut seen = Vec::new();
        let calls = arguments(field("calls"));
        for (place, call) in calls.iter().enumerate() {
            let number = match *call {
                "load" => walk.load(&image, reader),
                "look" => walk.look(&bytes(calls[place + 1])),
                _ => continue,
            };
            seen.push(stands(number, &walk));
        }
        assert_eq!(seen.join(" ∷ ") + " ∷ []", field("seen"), "{card}");
    }
}

/// The elements of a table's column: those of a list, or `values_from (λ i. n - i) first count`.
fn listed(column: &str) -> Vec<u16> {
    let elements: Vec<usize> = match column
        .replace(['(', ')'], "")
        .strip_prefix("values_from λ i. ")
    {
        None => numbers(column),
        Some(rest) => {
            let words: Vec<_> = rest.split_whitespace().collect();
            assert_eq!(words[1..3], ["-", "i"], "{column}");
            let [from, first, count] = [0, 3, 4].map(|place| number(words[place]));
            (first..first + count).map(|index| from - index).collect()
        }
    };
    elements.into_iter().map(|it| it as u16).collect()
}

/// "Refusal 1 means a length other than the stated size, or a stated size other than those two": what the claim says of six
/// calls is what the second implementation answers.
#[test]
fn stated_sizes_are_refused_as_second_refuses_them() {
    let claims = text("worked_large/specs/Claims.antt");
    let whole = |layout| {
        let card = Card::tidy(21143, 0x0800, vec![]);
        card.laid_out(&mut Random::new(1), layout).image()
    };
    for (stated, size, image) in [
        ("small_size", 128, whole(Layout::LARGE_MAGIC)),
        ("large_size", 512, whole(Layout::MAGIC)),
        ("256 (replicate 256 0)", 256, vec![0; 256]),
    ] {
        let claim = format!("(refusals {stated}");
        let is_claim = |line: &&str| line.contains(&claim) && line.ends_with("≡ replicate 6 1)");
        assert_eq!(claims.lines().filter(is_claim).count(), 1, "{claim}");
        let layout = Layout::new(size, true);
        let newest = Arguments::newest(21143).laid_out(layout);
        let answered = [
            read_all(&image, newest).0.number,
            srom_crc(&image, layout).number,
            id_crc(&image, size).number,
            magic_crc(&image, size).number,
            read_magic(&image, size).number,
            write_magic(Magic::default(), &mut image.clone(), size),
        ];
        assert_eq!(answered, [1; 6], "{claim}");
    }
}

/// A card for the chip, with these bytes as its leaf.
fn with_leaf(chip: u16, leaf: &[u8]) -> Image {
    let mut image = Card::tidy(chip, 0x0800, vec![]).image();
    image[TIDY_LEAF..][..leaf.len()].copy_from_slice(leaf);
    lay_crcs(&mut image, Layout::PLAIN);
    image
}

/// The same in a layout.
fn laid_out_with(layout: Layout, chip: u16, leaf: &[u8]) -> Image {
    let card = Card::tidy(chip, 0x0800, vec![]);
    let mut image = card.laid_out(&mut Random::new(1), layout).image();
    image[TIDY_LEAF..][..leaf.len()].copy_from_slice(leaf);
    lay_crcs(&mut image, layout);
    image
}

/// A card with a mode set twice, at the newest level and below it, and cards at two levels in every layout.
#[test]
fn cards_are_walked_below_the_newest_level_as_second_walks_them() {
    let text = text("worked/specs/Cases.antt");
    let repeated = specification::cases(&text, "repeated_image_cases");
    for (made_by, words) in &repeated {
        walked_as_said(&text, Layout::PLAIN, made_by, words[0], words[1]);
    }
    let levels = specification::cases(&text, "both_levels l connection last");
    let (_, older) = text.split_once("\nolder_cases =\n").unwrap();
    let (older, _) = older.split_once("\n\n").unwrap();
    let cards: Vec<_> = older
        .split("++")
        .map(|card| arguments(card.trim()))
        .collect();
    assert_eq!((repeated.len(), levels.len(), cards.len()), (3, 2, 4));
    for card in cards {
        let [_, layout, connection, last] = card[..] else {
            panic!("{card:?}");
        };
        for (made_by, words) in &levels {
            let seen = field(record(&text, made_by), "seen").trim();
            let reading = words[1].replace("connection", connection);
            walked_as_said(
                &text,
                laid_out(layout),
                made_by,
                &reading,
                &seen.replace("last", last),
            );
        }
    }
}

/// The layout that a specification names.
fn laid_out(name: &str) -> Layout {
    match name {
        "without_magic" => Layout::PLAIN,
        "with_magic" => Layout::MAGIC,
        "large without_magic" => Layout::LARGE_PLAIN,
        "large with_magic" => Layout::LARGE_MAGIC,
        _ => panic!("{name} is no layout"),
    }
}

/// The record that a name with arguments stands for.
fn record<'a>(text: &'a str, made_by: &str) -> &'a str {
    let (_, behind) = text.split_once(&format!("\n{made_by} ")).unwrap();
    behind.split_once("\n}").unwrap().0
}

/// A leaf in a layout is read as `reading` says, and walked by the calls of `made_by` as `seen` says.
fn walked_as_said(text: &str, layout: Layout, made_by: &str, reading: &str, seen: &str) {
    let words = arguments(reading);
    let (chip, level) = (number(words[1]) as u16, number(words[2]) as u8);
    let leaf = bytes(&opened(words[3], text, &["leaf_repeated", "leaf_newer"]));
    let image = laid_out_with(layout, chip, &leaf);
    let reader = Arguments::at_level(chip, level).laid_out(layout);
    let (answer, entries) = read_all(&image, reader);
    let found = match answer.number {
        0 => {
            let counts = [answer.listed, answer.resets, answer.skipped];
            [
                counts.map(|it| it.to_string()).to_vec(),
                tables(&entries).to_vec(),
            ]
            .concat()
        }
        number => vec![number.to_string()],
    };
    assert_eq!(found, words[4..], "{reading}");
    let mut walk = Autosense::default();
    let load = walk.load(&image, reader);
    let mut stood = vec![stands(load, &walk)];
    for report in reports(field(record(text, made_by), "calls")) {
        let look = walk.look(&report);
        stood.push(stands(look, &walk));
    }
    assert_eq!(stood.join(" ∷ ") + " ∷ []", seen, "{reading}");
}

/// The names of crates/image/specs/Cases.antt that its headers use.
const HEADERS: [&str; 4] = [
    "two_controllers",
    "last_address",
    "leaf_starting",
    "of_type",
];

/// Where the version stands, from which on an image's bytes are given.
const VERSION_OFFSET: usize = 18;

#[test]
fn headers_are_read_as_second_reads_them() {
    let text = text("image/specs/Cases.antt");
    let cases = specification::cases(&text, "header_cases");
    let mut numbers = BTreeSet::new();
    for (made_by, words) in cases {
        let [chip, controller, level] = [0, 1, 2].map(|place| number(words[place]));
        let (first_edition, header, answer) = match made_by {
            "header_in" => (is_first_edition(words[3]), words[4], words[5]),
            _ => (false, words[3], words[4]),
        };
        let header = bytes(&opened(header, &text, &HEADERS));
        let mut image = vec![0; SMALL.into()];
        image[VERSION_OFFSET..][..header.len()].copy_from_slice(&header);
        lay_crcs(&mut image, Layout::PLAIN);
        let arguments = Arguments {
            chip: chip as u16,
            controller: controller as u8,
            level: level as u8,
            layout: Layout::PLAIN,
            first_edition,
        };
        let (read, _) = read_all(&image, arguments);
        assert_eq!(usize::from(read.number), number(answer), "{words:?}");
        numbers.insert(read.number);
    }
    let told = [0, 2, 5, 6, 7, 8, 9, 10, 11, 38];
    assert_eq!(numbers, told.into(), "what a header tells without a CRC");
}

#[test]
fn blocks_start_where_second_finds_them() {
    let text = text("leaf/specs/Cases.antt");
    let cases = specification::cases(&text, "starts_cases");
    assert_eq!(cases.len(), 5, "each form of a block, and no block");
    for (_, words) in cases {
        let chip = number(words[0]) as u16;
        let (leaf, places) = (bytes(words[1]), bytes(words[2]));
        let first = places[0];
        let block =
            |ends: &[u8]| leaf[usize::from(ends[0] - first)..usize::from(ends[1] - first)].to_vec();
        let blocks: Vec<_> = places.windows(2).map(block).collect();
        assert_eq!(blocks.concat(), leaf, "{words:?}");
        let image = Card::tidy(chip, 0x0800, blocks).image();
        let found = starts(&image, Arguments::newest(chip)).unwrap();
        let named = places[..places.len() - 1]
            .iter()
            .map(|&start| usize::from(start));
        assert_eq!(found, named.collect::<Vec<_>>(), "{words:?}");
    }
}

#[test]
fn leaves_are_read_as_second_reads_them() {
    let text = text("leaf/specs/Cases.antt");
    let mut leaves = 0;
    for (list, is_first) in LEAF_LISTS {
        for element in specification::elements(&text, list) {
            let element = match element[0].as_str() {
                "case_b" => opened(&element.join(" "), &text, &["case_b"]),
                made_by => {
                    let rest = element[1..].iter().map(|word| format!("({word})"));
                    made_by.to_owned() + " " + &rest.collect::<Vec<_>>().join(" ")
                }
            };
            let words: Vec<_> = arguments(&element).into_iter().map(str::trim).collect();
            let (chip, level) = (number(words[1]) as u16, number(words[2]) as u8);
            let leaf = bytes(&opened(words[3], &text, &LEAVES));
            let mut image = with_leaf(chip, &leaf);
            if is_first {
                image = of_version(image, 1);
            }
            let (answer, entries) = read_all(&image, Arguments::at_level(chip, level));
            let found = match answer.number {
                0 => {
                    let counts = [answer.listed, answer.resets, answer.skipped, answer.power];
                    [
                        counts.map(|count| count.to_string()).to_vec(),
                        tables(&entries).to_vec(),
                    ]
                    .concat()
                }
                number => vec![number.to_string()],
            };
            let mut expected = words[4..].to_vec();
            if words[0] == "accepted" {
                // It has no power block, and says nothing of them.
                expected.insert(3, "0");
            }
            assert_eq!(found, expected, "{list}: {element}");
            leaves += 1;
        }
    }
    assert!(leaves >= 50, "only {leaves} leaves");
}

/// The image with another version, its CRCs mended.
fn of_version(mut image: Image, version: u8) -> Image {
    image[18] = version;
    lay_crcs(&mut image, Layout::PLAIN);
    image
}

/// The names of crates/worked_first/specs/Cases.antt that its leaves use.
const FIRST_LEAVES: [&str; 2] = ["compacts", "sias"];

/// Document 02, request 12: cards of several versions, read and walked in either edition. The blocks of each are two, and `read_in`
/// says that the second has the fixed medium.
#[test]
fn cards_of_both_editions_are_walked_as_second_walks_them() {
    let text = text("worked_first/specs/Cases.antt");
    let mut cards = 0;
    for list in specification::EDITION_LISTS {
        for case in specification::elements(&text, list) {
            let case: Vec<_> = case.iter().map(String::as_str).collect();
            let (reading, seen) = match case[..] {
                ["read_in", version, edition, chip, leaf] => (
                    [version, edition, chip, "7", leaf],
                    "0 then false none 0 0, 0 then true 1 1 1".to_owned(),
                ),
                ["refused_in", version, edition, chip, level, leaf, number] => (
                    [version, edition, chip, level, leaf],
                    format!("{number} fresh, 20 fresh"),
                ),
                _ => panic!("{case:?}"),
            };
            let [version, edition, chip, level, leaf] = reading;
            let (chip, level) = (number(chip) as u16, number(level) as u8);
            let leaf = bytes(&opened(leaf, &text, &FIRST_LEAVES));
            let image = of_version(with_leaf(chip, &leaf), number(version) as u8);
            let arguments = Arguments::at_level(chip, level).in_edition(is_first_edition(edition));
            let mut walk = Autosense::default();
            let load = (walk.load(&image, arguments), walk.clone());
            let look = (walk.look(&[0, 0]), walk);
            let found = [load, look].map(|(number, walk)| match walk.blocks() {
                None => format!("{number} fresh"),
                Some(_) => format!("{number} {}", stands(number, &walk)),
            });
            assert_eq!(found.join(", "), seen, "{case:?}");
            cards += 1;
        }
    }
    assert!(cards >= 13, "only {cards} cards");
}

/// The edition that a specification names.
fn is_first_edition(name: &str) -> bool {
    match name {
        "the_first_edition" => true,
        "the_later_edition" => false,
        _ => panic!("{name}"),
    }
}

/// `CodesWorked` of crates/format: which of the four codes each edition reads for a chip, and what they are taken as.
#[test]
fn codes_are_read_as_second_reads_them() {
    let text = text("format/specs/Claims.antt");
    let (_, claim) = text.split_once("\nCodesWorked =\n").unwrap();
    let (claim, _) = claim.split_once("\n\n").unwrap();
    for equation in claim.lines() {
        let (left, right) = equation
            .split_once(" (first_codes ++ later_codes) ≡ ")
            .unwrap();
        let (_, asked) = left.split_once("(map ").unwrap();
        let asked = asked.trim_matches(['(', ')']);
        let found = CODES.map(|code| match asked.split(' ').collect::<Vec<_>>()[..] {
            ["taken_as"] => format!("{:#06x}", taken_as(code)),
            ["is_read", edition, row] => {
                let chip = row.strip_prefix("row").unwrap().parse().unwrap();
                let rules = Rules {
                    chip,
                    version: FIRST_VERSION,
                    first_edition: is_first_edition(edition),
                };
                rules.permit(code).to_string()
            }
            _ => panic!("{equation}"),
        });
        assert_eq!(right, format!("{} ∷ [])", found.join(" ∷ ")), "{asked}");
    }
    assert_eq!(claim.lines().count(), 5);
}

/// A list of cases over leaves, blocks, walks, cards and sheets that the checker computes is read here, in tests/worked_wide.rs or
/// beside what it is about in the second implementation: one that nobody names fails.
#[test]
fn every_list_is_named() {
    let crates = Path::new(env!("CARGO_MANIFEST_DIR")).join("../../crates");
    let mut found = BTreeSet::new();
    for folder in [
        "format",
        "leaf",
        "walk",
        "packet",
        "image",
        "worked",
        "worked_large",
        "worked_wide",
        "worked_first",
    ] {
        for file in fs::read_dir(crates.join(folder).join("specs")).unwrap() {
            let code = fs::read_to_string(file.unwrap().path()).unwrap();
            let names = code
                .lines()
                .filter_map(|line| line.strip_prefix("unfoldable pub "));
            let lists = names.filter_map(|line| line.split_once(" : List "));
            let lists = lists.filter(|(_, of)| ["Case", "Card"].iter().any(|it| of.ends_with(it)));
            let lists = lists.filter(|(_, of)| !of.contains(' '));
            found.extend(lists.map(|(name, _)| name.to_owned()));
        }
    }
    let leaves = LEAF_LISTS.map(|(list, _)| list);
    let read = [&leaves[..], &specification::EDITION_LISTS, &OTHER_LISTS].concat();
    let read: BTreeSet<_> = read.into_iter().map(str::to_owned).collect();
    assert_eq!(found, read);
}

/// The other lists, which tests of their own read; but for the Magic Packet block before cases a and j and for the walk with a power
/// block, of which only the leaves are read.
const OTHER_LISTS: [&str; 18] = [
    "header_cases",
    "block_cases",
    "starts_cases",
    "look_cases",
    "fixed_cases",
    "magic_cases",
    "image_cases",
    "magic_image_cases",
    "power_image_cases",
    "repeated_image_cases",
    "older_cases",
    "fixed_image_cases",
    "order_cases",
    "sheet_cases",
    "plain_cards",
    "magic_cards",
    "twenty_one_cards",
    "longest_cards",
];

/// Kinds and offsets, as two lists.
fn tables(entries: &[(u16, u16)]) -> [String; 2] {
    let list = |of: fn(&(u16, u16)) -> u16| {
        let elements = entries.iter().map(|entry| format!("{} ∷ ", of(entry)));
        elements.collect::<String>() + "[]"
    };
    [list(|entry| entry.0), list(|entry| entry.1)]
}
