//! Times each call of the library against the fastest plain form of the second implementation,
//! over the same inputs: `cargo run --release -p bench`. With `only CALL SIDE PASSES` it prints nothing
//! and makes one side's passes over the inputs of one call, for tools/instructions to count.

use library::{Answer, Form, Layout, Made, Magic, Walk};
use second::crc;
use second::edition::FIRST_VERSION;
use second::images::block::{self, Phy};
use second::images::{Card, Image, MagicBlock};
use second::layout::{LARGE, SMALL};
use second::random::Random;
use second::reader::{self, Arguments, HIGHEST_COUNT};
use second::sheet::{self, LONGEST_WIDE_SHEET};
use second::{magic, walk};
use std::{env, hint::black_box, time::Instant};

const IMAGE_COUNT: usize = 1_000;
const ROUNDS: usize = 200;

fn main() {
    if only().is_none() {
        println!(
            "{:<19}{:>12}{:>12}{:>8}",
            "call", "library ns", "second ns", "ratio"
        );
    }
    let typical = images(|random| Card {
        private: random.row(SMALL.into()),
        ..typical_card()
    });
    let longest = images(|random| Card::longest(random, Layout::PLAIN));
    let waking = images(|random| Card {
        private: random.row(SMALL.into()),
        magic: Some(MagicBlock::valid(random)),
        ..typical_card()
    });
    let powered = images(|random| Card {
        private: random.row(SMALL.into()),
        ..powered_card()
    });
    let (newest, newest_21041) = (Arguments::newest(21143), Arguments::newest(21041));
    contest_crcs(&typical, &waking);
    contest_magic(&waking);
    contest_reading("typical", newest, &typical);
    contest_reading("longest", newest_21041, &longest);
    contest_reading("magic", newest.laid_out(Layout::MAGIC), &waking);
    contest_reading("power", newest, &powered);
    let tidy = images(tidy_card);
    let fixed = images(|random| Card {
        private: random.row(SMALL.into()),
        ..fixed_card()
    });
    contest_by_value(&tidy);
    contest_walking("typical", newest, &tidy);
    contest_walking("longest", newest_21041, &longest);
    contest_walking("fixed", newest, &fixed);
    let narrow = (Form::Narrow, Layout::PLAIN, false);
    contest_first_edition();
    contest_sheets("typical", 21143, narrow, &tidy);
    contest_sheets("longest", 21041, narrow, &longest);
    // How the cost of making grows with the blocks.
    for count in [10, 20, 40] {
        let leaf = images(|random| Card::one_byte_blocks(random, count));
        contest_making(&count.to_string(), 21041, narrow, &leaf);
    }
    contest_wide_sheets(&tidy);
    contest_converting(&tidy);
    // How the cost of the others does in a ROM of the larger size, up to the most.
    let newest_large = newest_21041.laid_out(Layout::LARGE_PLAIN);
    for count in [10, 50, 100, 255] {
        let name = format!("{LARGE} {count}");
        if !is_asked(&["read", "view", "load", "look"], &name) {
            continue;
        }
        let leaf = large_leaf(count);
        contest_reading(&name, newest_large, &leaf);
        contest_walking(&name, newest_large, &leaf);
    }
}

/// A leaf as a 21143 card has it: five blocks, of which one is no medium.
fn typical_card() -> Card {
    let phy = Phy {
        select: vec![0x0F, 0x08, 0x01, 0x00],
        capabilities: 0x7800,
        advertisement: 0x01E0,
        ..Phy::default()
    };
    let blocks = vec![
        block::sia(0, None, 0x08AF, 0x00A5),
        block::sia(4, None, 0x08AF, 0x00A5),
        block::symbol(3, 0x08AF, 0x00A5, 0x4061),
        block::phy(3, &phy),
        block::reset(&[0x0821, 0x0001]),
    ];
    Card::tidy(21143, 0x0800, blocks)
}

/// The same in a card whose private bytes are those of the ID block alone.
fn tidy_card(random: &mut Random) -> Card {
    let mut card = typical_card();
    card.private[..18].copy_from_slice(&random.bytes::<18>());
    card
}

/// A leaf as a newer 21143 board has it: the media of the typical one, and two power blocks.
fn powered_card() -> Card {
    let mut blocks = typical_card().leaves.remove(0).blocks;
    blocks.pop();
    blocks.push(block::power(0x01, &[0x0821, 0x0000]));
    blocks.push(block::power(0x0E, &[0x0821, 0x0020]));
    Card::tidy(21143, 0x0800, blocks)
}

/// The typical leaf, set to 100BaseTx, the medium of its third block.
fn fixed_card() -> Card {
    let mut card = typical_card();
    card.leaves[0].connection = 0x0003;
    card
}

/// A card of version 1 as a 21140 has it, in edition 1.00 set to 100BaseTx full duplex: four compact blocks, and the private
/// bytes of the ID block alone.
fn first_card(random: &mut Random) -> Card {
    let blocks = [(0, 0x0000), (4, 0x8000), (3, 0x4000), (5, 0x8000)];
    let blocks = blocks.map(|(code, command)| block::compact(code, 0x1B, command | 0x61));
    let mut card = Card::tidy(21140, 0x0203, blocks.to_vec());
    card.version = FIRST_VERSION;
    card.private[..18].copy_from_slice(&random.bytes::<18>());
    card
}

fn images(card: impl Fn(&mut Random) -> Card) -> Vec<Image> {
    let mut random = Random::new(1);
    (0..IMAGE_COUNT)
        .map(|_| card(&mut random).image())
        .collect()
}

/// The CRCs, of images without a Magic Packet block and with one.
fn contest_crcs(typical: &[Image], waking: &[Image]) {
    for (call, layout, images) in [
        ("srom_crc", Layout::PLAIN, typical),
        ("srom_crc magic", Layout::MAGIC, waking),
    ] {
        contest(
            call,
            images,
            |image| library::srom_crc(image, layout),
            |image| crc::fast::srom_crc(image, layout),
        );
    }
    contest(
        "id_crc",
        typical,
        |image| library::id_crc(image, SMALL),
        |image| crc::fast::id_crc(image, SMALL),
    );
    contest(
        "magic_crc",
        waking,
        |image| library::magic_crc(image, SMALL),
        |image| crc::fast::magic_crc(image, SMALL),
    );
}

/// Reading and writing the Magic Packet block.
fn contest_magic(waking: &[Image]) {
    contest(
        "read_magic",
        waking,
        |image| library::read_magic(image, SMALL),
        |image| magic::fast::read_magic(image, SMALL),
    );
    contest(
        "write_magic",
        waking,
        writing_magic(library::write_magic),
        writing_magic(magic::fast::write_magic),
    );
}

/// A call with an image of its own, which writes what stands first in the one that it is given.
fn writing_magic(write: impl Fn(Magic, &mut [u8], u16) -> u8) -> impl FnMut(&[u8]) -> u8 {
    let mut image = [0; SMALL as usize];
    move |from| {
        let magic = Magic {
            password: from[..6].try_into().expect("six bytes"),
            address: from[6..12].try_into().expect("six bytes"),
            command: u16::from_le_bytes([from[12], from[13]]),
        };
        write(magic, black_box(&mut image), SMALL)
    }
}

/// Reading into arrays that are long enough, and the view of the table's last entry.
fn contest_reading(leaf: &str, arguments: Arguments, images: &[Image]) {
    let listed = reading(arguments, reader::read)(&images[0]).listed;
    assert!(listed > 0, "the newest reader accepts the {leaf} leaf");
    contest(
        &format!("read {leaf}"),
        images,
        reading(arguments, library::read),
        reading(arguments, reader::fast::read),
    );
    let entry = usize::from(listed) - 1;
    contest(
        &format!("view {leaf}"),
        images,
        |image| library::view(image, arguments, entry).len(),
        |image| reader::fast::view(image, arguments, entry).len(),
    );
}

/// Loading into a fresh walk, and looks of a settled walk at reports with a quarter of the links
/// up, so that most of them select anew where the leaf is autosensed.
fn contest_walking(leaf: &str, arguments: Arguments, images: &[Image]) {
    contest(
        &format!("load {leaf}"),
        images,
        |image| library::load(library::fresh(), image, arguments),
        |image| walk::fast::load(walk::fast::fresh(), image, arguments),
    );
    let settled = settled(&images[0], arguments);
    let mut random = Random::new(2);
    let mut report = |_| {
        let links = (0..settled.blocks).map(|_| u8::from(random.one_in(4)));
        links.collect::<Vec<_>>()
    };
    let reports: Vec<_> = (0..IMAGE_COUNT).map(&mut report).collect();
    contest(
        &format!("look {leaf}"),
        &reports,
        |report| library::look(black_box(settled), report),
        |report| walk::fast::look(black_box(settled), report),
    );
}

/// Reading, loading and writing a card of edition 1.00.
fn contest_first_edition() {
    let first = images(first_card);
    let newest = Arguments::newest(21140).in_edition(true);
    contest_reading("first", newest, &first);
    contest_walking("first", newest, &first);
    contest_sheets("first", 21140, (Form::Narrow, Layout::PLAIN, true), &first);
}

/// What it costs that a walk goes in and comes back by value: a call that only hands out a fresh one,
/// and one that takes a walk too.
fn contest_by_value(images: &[Image]) {
    let settled = settled(&images[0], Arguments::newest(21143));
    contest(
        "fresh",
        images,
        |_| library::fresh(),
        |_| walk::fast::fresh(),
    );
    contest(
        "clear",
        images,
        |_| library::clear(black_box(settled)),
        |_| walk::fast::clear(black_box(settled)),
    );
}

/// A walk that has settled at a look with all links up.
fn settled(image: &[u8], arguments: Arguments) -> Walk {
    let loaded = walk::fast::load(walk::fast::fresh(), image, arguments).walk;
    let walked = walk::fast::look(loaded, &[1; HIGHEST_COUNT]);
    assert!(walked.walk.settled, "the newest walk finds a medium");
    walked.walk
}

/// The form of a sheet, the layout of its image, and whether its edition is 1.00.
type Served = (Form, Layout, bool);

/// What is timed of sheets and images.
const SHEET_CALLS: [&str; 2] = ["write", "make"];

/// Making the sheets of tidy images, and writing them.
fn contest_sheets(leaf: &str, chip: u16, served: Served, images: &[Image]) {
    if !is_asked(&SHEET_CALLS, leaf) {
        return;
    }
    contest(
        &format!("write {leaf}"),
        &sheets(chip, served, images),
        writing(served, library::write),
        writing(served, sheet::fast::write),
    );
    contest_making(leaf, chip, served, images);
}

/// Making the sheets of tidy images.
fn contest_making(leaf: &str, chip: u16, served: Served, images: &[Image]) {
    contest(
        &format!("make {leaf}"),
        images,
        making(chip, served, library::make_sheet),
        making(chip, served, sheet::fast::make),
    );
}

/// The same of wide sheets: of the typical leaf in both sizes, and how their cost grows with the blocks
/// in the larger one, up to the most.
fn contest_wide_sheets(tidy: &[Image]) {
    contest_sheets("wide", 21143, (Form::Wide, Layout::PLAIN, false), tidy);
    let large = (Form::Wide, Layout::LARGE_PLAIN, false);
    if is_asked(&SHEET_CALLS, "wide 512") {
        let leaf = images(|random| tidy_card(random).sized(LARGE));
        contest_sheets("wide 512", 21143, large, &leaf);
    }
    for count in [5, 50, 100, 200, 255] {
        let name = format!("wide 512 {count}");
        if is_asked(&SHEET_CALLS, &name) {
            contest_sheets(&name, 21041, large, &large_leaf(count));
        }
    }
}

/// Widening and narrowing the sheets of the typical leaf, and of so many blocks up to the most that a
/// narrow sheet has.
fn contest_converting(tidy: &[Image]) {
    let calls = ["widen", "narrow"];
    if is_asked(&calls, "typical") {
        let small = (Form::Wide, Layout::PLAIN, false);
        contest_conversions("typical", &sheets(21143, small, tidy));
    }
    for count in [50, 100, 200, 255] {
        let name = count.to_string();
        if is_asked(&calls, &name) {
            let large = (Form::Wide, Layout::LARGE_PLAIN, false);
            contest_conversions(&name, &sheets(21041, large, &large_leaf(count)));
        }
    }
}

/// Leaves of so many blocks of one byte, in the larger size.
fn large_leaf(count: usize) -> Vec<Image> {
    images(|random| Card::one_byte_blocks(random, count).sized(LARGE))
}

/// Widening these wide sheets when they are narrow, and narrowing them.
fn contest_conversions(leaf: &str, wide: &[Vec<u8>]) {
    let narrowed = |sheet: &Vec<u8>| {
        let mut buffer = [0; LONGEST_WIDE_SHEET];
        let made = sheet::narrow(sheet, &mut buffer);
        assert_eq!(made.number, 0, "the {leaf} sheet can be narrowed");
        buffer[..made.length].to_vec()
    };
    let narrow: Vec<_> = wide.iter().map(narrowed).collect();
    contest(
        &format!("widen {leaf}"),
        &narrow,
        converting(library::widen),
        converting(sheet::fast::widen),
    );
    contest(
        &format!("narrow {leaf}"),
        wide,
        converting(library::narrow),
        converting(sheet::fast::narrow),
    );
}

/// The sheets of tidy images.
fn sheets(chip: u16, served: Served, images: &[Image]) -> Vec<Vec<u8>> {
    let (form, layout, first_edition) = served;
    let sheet = |image: &Image| {
        let mut buffer = [0; LONGEST_WIDE_SHEET];
        let made = sheet::make(image, chip, form, layout, first_edition, &mut buffer);
        assert_eq!(made.number, 0, "the leaf is tidy");
        buffer[..made.length].to_vec()
    };
    images.iter().map(sheet).collect()
}

/// A call with an image of its own.
fn writing(
    (form, layout, first_edition): Served,
    write: impl Fn(&[u8], Form, Layout, bool, &mut [u8]) -> u8,
) -> impl FnMut(&[u8]) -> u8 {
    let mut image = vec![0; layout.size.into()];
    move |sheet| write(sheet, form, layout, first_edition, black_box(&mut image))
}

/// A call with a buffer of its own.
fn making(
    chip: u16,
    (form, layout, first_edition): Served,
    make: impl Fn(&[u8], u16, Form, Layout, bool, &mut [u8]) -> Made,
) -> impl FnMut(&[u8]) -> Made {
    let mut buffer = [0; LONGEST_WIDE_SHEET];
    move |image| {
        make(
            image,
            chip,
            form,
            layout,
            first_edition,
            black_box(&mut buffer),
        )
    }
}

/// The same of a conversion.
fn converting(convert: impl Fn(&[u8], &mut [u8]) -> Made) -> impl FnMut(&[u8]) -> Made {
    let mut buffer = [0; LONGEST_WIDE_SHEET];
    move |sheet| convert(sheet, black_box(&mut buffer))
}

/// A call with arrays of its own.
fn reading(
    arguments: Arguments,
    read: impl Fn(&[u8], Arguments, &mut [u16], &mut [u16]) -> Answer,
) -> impl FnMut(&[u8]) -> Answer {
    let (mut kinds, mut offsets) = ([0; HIGHEST_COUNT], [0; HIGHEST_COUNT]);
    move |image| read(image, arguments, &mut kinds, &mut offsets)
}

/// The one call, its side and the passes that the arguments name, if they do.
fn only() -> Option<(String, String, usize)> {
    let arguments: Vec<_> = env::args().skip(1).collect();
    match arguments.as_slice() {
        [word, call, side, passes] if word == "only" => {
            Some((call.clone(), side.clone(), passes.parse().ok()?))
        }
        _ => None,
    }
}

/// Whether the arguments name one of these calls over a leaf, or none.
fn is_asked(calls: &[&str], leaf: &str) -> bool {
    let is_it = |named: String| calls.iter().any(|call| named == format!("{call} {leaf}"));
    only().is_none_or(|(named, ..)| is_it(named))
}

/// Prints a line of the table: the best of the rounds for each side, which take turns.
fn contest<A, B>(
    call: &str,
    inputs: &[impl AsRef<[u8]>],
    mut library: impl FnMut(&[u8]) -> A,
    mut second: impl FnMut(&[u8]) -> B,
) {
    if let Some((named, side, passes)) = only() {
        for _ in 0..if named == call { passes } else { 0 } {
            match side.as_str() {
                "library" => nanoseconds(inputs, &mut library),
                _ => nanoseconds(inputs, &mut second),
            };
        }
        return;
    }
    let (mut library_best, mut second_best) = (f64::INFINITY, f64::INFINITY);
    for _ in 0..ROUNDS {
        library_best = library_best.min(nanoseconds(inputs, &mut library));
        second_best = second_best.min(nanoseconds(inputs, &mut second));
    }
    let ratio = library_best / second_best;
    println!("{call:<19}{library_best:>12.1}{second_best:>12.1}{ratio:>8.2}");
}

/// The mean time of one call in one pass over the inputs.
fn nanoseconds<A>(inputs: &[impl AsRef<[u8]>], mut call: impl FnMut(&[u8]) -> A) -> f64 {
    let start = Instant::now();
    for input in inputs {
        black_box(call(black_box(input.as_ref())));
    }
    start.elapsed().as_nanos() as f64 / inputs.len() as f64
}
