//! What the bench tool says of a card, held to the second implementation.

use card::{
    PowerBlock, asked, card, connection_lines, edition, edition_option, fixed_name, options,
    power_blocks, reasons, samples, size_by_length, temporary, words,
};
use second::crc::{lay_srom_crc, srom_crc};
use second::edition::{EDITIONS, FIRST_CHIPS, FIRST_VERSION, Rules};
use second::images::{Card, Sample, WRONG_SIZES, block};
use second::layout::{LAYOUTS, Layout, SIZES, SMALL};
use second::magic::{Magic, read_magic, write_magic};
use second::random::Random;
use second::reader::{
    Answer, Arguments, CHIPS, COMPACT, MEDIA_21041, NEWEST_LEVEL, NO_DEFAULT, connections,
    controller_offset, header_size, read_all, starts,
};
use second::walk::{Autosense, NONE, Way};
use std::collections::{BTreeMap, BTreeSet};
use std::fs;

fn kind_words(kind: u16) -> String {
    match kind {
        COMPACT => "compact".to_string(),
        MEDIA_21041 => "21041".to_string(),
        _ => format!("type {kind}"),
    }
}

/// The facts of a reading that the tool shows, as the second implementation has them.
fn expected(image: &[u8], arguments: Arguments) -> Vec<String> {
    let (answer, entries) = read_all(image, arguments);
    if answer.number != 0 {
        let mut facts = vec![format!("REFUSED {}", answer.number)];
        facts.push(asked(arguments, image));
        facts.extend(reasons(image, arguments.layout, answer.number));
        facts.extend(version_reason(image, arguments, answer.number));
        if answer.number == 31 {
            facts.extend(shared_modes(image, arguments));
        }
        facts.extend(otherwise(image, arguments));
        return facts;
    }
    let mut facts = vec!["ACCEPTED".to_string()];
    facts.push(asked(arguments, image));
    facts.push(version(image, arguments));
    facts.push(six(&answer.address.to_be_bytes()[2..]));
    facts.push(format!("0x{:04x}", answer.connection));
    facts.push(format!(
        "{}: {} listed, {} resets, {} power, {} stepped over",
        answer.blocks, answer.listed, answer.resets, answer.power, answer.skipped
    ));
    facts.push(default(&answer));
    if arguments.layout.magic {
        facts.extend(magic_lines(read_magic(image, arguments.layout.size).magic));
    }
    for (entry, (kind, offset)) in entries.into_iter().enumerate() {
        facts.push(format!("{entry} {offset} {}", kind_words(kind)));
    }
    if answer.power > 0 {
        let blocks = power_blocks(image, arguments);
        facts.extend(blocks.iter().map(|it| modes(it, it.mode)));
    }
    facts
}

/// The format version, and of version 1 the edition in which it is read.
fn version(image: &[u8], arguments: Arguments) -> String {
    match image[18] {
        FIRST_VERSION => format!("1, read in edition {}", edition(arguments.first_edition)),
        version => version.to_string(),
    }
}

/// What is shown of a refusal that the version has a say in: of 11 where it is 1, whose edition decides, and of 14, since "Version
/// 1 has 21041 and compact blocks only".
fn version_reason(image: &[u8], arguments: Arguments, number: u8) -> Option<String> {
    let is_first = image.get(18) == Some(&FIRST_VERSION);
    let line = || format!("format version, byte 18: {}", version(image, arguments));
    match number {
        2 | 38 => Some(line()),
        11 if is_first => Some(line()),
        14 if is_first => Some("version 1 has no extended blocks".to_string()),
        _ => None,
    }
}

/// The line of a power block, and modes of it in words.
fn modes(block: &PowerBlock, mode: u8) -> String {
    let (number, start, size) = (block.number, block.places.start, block.places.len());
    let words = match mode {
        0 => "none".to_string(),
        _ => bits(mode.into(), &MODE_BITS).join(", "),
    };
    format!("block {number} at byte {start}, type 6, size {size}: {words}")
}

/// "No bit of the mode byte may be set in two blocks": the blocks of which one is, and those bits of each.
fn shared_modes(image: &[u8], arguments: Arguments) -> Vec<String> {
    let blocks = power_blocks(image, arguments);
    let is_shared = |bit: &u8| blocks.iter().filter(|it| it.mode & bit != 0).count() > 1;
    let shared: u8 = (0..8).map(|bit| 1 << bit).filter(is_shared).sum();
    let sharing = blocks.iter().filter(|it| it.mode & shared != 0);
    sharing.map(|it| modes(it, it.mode & shared)).collect()
}

/// What the lines of `reasons` begin with, those about the version, and that about another layout or edition.
const BEGINS: [&str; 10] = [
    "the image has",
    "SROM CRC,",
    "controller count (",
    "a leaf of this card",
    "leaves end",
    "Magic CRC,",
    "reserved byte,",
    "format version, byte",
    "version 1 has",
    "accepted with",
];

/// What is said of an image that is refused with 3 and accepted with a Magic Packet block or without it, refused with 1 and
/// accepted at the size that its length says, or refused with 11 "in the one edition and accepted in the other".
fn otherwise(image: &[u8], arguments: Arguments) -> Option<String> {
    let number = |arguments| read_all(image, arguments).0.number;
    let Arguments {
        layout,
        first_edition,
        ..
    } = arguments;
    let (other, words) = match number(arguments) {
        1 => {
            let size = size_by_length(image);
            let layout = Layout { size, ..layout };
            (arguments.laid_out(layout), format!("with --size {size}"))
        }
        3 => {
            let words = if layout.magic { "without" } else { "with" };
            let other = arguments.laid_out(other(layout));
            (other, format!("{words} --magic"))
        }
        11 => {
            let words = format!("with --edition {}", edition(!first_edition));
            (arguments.in_edition(!first_edition), words)
        }
        _ => return None,
    };
    (number(other) == 0).then(|| format!("accepted {words}"))
}

/// "the command's bits in 000's words", and by its number one that must be 0.
const COMMAND_BITS: [(u32, &str); 8] = [
    (0, "MAGIC_DIS"),
    (1, "Sec_ON_En"),
    (3, "BNC"),
    (4, "AUI/HR"),
    (5, "TP10"),
    (6, "MII"),
    (7, "SYM"),
    (8, "LOCK"),
];

/// The mode byte of a power block (000, section 7.5.2.1.5), in the same way.
const MODE_BITS: [(u32, &str); 4] = [(0, "link fail"), (1, "D1"), (2, "D2"), (3, "D3")];

/// The names of the bits that are set.
fn bits(bits: u16, names: &[(u32, &str)]) -> Vec<String> {
    let word = |bit: u32| match names.iter().find(|(it, _)| *it == bit) {
        Some((_, name)) => name.to_string(),
        None => format!("bit {bit}"),
    };
    let set = (0..16).filter(|bit| bits >> bit & 1 == 1);
    set.map(word).collect()
}

/// The lines of a Magic Packet block, without their names.
fn magic_lines(magic: Magic) -> [String; 3] {
    let mut command = vec![format!("0x{:04x}", magic.command)];
    command.extend(bits(magic.command, &COMMAND_BITS));
    [six(&magic.password), six(&magic.address), command.join(" ")]
}

fn six(bytes: &[u8]) -> String {
    let words: Vec<_> = bytes.iter().map(|byte| format!("{byte:02x}")).collect();
    words.join(":")
}

fn default(answer: &Answer) -> String {
    match answer.default_number {
        NO_DEFAULT => "none".to_string(),
        number => format!("block {number}"),
    }
}

/// The same facts, taken from what the tool wrote.
fn shown(written: &str) -> Vec<String> {
    let mut lines = written.lines();
    let first = lines.next().unwrap_or_default();
    let verdict = match first.split_once(':') {
        Some((refused, _)) => (refused, lines.next().unwrap_or_default()),
        None => first.split_once("  ").unwrap_or_default(),
    };
    let mut facts = vec![verdict.0.to_string(), verdict.1.trim_start().to_string()];
    if facts[0] != "ACCEPTED" {
        let lines = written.lines().map(str::trim_start);
        let is_fact = |line: &&str| BEGINS.iter().any(|begin| line.starts_with(begin));
        facts.extend(lines.filter(is_fact).map(str::to_string));
        facts.extend(below_blocks(written, "shared modes"));
        return facts;
    }
    for name in [
        "format version",
        "station address",
        "connection type",
        "blocks",
        "default medium",
        "password",
        "address",
        "command ",
    ] {
        let line = written
            .lines()
            .find(|line| line.trim_start().starts_with(name));
        if let Some(line) = line {
            let value = line.trim_start()[name.len()..].trim_start();
            let value = if name == "connection type" {
                &value[..6]
            } else {
                value
            };
            facts.push(value.to_string());
        }
    }
    for line in written.lines() {
        let Some((entry, rest)) = line.trim_start().split_once("  block ") else {
            continue;
        };
        let Some((place, _)) = rest.split_once(", size") else {
            continue;
        };
        let (place, kind) = place.split_once(", ").unwrap();
        let (_, start) = place.split_once(" at byte ").unwrap();
        facts.push(format!("{entry} {start} {kind}"));
    }
    facts.extend(below_blocks(written, "modes"));
    facts
}

/// The lines of blocks that have a name below them, with what stands behind it.
fn below_blocks(written: &str, name: &str) -> Vec<String> {
    let lines: Vec<_> = written.lines().map(str::trim_start).collect();
    let both = |pair: &[&str]| {
        let value = pair[1].strip_prefix(name)?.trim_start();
        Some(format!("{}: {value}", pair[0]))
    };
    lines.windows(2).filter_map(both).collect()
}

/// The arguments that a sample is read with: at every level for two controllers and for the first in
/// the other layout, and at the newest level with every other chip and size; where it is of version 1 all
/// of them in both editions, and else the newest reader.
fn readers(newest: Arguments, image: &[u8]) -> Vec<Arguments> {
    let chips = CHIPS.into_iter().filter(|&chip| chip != newest.chip);
    let mut readers: Vec<_> = chips.map(|chip| Arguments { chip, ..newest }).collect();
    let sizes = SIZES.into_iter().chain(WRONG_SIZES);
    let others = sizes.filter(|&size| size != newest.layout.size);
    let layout = |size| Layout {
        size,
        ..newest.layout
    };
    readers.extend(others.map(|size| newest.laid_out(layout(size))));
    for level in 0..=NEWEST_LEVEL + 1 {
        let own = Arguments { level, ..newest };
        let second = Arguments {
            controller: 1,
            ..own
        };
        readers.extend([own, second, own.laid_out(other(own.layout))]);
    }
    let otherwise = |it: &Arguments| it.in_edition(!it.first_edition);
    let others: Vec<_> = match editions(newest, image).as_slice() {
        [_] => vec![otherwise(&newest)],
        _ => readers.iter().map(otherwise).collect(),
    };
    readers.extend(others);
    readers
}

/// The editions that can matter to an image, its own first.
fn editions(own: Arguments, image: &[u8]) -> Vec<Arguments> {
    let other = own.in_edition(!own.first_edition);
    match image.get(18) {
        Some(&FIRST_VERSION) => vec![own, other],
        _ => vec![own],
    }
}

fn other(layout: Layout) -> Layout {
    Layout {
        magic: !layout.magic,
        ..layout
    }
}

/// Reading: what is shown of a card, the Magic Packet block too, or why it is refused; and whether it
/// would be accepted in the other layout or edition.
#[test]
fn readings() {
    let mut verdicts = BTreeMap::new();
    for (name, own, image) in samples() {
        for arguments in readers(own, &image) {
            let run = card(&format!("read samples/{name} {}", words(arguments, &image)));
            let facts = expected(&image, arguments);
            assert_eq!(
                shown(&run.written),
                facts,
                "{name} {arguments:?}\n{}",
                run.written
            );
            assert_eq!(run.status, i32::from(facts[0] != "ACCEPTED"));
            *verdicts.entry(facts[0].clone()).or_insert(0) += 1;
            if let Some(line) = otherwise(&image, arguments) {
                *verdicts.entry(line).or_insert(0) += 1;
            }
        }
    }
    println!("{verdicts:?}");
    assert!(verdicts.len() > 19, "{verdicts:?}");
    for (fact, least) in [
        ("accepted with --magic", 10),
        ("accepted without --magic", 10),
        ("accepted with --size 128", 100),
        ("accepted with --size 512", 10),
        ("accepted with --edition 1.00", 10),
        ("accepted with --edition 1.01", 10),
        ("REFUSED 31", 0),
        ("REFUSED 38", 10),
    ] {
        assert!(verdicts[fact] > least, "{verdicts:?}");
    }
}

/// The same of random cards of all layouts, whose blocks say anything.
#[test]
fn random_cards() {
    let file = temporary("random_cards").join("card.rom");
    let mut random = Random::new(21143);
    for layout in LAYOUTS {
        for _ in 0..40 {
            let Sample {
                card: made,
                arguments,
            } = Sample::valid_in(&mut random, layout);
            let image = made.image();
            fs::write(&file, &image).unwrap();
            let words = words(arguments, &image);
            let run = card(&format!("read {} {words}", file.display()));
            let facts = expected(&image, arguments);
            assert_eq!(shown(&run.written), facts, "{arguments:?}\n{}", run.written);
        }
    }
}

/// Every command that shows the verdict of a reading says where another layout or edition would accept; but a narrow `sheet` of
/// no other size, since "the old form gets 1 for any but 128 bytes".
#[test]
fn other_layout() {
    let folder = temporary("other_layout");
    let out = folder.join("out").display().to_string();
    let mut counts = BTreeMap::new();
    for (name, own, image) in samples() {
        let in_layouts = |own: Arguments| LAYOUTS.map(|layout| own.laid_out(layout));
        for arguments in editions(own, &image).into_iter().flat_map(in_layouts) {
            let layout = arguments.layout;
            let line = otherwise(&image, arguments).map(|line| format!("  {line}"));
            let chip = own.chip;
            let edition = edition_option(arguments.first_edition);
            let options = format!("{}{edition}", options(layout, &image));
            let is_sheet = |line: &&String| layout.size == SMALL && !line.contains("--size");
            let of_sheet = line.as_ref().filter(is_sheet);
            for (command, line) in [
                (
                    format!("read samples/{name} {chip}{options}"),
                    line.as_ref(),
                ),
                (
                    format!("older samples/{name} {chip}{options}"),
                    line.as_ref(),
                ),
                (
                    format!("walk samples/{name} {chip} 0{options}"),
                    line.as_ref(),
                ),
                (
                    format!("sheet samples/{name} {chip} {out} --force{options}"),
                    of_sheet,
                ),
                (
                    format!("sheet samples/{name} {chip} {out} --wide --force{options}"),
                    line.as_ref(),
                ),
                (
                    format!("map samples/{name} {chip} {out} --force{options}"),
                    line.as_ref(),
                ),
            ] {
                let run = card(&command);
                let said = run.written.lines().find(|it| it.starts_with("  accepted"));
                assert_eq!(said, line.map(|it| &**it), "{command}\n{}", run.written);
                if let Some(line) = line {
                    *counts.entry(line.clone()).or_insert(0) += 1;
                }
            }
        }
    }
    assert!(counts.values().sum::<usize>() > 50, "{counts:?}");
    for edition in ["1.00", "1.01"] {
        let line = format!("  accepted with --edition {edition}");
        assert!(counts[&line] > 10, "{counts:?}");
    }
}

/// The block for which an image is refused: the last of the fewest blocks that are refused so, were they the whole leaf.
fn refused_block(image: &[u8], arguments: Arguments, number: u8) -> u8 {
    let controller = controller_offset(arguments.controller.into());
    let leaf = u16::from_le_bytes([image[controller + 1], image[controller + 2]]);
    let count = usize::from(leaf) + header_size(arguments.chip) - 1;
    let is_refused = |&blocks: &u8| {
        let mut fewer = image.to_vec();
        fewer[count] = blocks;
        lay_srom_crc(&mut fewer, arguments.layout);
        read_all(&fewer, arguments).0.number == number
    };
    (1..=image[count]).find(is_refused).unwrap() - 1
}

/// A refusal from 13 to 17 names the block: cards with a damaged one, of every chip.
#[test]
fn named_blocks() {
    let folder = temporary("named_blocks");
    let file = folder.join("card.rom");
    let mut random = Random::new(21143);
    for number in 13..=17 {
        for _ in 0..40 {
            let Sample {
                card: damaged,
                arguments,
            } = Sample::damaged(&mut random, number);
            let image = damaged.image();
            fs::write(&file, &image).unwrap();
            let words = format!("{} {}", file.display(), words(arguments, &image));
            let run = card(&format!("read {words}"));
            assert_eq!(shown(&run.written), expected(&image, arguments));
            let block = refused_block(&image, arguments, number);
            let line = run
                .written
                .lines()
                .find(|line| line.starts_with("  block "));
            let named = line.and_then(|line| line.split_whitespace().nth(1));
            assert_eq!(
                named,
                Some(block.to_string().as_str()),
                "{arguments:?}\n{}",
                run.written
            );
            // What older readers see is shown up to that block.
            let run = card(&format!("older {words}"));
            let rows = rows(&run.written);
            let shown: Vec<_> = rows[2..rows.len() - 5]
                .iter()
                .map(|row| row.begin.split_whitespace().nth(1).unwrap().parse())
                .collect();
            let expected: Vec<_> = (0..=block).rev().map(Ok).collect();
            assert_eq!(shown, expected, "{arguments:?}\n{}", run.written);
        }
    }
}

/// Refusal 31 names the power blocks that share a mode, and which: cards with two to four power blocks
/// of any modes, read by the newest reader and by one that does not know them.
#[test]
fn named_modes() {
    let file = temporary("named_modes").join("card.rom");
    let mut random = Random::new(21143);
    let mut verdicts = BTreeMap::new();
    let mut named = BTreeSet::new();
    for _ in 0..80 {
        let blocks = (0..2 + random.below(3)).flat_map(|_| {
            let mode = (random.below(256) & random.below(256) & random.below(256)) as u8;
            let words = vec![0x0821; random.below(4)];
            [block::power(mode, &words), block::sia(0, None, 1, 2)]
        });
        let image = Card::tidy(21143, 0x0800, blocks.collect()).image();
        fs::write(&file, &image).unwrap();
        for level in [NEWEST_LEVEL - 1, NEWEST_LEVEL] {
            let arguments = Arguments::at_level(21143, level);
            let words = words(arguments, &image);
            let run = card(&format!("read {} {words}", file.display()));
            let facts = expected(&image, arguments);
            assert_eq!(shown(&run.written), facts, "{arguments:?}\n{}", run.written);
            assert!(run.written.lines().all(|line| line.len() <= 80));
            let modes = below_blocks(&run.written, "shared modes");
            named.extend(
                modes
                    .iter()
                    .map(|it| it.split(": ").nth(1).unwrap().to_string()),
            );
            *verdicts.entry((level, facts[0].clone())).or_insert(0) += 1;
        }
    }
    assert_eq!(verdicts.len(), 3, "{verdicts:?}");
    assert!(verdicts.values().all(|&count| count > 10), "{verdicts:?}");
    let most = named.iter().map(|modes| modes.split(", ").count()).max();
    assert!(named.len() > 10 && most > Some(2), "{named:?}");
}

/// A new block in every sample: the second implementation's bytes, what the block then says, and
/// whether the card is laid out for one.
#[test]
fn magic_blocks() {
    let folder = temporary("magic_blocks");
    let mut random = Random::new(21143);
    let mut counts = [0, 0];
    for (name, _, mut image) in samples() {
        let magic = Magic {
            password: random.bytes(),
            address: random.bytes(),
            command: random.below(0x10000) as u16,
        };
        let out = folder.join(&name);
        let run = card(&format!(
            "magic samples/{name} {} --password {} --address {} --command {:x}",
            out.display(),
            six(&magic.password),
            six(&magic.address),
            magic.command
        ));
        let layout = Layout::new(size_by_length(&image), true);
        let number = write_magic(magic, &mut image, layout.size);
        if number != 0 {
            run.assert_refused(number, &out);
            continue;
        }
        run.assert_written(&out, &image);
        let [password, address, command] = magic_lines(magic);
        let mut lines = vec![
            "Magic Packet block".to_string(),
            format!("  password         {password}"),
            format!("  address          {address}"),
            format!("  command          {command}"),
        ];
        let at = layout.srom_crc_offset();
        let stored = u16::from_le_bytes([image[at], image[at + 1]]);
        let is_laid_out = stored == srom_crc(&image, layout).value;
        if !is_laid_out {
            lines.push(NOT_LAID_OUT.to_string());
            lines.extend(
                reasons(&image, layout, 3)
                    .iter()
                    .map(|it| format!("  {it}")),
            );
        }
        let shown: Vec<_> = run.written.lines().skip(1).collect();
        assert_eq!(shown, lines, "{name}");
        counts[usize::from(is_laid_out)] += 1;
    }
    assert!(counts[0] > 20 && counts[1] > 2, "{counts:?}");
}

const NOT_LAID_OUT: &str =
    "The card is not laid out for a block: with --magic its SROM CRC is wrong (3).";

/// The walk: after each look the selected block, settled, looks and switches, or the refusal; or why
/// the image is not loaded. The options stand between the reports.
#[test]
fn walks() {
    let mut random = Random::new(21143);
    let mut count = 0;
    for (name, own, image) in samples() {
        for (controller, level) in [(0, NEWEST_LEVEL), (1, NEWEST_LEVEL), (0, 3), (2, 4)] {
            let arguments = Arguments {
                controller,
                level,
                ..own
            };
            count += usize::from(is_walked(&name, &image, arguments, &mut random));
        }
    }
    assert!(count >= 30, "{count} walks");
}

/// Whether the image is loaded; what is shown of its walk, or of the refusal, is held.
fn is_walked(name: &str, image: &[u8], arguments: Arguments, random: &mut Random) -> bool {
    let Arguments {
        chip,
        controller,
        level,
        layout,
        first_edition,
    } = arguments;
    let options = options(layout, image) + edition_option(first_edition);
    let mut walk = Autosense::Fresh;
    let number = walk.load(image, arguments);
    if number != 0 {
        let words = words(arguments, image);
        let run = card(&format!("walk samples/{name} {words} 0"));
        let refused = format!("REFUSED {number}: ");
        assert!(run.written.starts_with(&refused), "{name}");
        assert_eq!(run.status, 1, "{name}");
        return false;
    }
    let starts = starts(image, arguments).unwrap();
    let reports: Vec<_> = (0..20).map(|_| report(random, starts.len())).collect();
    let (first, last) = reports.split_at(random.below(reports.len()));
    let (first, last) = (first.join(" "), last.join(" "));
    let run = card(&format!(
        "walk --level {level} samples/{name} {chip} {first}{options} --controller {controller} {last}"
    ));
    let lines: Vec<_> = run.written.lines().collect();
    let long = reports.iter().filter(|report| is_long(report)).count();
    let way = way_lines(walk.walk().connection);
    let head = 1 + way.lines().count();
    let count = head + reports.len() + long;
    assert_eq!(lines.len(), count, "{name}\n{}", run.written);
    let loaded = format!(
        "LOADED  {}, {} blocks",
        asked(arguments, image),
        starts.len()
    );
    assert_eq!(lines[0], loaded, "{name}");
    assert_eq!(lines[1..head].join("\n"), way, "{name}");
    let mut refused = false;
    let mut lines = lines[head..].iter();
    for report in &reports {
        let links: Vec<u8> = report.bytes().map(|digit| digit - b'0').collect();
        let number = walk.look(&links);
        refused |= number != 0;
        let state = walk.walk();
        let begin = match (number, state.selected) {
            (0, NONE) => "none selected, ".to_string(),
            (0, block) => format!("block {block} at byte {}, ", starts[usize::from(block)]),
            (number, _) => format!("REFUSED {number}: "),
        };
        let begin = if is_long(report) {
            assert_eq!(lines.next(), Some(&&*links_line(report)), "{name}");
            format!("    {begin}")
        } else {
            format!("  {report}  {begin}")
        };
        let line = lines.next().unwrap();
        assert!(line.starts_with(&begin), "{name} {report}: {line}");
        if number == 0 {
            let settled = if state.settled {
                ", settled"
            } else {
                ", not settled"
            };
            let (looks, switches) = (state.looks, state.switches);
            let end = format!("{settled}; looks {looks}, switches {switches}");
            assert!(line.ends_with(&end), "{name} {report}: {line}");
        }
    }
    assert_eq!(run.status, i32::from(refused), "{name}");
    true
}

/// Whether a report is longer than a person can count: then the links that are up are named in a line of their own.
fn is_long(report: &str) -> bool {
    report.len() > 16
}

/// That line, which names the first six.
fn links_line(report: &str) -> String {
    let up: Vec<_> = report.match_indices('1').map(|(at, _)| at).collect();
    let words = match up.as_slice() {
        [] => " none".to_string(),
        _ => up.iter().take(6).map(|at| format!(" {at}")).collect(),
    };
    let more = if up.len() > 6 { " .." } else { "" };
    format!("  links up:{words}{more}")
}

/// A connection type and its way to walk.
fn way_lines(connection: u16) -> String {
    let way = match Way::of(connection) {
        Way::EveryLook => "autosensed at every look".to_string(),
        Way::Once => "autosensed once".to_string(),
        Way::Fixed => format!("fixed: {}", fixed_name(connection).unwrap()),
    };
    connection_lines("  connection type ", connection, &way)
}

/// "every other type counts as fixed", and a look under it at a card without a block gets 32: each type of
/// each chip, and of each edition. Of a fixed one `read` has the same name.
#[test]
fn ways_to_walk() {
    let file = temporary("ways_to_walk").join("card.rom");
    for chip in CHIPS {
        for connection in connections(chip) {
            fs::write(&file, Card::tidy(chip, connection, vec![]).image()).unwrap();
            hold_way(&format!("{} {chip}", file.display()), connection);
        }
    }
    let editions = FIRST_CHIPS.map(|chip| EDITIONS.map(|first_edition| (chip, first_edition)));
    for (chip, first_edition) in editions.into_iter().flatten() {
        let rules = Rules {
            chip,
            version: FIRST_VERSION,
            first_edition,
        };
        for connection in rules.connections() {
            let mut made = Card::tidy(chip, connection, vec![]);
            made.version = FIRST_VERSION;
            fs::write(&file, made.image()).unwrap();
            let option = edition_option(first_edition);
            hold_way(&format!("{} {chip}{option}", file.display()), connection);
        }
    }
}

/// Holds what `walk` and `read` say of the connection type of a card without a block, which these words name.
fn hold_way(words: &str, connection: u16) {
    let run = card(&format!("walk {words} 0"));
    let name = fixed_name(connection);
    let way = format!("\n{}\n", way_lines(connection));
    assert!(run.written.contains(&way), "{}", run.written);
    let is_refused = run.written.contains("REFUSED 32: ");
    assert_eq!(is_refused, name.is_some(), "{}", run.written);
    assert_eq!(run.status, i32::from(is_refused), "{}", run.written);
    let read = card(&format!("read {words}")).written;
    assert!(read.lines().all(|line| line.len() <= 80), "{read}");
    if let Some(name) = name {
        let lines = connection_lines("  connection type  ", connection, name);
        assert!(read.contains(&format!("\n{lines}\n")), "{read}");
    }
}

/// A report for so many blocks in digits, now and then too short or too long.
fn report(random: &mut Random, blocks: usize) -> String {
    let length = (blocks + random.below(3)).saturating_sub(random.below(2));
    let digit = |_| char::from(b'0' + random.below(2) as u8);
    (0..length.max(1)).map(digit).collect()
}

/// A row of the table that shows what readers see: what it begins with, and a cell for each level.
#[derive(Debug)]
struct Row {
    begin: String,
    cells: Vec<String>,
}

/// All rows of that table.
fn rows(written: &str) -> Vec<Row> {
    let row = |line: &str| {
        let (begin, cells) = line.split_at(line.len().min(40));
        let cell = |level| cells.get(5 * level..5 * level + 5).unwrap_or_default();
        let levels = 0..=usize::from(NEWEST_LEVEL);
        Row {
            begin: begin.trim().to_string(),
            cells: levels.map(|level| cell(level).trim().to_string()).collect(),
        }
    };
    let lines = written.lines();
    let table = lines.skip_while(|line| !line.starts_with("  level of the reader"));
    table.take_while(|line| !line.is_empty()).map(row).collect()
}

/// What an older reader sees: the verdict of each level, the entry of each block and the counts
/// below, and nothing but the verdict where it refuses.
#[test]
fn older_readers() {
    let mut count = 0;
    for (name, newest, image) in samples() {
        let run = card(&format!("older samples/{name} {}", words(newest, &image)));
        let rows = rows(&run.written);
        let [
            levels,
            verdict,
            blocks @ ..,
            listed,
            resets,
            power,
            skipped,
            default,
        ] = rows.as_slice()
        else {
            panic!("{name}\n{}", run.written);
        };
        for (row, begin) in [
            (levels, "level of the reader"),
            (verdict, "verdict"),
            (listed, "listed"),
            (resets, "resets"),
            (power, "power"),
            (skipped, "stepped over"),
            (default, "default block"),
        ] {
            assert_eq!(row.begin, begin, "{name}");
        }
        for level in 0..=NEWEST_LEVEL {
            let arguments = Arguments { level, ..newest };
            let (answer, entries) = read_all(&image, arguments);
            let cell = |row: &Row| row.cells[usize::from(level)].clone();
            let place = format!("{name} level {level}\n{}", run.written);
            assert_eq!(cell(levels), level.to_string(), "{place}");
            if level == NEWEST_LEVEL {
                assert_eq!(run.status, i32::from(answer.number != 0), "{place}");
            }
            if answer.number != 0 {
                assert_eq!(cell(verdict), answer.number.to_string(), "{place}");
                assert!(rows[2..].iter().all(|row| cell(row).is_empty()), "{place}");
                continue;
            }
            assert_eq!(cell(verdict), "ok", "{place}");
            assert_eq!(cell(listed), answer.listed.to_string(), "{place}");
            assert_eq!(cell(resets), answer.resets.to_string(), "{place}");
            assert_eq!(cell(power), answer.power.to_string(), "{place}");
            assert_eq!(cell(skipped), answer.skipped.to_string(), "{place}");
            let default_words = self::default(&answer);
            assert_eq!(
                cell(default),
                default_words.trim_start_matches("block "),
                "{place}"
            );
            // From the last block to the first, or from the one that the newest reader refuses.
            let starts = starts(&image, arguments).unwrap();
            let number = read_all(&image, newest).0.number;
            let shown = if (13..18).contains(&number) {
                usize::from(refused_block(&image, newest, number)) + 1
            } else {
                starts.len()
            };
            assert_eq!(blocks.len(), shown, "{place}");
            for (number, (row, &start)) in blocks.iter().rev().zip(&starts).enumerate() {
                let begin = format!("block {number} at {start} ");
                assert!(row.begin.starts_with(&begin), "{place}");
                let is_its = |&(_, offset): &(u16, u16)| usize::from(offset) == start;
                if let Some(entry) = entries.iter().position(is_its) {
                    assert_eq!(cell(row), entry.to_string(), "{place}");
                }
            }
            let often = |word| blocks.iter().filter(|row| cell(row) == word).count();
            let others = [often("rst"), often("pwr"), often("-")];
            let expected = [answer.resets, answer.power, answer.skipped].map(usize::from);
            if shown == starts.len() {
                assert_eq!(others, expected, "{place}");
            }
            count += 1;
        }
    }
    assert!(count >= 100, "{count} readers accept a sample");
}
