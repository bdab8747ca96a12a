//! The sentences of `./card older`, held to all walks of the second implementation: every list of looks, a reader and an older
//! one side by side (document 01, 'The walk' and demand 3; document 02, requests 4, 5 and 12).

use card::{card, fixed_name, samples, temporary, words};
use second::calls::{block_count, connect, mark};
use second::images::{Card, block};
use second::layout::LAYOUTS;
use second::random::Random;
use second::reader::{Arguments, CHIPS, COMPACT, NEWEST_LEVEL, read_all, starts};
use second::walk::{AUTOSENSE, AUTOSENSE_ONCE, EMPTY_CONNECTION, NONE, Walk, fast};
use std::collections::{BTreeSet, VecDeque};
use std::fmt::Write as _;
use std::fs;
use std::io::{self, Write as _};
use std::path::Path;

/// The most blocks of an image here: it has 4,096 reports.
const MOST_BLOCKS: usize = 12;

/// The blocks that one sentence names.
const NAMED: usize = 6;

/// A walk of a level and one of an older level, with their looks and switches counted from 0.
#[derive(Clone, Copy)]
struct Pair {
    newer: Walk,
    older: Walk,
}

/// What one look makes of a walk: the number answered, settled, the selected block, and whether it switched.
type Seen = (u8, bool, u8, bool);

fn look(walk: Walk, report: &[u8]) -> (Walk, Seen) {
    let walked = fast::look(walk, report);
    let mut after = walked.walk;
    let seen = (
        walked.number,
        after.settled,
        after.selected,
        after.switches != walk.switches,
    );
    (after.looks, after.switches) = (0, 0);
    (after, seen)
}

impl Pair {
    /// Both walks have read the image.
    fn load(image: &[u8], reader: Arguments, older: u8) -> Self {
        let load = |level| {
            let walked = fast::load(Walk::FRESH, image, Arguments { level, ..reader });
            assert_eq!(walked.number, 0);
            walked.walk
        };
        Self {
            newer: load(reader.level),
            older: load(older),
        }
    }

    /// Both after one look at the links, and whether it left them alike.
    fn look(&self, report: &[u8]) -> (Self, bool) {
        let (newer, newer_seen) = look(self.newer, report);
        let (older, older_seen) = look(self.older, report);
        (Self { newer, older }, newer_seen == older_seen)
    }

    fn states(&self) -> [(bool, u8); 2] {
        [self.newer, self.older].map(|walk| (walk.settled, walk.selected))
    }

    /// Whether every list of these reports leaves both alike after each look.
    fn stays_alike(self, reports: &[Vec<u8>]) -> bool {
        let mut met = BTreeSet::from([self.states()]);
        let mut left = VecDeque::from([self]);
        while let Some(pair) = left.pop_front() {
            for report in reports {
                let (after, is_alike) = pair.look(report);
                if !is_alike {
                    return false;
                }
                if met.insert(after.states()) {
                    left.push_back(after);
                }
            }
        }
        true
    }
}

/// Every report for so many blocks, and two that are refused: one too short, and one with a byte above 1.
fn reports(blocks: usize) -> Vec<Vec<u8>> {
    let report = |links: usize| {
        (0..blocks)
            .map(|block| (links >> block & 1) as u8)
            .collect()
    };
    let mut reports: Vec<Vec<u8>> = (0..1 << blocks).map(report).collect();
    if blocks > 0 {
        reports.extend([vec![1; blocks - 1], vec![2; blocks]]);
    }
    reports
}

/// The block that every accepted look at a walk under a fixed type selects, at first and then; none where every look is refused
/// with 32.
fn selected_always(walk: Walk, reports: &[Vec<u8>]) -> Option<u8> {
    let (after, _) = look(walk, &reports[0]);
    let looks = reports
        .iter()
        .flat_map(|it| [look(walk, it), look(after, it)]);
    let seen = looks.map(|(_, (number, _, selected, _))| (number, selected));
    let seen: BTreeSet<_> = seen.filter(|&(number, _)| number != 19).collect();
    match Vec::from_iter(seen)[..] {
        [(0, block)] => Some(block),
        [(32, NONE)] => None,
        ref others => panic!("{others:?}"),
    }
}

/// A report with one link up.
fn alone(blocks: usize, block: usize) -> Vec<u8> {
    (0..blocks).map(|other| u8::from(other == block)).collect()
}

/// The blocks of the entries that an older level takes out of a reader's table, in table order: "whose kind is a type not
/// below the older level (256 and 257 are no types)".
fn removed(image: &[u8], reader: Arguments, older: u8) -> Vec<usize> {
    let starts = starts(image, reader).unwrap();
    let (_, entries) = read_all(image, reader);
    let is_removed = |&(kind, _): &(u16, u16)| kind < COMPACT && kind >= older.into();
    let block = |(_, offset): (u16, u16)| {
        let is_there = |&start: &usize| start == usize::from(offset);
        starts.iter().position(is_there).unwrap()
    };
    entries.into_iter().filter(is_removed).map(block).collect()
}

/// What the next line says of an older level.
fn sentence<'a>(lines: &mut dyn Iterator<Item = &'a str>, level: u8) -> &'a str {
    let line = lines.next().unwrap();
    let begin = format!("  level {level}: ");
    line.strip_prefix(&begin).expect("a sentence for the level")
}

/// The numbers of blocks as a sentence names them: the first six, and whether there are more.
fn named(blocks: &[usize]) -> String {
    let mut words = String::new();
    for block in blocks.iter().take(NAMED) {
        write!(words, " {block}").unwrap();
    }
    if NAMED < blocks.len() {
        words += " ..";
    }
    words
}

/// How many sentences of each kind were held, how many of them name more blocks than they have room for, and how many are of a
/// card with an empty connection word.
#[derive(Debug, Default)]
struct Tally {
    whatever: usize,
    while_down: usize,
    no: usize,
    long: usize,
    empty: usize,
    /// Under a fixed type: an older level that lists the first block with the medium, readers without such a block, and older
    /// levels that select another or refuse.
    lists: usize,
    without: usize,
    selects: usize,
    refuses: usize,
}

impl Tally {
    /// Holds what the tool says of an older level, one line or two, to all walks.
    fn hold(
        &mut self,
        lines: &mut dyn Iterator<Item = &str>,
        image: &[u8],
        reader: Arguments,
        level: u8,
    ) {
        let start = Pair::load(image, reader, level);
        let blocks = start.newer.blocks.into();
        let tells_apart = |report: &[u8]| !start.look(report).1;
        let removed = removed(image, reader, level);
        let is_condition_needed = || {
            let mut first = removed.iter().take(NAMED);
            first.all(|&block| tells_apart(&alone(blocks, block)))
        };
        let sentence = sentence(lines, level);
        if sentence == "yes, whatever links are up" {
            assert!(start.stays_alike(&reports(blocks)));
            self.whatever += 1;
            return;
        }
        self.long += usize::from(NAMED < removed.len());
        if let Some(rest) = sentence.strip_prefix("yes, while no link is up at block") {
            assert_eq!(rest, named(&removed));
            let mut reports = reports(blocks);
            reports.retain(|report| removed.iter().all(|&block| report.get(block) != Some(&1)));
            assert!(start.stays_alike(&reports));
            assert!(!removed.is_empty() && is_condition_needed());
            self.while_down += 1;
            return;
        }
        let default = start.newer.default_number;
        assert_eq!(
            sentence,
            format!("no: with no link up it misses the default, block {default},")
        );
        let begin = "           and so it may with a link up at block";
        assert_eq!(lines.next().unwrap(), format!("{begin}{}", named(&removed)));
        assert!(tells_apart(&vec![0; blocks]));
        assert!(!removed.is_empty() && is_condition_needed());
        self.no += 1;
    }

    /// The same under a fixed type.
    fn hold_fixed(
        &mut self,
        lines: &mut dyn Iterator<Item = &str>,
        image: &[u8],
        reader: Arguments,
        level: u8,
    ) {
        let start = Pair::load(image, reader, level);
        let reports = reports(start.newer.blocks.into());
        let sentence = sentence(lines, level);
        let Some(choice) = selected_always(start.newer, &reports) else {
            let without = "yes, both refuse every look with 32: no listed block has this medium";
            assert_eq!(sentence, without);
            assert!(start.stays_alike(&reports));
            self.without += 1;
            return;
        };
        let first = format!("block {choice}, the first with this medium");
        if sentence == format!("yes, it lists {first}") {
            assert!(start.stays_alike(&reports));
            self.lists += 1;
            return;
        }
        assert_eq!(sentence, format!("no: it does not list {first},"));
        let is_accepted = |report: &&Vec<u8>| look(start.newer, report).1.0 == 0;
        let mut accepted = reports.iter().filter(is_accepted);
        assert!(accepted.all(|report| !start.look(report).1));
        let does = match selected_always(start.older, &reports) {
            Some(block) => {
                self.selects += 1;
                format!("selects block {block}")
            }
            None => {
                self.refuses += 1;
                "refuses every look with 32".to_string()
            }
        };
        assert_eq!(lines.next().unwrap(), format!("           and {does}"));
    }

    /// Holds what the tool says of a card that the newest reader accepts, as a reader of each level.
    fn hold_card(&mut self, file: &str, image: &[u8], newest: Arguments) {
        for level in 0..=NEWEST_LEVEL {
            self.hold_reader(file, image, Arguments { level, ..newest });
        }
    }

    fn hold_reader(&mut self, file: &str, image: &[u8], reader: Arguments) {
        let run = card(&format!("older {file} {}", words(reader, image)));
        // Shown where a sentence does not hold.
        println!("{image:02x?}\n{}", run.written);
        assert_eq!(run.status, 0);
        let (_, below) = run.written.rsplit_once("\n\n").unwrap();
        let mut lines = below.lines();
        let connection = read_all(image, reader).0.connection;
        let fixed = fixed_name(connection);
        if let Some(name) = fixed {
            let line = format!("The connection type is fixed: {name}");
            assert_eq!(lines.next(), Some(&*line));
        }
        assert_eq!(lines.next(), Some(&*title(reader.level)));
        for level in 0..reader.level {
            match fixed {
                Some(_) => self.hold_fixed(&mut lines, image, reader, level),
                None => self.hold(&mut lines, image, reader, level),
            }
            self.empty += usize::from(connection == EMPTY_CONNECTION);
        }
        assert_eq!(lines.next(), None);
    }

    /// The same of a made card, through a file.
    fn hold_made(&mut self, folder: &Path, made: &Card, newest: Arguments) {
        let file = folder.join("card.rom");
        fs::write(&file, made.image()).unwrap();
        let newest = newest.laid_out(made.layout());
        self.hold_card(file.to_str().unwrap(), &made.image(), newest);
    }
}

/// What stands above the sentences of a reader.
fn title(reader: u8) -> String {
    match reader {
        0 => "No driver is older than one of level 0.".to_string(),
        NEWEST_LEVEL => "Would a station with an older driver walk as with the newest?".to_string(),
        _ => format!("Would a station with an older driver walk as with one of level {reader}?"),
    }
}

/// A random card that a newest reader reads, of any layout, autosensed or fixed, whose first controller has from 1 to 12
/// blocks, and in half of the cases with more blocks that have Active_Invalid.
fn random_card(random: &mut Random, newest: Arguments) -> Card {
    let Arguments {
        chip,
        first_edition,
        ..
    } = newest;
    loop {
        let layout = random.pick(&LAYOUTS);
        let mut card = Card::valid(random, chip, layout, first_edition);
        connect(random, &mut card, first_edition);
        if random.one_in(2) {
            mark(random, &mut card);
        }
        let blocks = block_count(&card.image(), newest.laid_out(layout));
        if (1..=MOST_BLOCKS).contains(&blocks) {
            return card;
        }
    }
}

/// Cards that lose more blocks than a sentence names: with a default that stays, with one that goes, and with none; one of them
/// has an empty connection word.
fn long_cards() -> Vec<(Card, u16)> {
    let sias = |count| vec![block::sia(0, None, 1, 2); count];
    let with = |block, mut blocks: Vec<Vec<u8>>| {
        blocks.insert(3, block);
        blocks
    };
    let symbol = block::symbol(3, 0, 0, 0x4000);
    let compact = block::compact(0, 0, 0x4000);
    let non_miis = vec![block::non_mii(3, 0, 0); 9];
    vec![
        (
            Card::tidy(21140, AUTOSENSE_ONCE, with(compact, non_miis)),
            21140,
        ),
        (Card::tidy(21143, AUTOSENSE, with(symbol, sias(10))), 21143),
        (
            Card::tidy(21142, EMPTY_CONNECTION, sias(MOST_BLOCKS)),
            21142,
        ),
    ]
}

/// A compact block and one of type 0, which level 0 does not list, for the medium that the card is set to.
fn fixed_card() -> Card {
    let blocks = vec![
        block::compact(3, 0, 0x4000),
        block::non_mii(3, 0, 0),
        block::compact(0, 0, 0),
    ];
    Card::tidy(21140, 0x0003, blocks)
}

/// "yes, whatever": no list of looks tells the walks apart. "yes, while": none does in which no removed block is up, and each
/// removed block, were it up alone, would. "no": a look with no link up does. Under a fixed type, "yes": none does, and "no":
/// every accepted look does.
#[test]
fn older_sentences() {
    let mut tally = Tally::default();
    let mut cards = 0;
    for (name, newest, image) in samples() {
        let is_accepted = read_all(&image, newest).0.number == 0;
        if is_accepted && block_count(&image, newest) <= MOST_BLOCKS {
            tally.hold_card(&format!("samples/{name}"), &image, newest);
            cards += 1;
        }
    }
    let folder = temporary("sentences");
    let mut made = long_cards();
    made.push((fixed_card(), 21140));
    for (card, chip) in made {
        tally.hold_made(&folder, &card, Arguments::newest(chip));
        cards += 1;
    }
    let mut random = Random::new(21143);
    for _ in 0..12 {
        for chip in CHIPS {
            let newest = Arguments::newest(chip).in_edition(random.one_in(2));
            let card = random_card(&mut random, newest);
            tally.hold_made(&folder, &card, newest);
            cards += 1;
        }
    }
    // To the standard error stream itself, so that a run that passes shows it too.
    writeln!(io::stderr(), "sentences of {cards} cards: {tally:?}").unwrap();
    let Tally {
        whatever,
        while_down,
        no,
        long,
        empty,
        lists,
        without,
        selects,
        refuses,
    } = tally;
    let sensed = [whatever, while_down, no, long, empty];
    let fixed = [lists, without, selects, refuses];
    let least = sensed.into_iter().chain(fixed).min();
    assert!(least > Some(2), "{tally:?}");
}

/// A card that is refused with 31 is read at every level below (document 02, request 3), and of the others nothing is
/// promised.
#[test]
fn refused_cards() {
    let mut repeated = 0;
    for (name, newest, image) in samples() {
        let number = read_all(&image, newest).0.number;
        if number == 0 {
            continue;
        }
        let run = card(&format!("older samples/{name} {}", words(newest, &image)));
        let said = run.written.lines().last().unwrap();
        if number == 31 {
            let read =
                "Readers below level 7 do not know power blocks, and all of them read this card.";
            assert_eq!(said, read);
            let below = (0..NEWEST_LEVEL).map(|level| Arguments { level, ..newest });
            assert!(
                below
                    .into_iter()
                    .all(|it| read_all(&image, it).0.number == 0)
            );
            repeated += 1;
        } else {
            let refused =
                "The newest reader refuses this card, so nothing is promised of older ones.";
            assert_eq!(said, refused, "{name}");
        }
    }
    assert!(repeated > 0);
}
