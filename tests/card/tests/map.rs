//! The picture of a ROM: well formed, a cell for each byte with its value and its field.

use card::{
    PowerBlock, card, edition, edition_option, options, power_blocks, samples, temporary, words,
};
use second::edition::{EDITIONS, FIRST_VERSION};
use second::images::{Card, block};
use second::layout::{LAYOUTS, Layout, MAGIC_LENGTH, SMALL, is_of_size, magic_offset};
use second::magic::{ADDRESS_OFFSET, COMMAND_OFFSET, CRC_OFFSET, LAST_RESERVED, PASSWORD_OFFSET};
use second::random::Random;
use second::reader::{Arguments, COMPACT, read_all, view};
use std::collections::BTreeMap;
use std::fs;
use std::ops::Range;
use std::path::Path;

/// The tags of an SVG file, each opened and closed in order, with nothing but text between them.
fn tags(svg: &str) -> Vec<String> {
    let mut open = Vec::new();
    let mut tags = Vec::new();
    for piece in svg.split('<').skip(1) {
        let (tag, text) = piece.split_once('>').expect("each tag is closed");
        assert!(!text.contains(['>', '&']), "{text}");
        assert_eq!(tag.matches('"').count() % 2, 0, "{tag}");
        if let Some(name) = tag.strip_prefix('/') {
            assert_eq!(open.pop().as_deref(), Some(name), "{tag}");
        } else if !tag.ends_with('/') {
            open.push(tag.split(' ').next().unwrap().to_string());
        }
        tags.push(format!("{tag}>{}", text.trim()));
    }
    assert!(open.is_empty(), "{open:?}");
    tags
}

/// The fields that a byte can be of, by the numbers of their classes.
const ID: usize = 1;
const ID_CRC: usize = 2;
const VERSION: usize = 3;
const COUNT: usize = 4;
const ADDRESS: usize = 5;
const CONTROLLER: usize = 6;
const RESERVED: usize = 7;
const LEAF: usize = 8;
const MEDIUM: usize = 9;
const PHY: usize = 10;
const POWER: usize = 12;
const UNKNOWN: usize = 13;
const REFUSED: usize = 14;
const MAKER: usize = 15;
const SROM_CRC: usize = 16;
const PASSWORD: usize = 17;
const WAKE_ADDRESS: usize = 18;
const COMMAND: usize = 19;
const MAGIC_CRC: usize = 20;

/// The fields of a Magic Packet block in the legend, where there is one.
const MAGIC_KEYS: [&str; 4] = [
    "SecureON password",
    "Magic's address",
    "Magic command",
    "Magic CRC",
];

/// The cells in their order: value and field of each.
fn cells(tags: &[String]) -> Vec<(u8, usize)> {
    let mut cells = Vec::new();
    let mut last = None;
    for tag in tags {
        if let Some(class) = tag.strip_prefix("rect class=\"field") {
            let field = class.split('"').next().unwrap().parse().unwrap();
            last = class.contains("width=\"62\"").then_some(field);
        } else if tag.contains("\"value")
            && let Some(field) = last.take()
        {
            let value = tag.rsplit('>').next().unwrap();
            cells.push((u8::from_str_radix(value, 16).unwrap(), field));
        }
    }
    cells
}

/// Every sample in every layout of its size, be it refused: its bytes in order, and what every image
/// of the layout has in the same place. Where it is accepted, the bytes of each entry's block (document
/// 01, "The image") and of each power block, and those of the blocks that a reader of level 3 does not
/// know.
#[test]
fn every_sample() {
    let mut power = 0;
    // Three samples have a Magic Packet block and are accepted, and two of 512 bytes have none.
    let least = [(30, 10), (5, 3), (200, 3), (4, 3)];
    for (layout, least) in LAYOUTS.into_iter().zip(least) {
        let Layout { size, magic } = layout;
        let folder = temporary(&format!("map-{size}-{magic}"));
        let (mut known, mut unknown) = (0, 0);
        for (name, own, image) in samples() {
            let newest = own.laid_out(layout);
            let fields = fields(&folder, &name, newest, &image);
            known += held(&fields, &image, newest, |kind| Some(listed(kind)));
            power += held_power(&fields, &image, newest, POWER);
            let older = Arguments { level: 3, ..newest };
            let fields = self::fields(&folder, &name, older, &image);
            unknown += held(&fields, &image, newest, |kind| {
                (3..COMPACT).contains(&kind).then_some(UNKNOWN)
            });
            unknown += held_power(&fields, &image, newest, UNKNOWN);
        }
        assert!(known >= least.0, "{layout:?}: {known} blocks are known");
        assert!(unknown >= least.1, "{layout:?}: {unknown} blocks are not");
    }
    assert!(power >= 2, "{power} power blocks");
}

/// What stands where, whatever the image holds; by their sizes, the fields of a Magic Packet block.
fn frame(layout: Layout) -> Vec<(Range<usize>, usize)> {
    let maker = layout.leaf_limit();
    let srom_crc = layout.srom_crc_offset();
    let mut frame = vec![
        (0..16, ID),
        (16..17, ID_CRC),
        (17..18, ID),
        (18..19, VERSION),
        (19..20, COUNT),
        (20..26, ADDRESS),
        (maker..srom_crc, MAKER),
        (srom_crc..srom_crc + 2, SROM_CRC),
    ];
    if layout.magic {
        let block = magic_offset(layout.size);
        let inside = [
            (PASSWORD_OFFSET..ADDRESS_OFFSET, PASSWORD),
            (ADDRESS_OFFSET..COMMAND_OFFSET, WAKE_ADDRESS),
            (COMMAND_OFFSET..second::magic::RESERVED.start, COMMAND),
            (second::magic::RESERVED, RESERVED),
            (CRC_OFFSET..LAST_RESERVED, MAGIC_CRC),
            (LAST_RESERVED..MAGIC_LENGTH, RESERVED),
        ];
        frame.extend(inside.map(|(at, field)| (block + at.start..block + at.end, field)));
    }
    frame
}

/// The field of a listed block.
fn listed(kind: u16) -> usize {
    if matches!(kind, 1 | 3) { PHY } else { MEDIUM }
}

/// The field of each byte in the picture of a sample; none where it has no picture.
fn fields(folder: &Path, name: &str, arguments: Arguments, image: &[u8]) -> Vec<usize> {
    let layout = arguments.layout;
    let path = folder.join(format!("{name}.{}.svg", arguments.level));
    let words = format!("{} {}", words(arguments, image), path.display());
    let run = card(&format!("map samples/{name} {words}"));
    let (answer, _) = read_all(image, arguments);
    assert_eq!(run.status, i32::from(answer.number != 0), "{name}");
    if !is_of_size(image, layout.size) {
        assert!(!path.exists(), "{name}");
        return Vec::new();
    }
    let tags = tags(&fs::read_to_string(&path).unwrap());
    for key in MAGIC_KEYS {
        let is_named = tags.iter().any(|tag| tag.ends_with(&format!(">{key}")));
        assert_eq!(is_named, layout.magic, "{name} {key}");
    }
    let cells = cells(&tags);
    let (values, fields): (Vec<_>, Vec<_>) = cells.into_iter().unzip();
    assert_eq!(values, image, "{name}");
    for (places, field) in frame(layout) {
        let is_its = |&it: &usize| it == field;
        assert!(
            fields[places.clone()].iter().all(is_its),
            "{name} {places:?}"
        );
    }
    fields
}

/// How many entries of a reading have a field by their kind: all bytes of their blocks are of it.
fn held(
    fields: &[usize],
    image: &[u8],
    arguments: Arguments,
    field_of: impl Fn(u16) -> Option<usize>,
) -> usize {
    let mut count = 0;
    for (entry, (kind, offset)) in read_all(image, arguments).1.into_iter().enumerate() {
        if let Some(field) = field_of(kind) {
            let size = view(image, arguments, entry).len();
            let block = &fields[offset.into()..][..size];
            assert!(
                block.iter().all(|&it| it == field),
                "entry {entry}: {fields:?}"
            );
            count += 1;
        }
    }
    count
}

/// How many power blocks an accepted image has: all bytes of each are of the field.
fn held_power(fields: &[usize], image: &[u8], arguments: Arguments, field: usize) -> usize {
    if read_all(image, arguments).0.number != 0 {
        return 0;
    }
    let blocks = power_blocks(image, arguments);
    for PowerBlock { number, places, .. } in &blocks {
        let block = &fields[places.clone()];
        assert!(
            block.iter().all(|&it| it == field),
            "block {number}: {fields:?}"
        );
    }
    blocks.len()
}

/// The value of an attribute that is a number.
fn attribute(tag: &str, name: &str) -> usize {
    let (_, value) = tag.split_once(&format!(" {name}=\"")).unwrap();
    value.split('"').next().unwrap().parse().unwrap()
}

/// The width and the height of a page, in its units.
fn page(tags: &[String]) -> (usize, usize) {
    let (_, numbers) = tags[0].split_once(" viewBox=\"0 0 ").unwrap();
    let (width, height) = numbers.split('"').next().unwrap().split_once(' ').unwrap();
    (width.parse().unwrap(), height.parse().unwrap())
}

/// The sizes of the texts of a page by their classes, as its styles give them.
fn text_sizes(tags: &[String]) -> BTreeMap<String, usize> {
    let is_style = |tag: &&String| tag.starts_with("style>");
    let styles = tags.iter().find(is_style).unwrap().replace("style>", "");
    let rules = styles.split('}').filter_map(|rule| rule.split_once('{'));
    let size = |(name, rule): (&str, &str)| {
        let (_, size) = rule.split_once("font-size:")?;
        let size = size.split("px").next().unwrap().parse().unwrap();
        Some((name.trim().trim_start_matches('.').to_string(), size))
    };
    rules.filter_map(size).collect()
}

/// What is drawn on a page: the places that it covers, from left to right and from top to bottom.
#[derive(Debug, Clone, PartialEq)]
struct Drawn {
    across: Range<usize>,
    down: Range<usize>,
    words: String,
}

impl Drawn {
    fn rectangle(tag: &str) -> Self {
        let (x, y) = (attribute(tag, "x"), attribute(tag, "y"));
        Self {
            across: x..x + attribute(tag, "width"),
            down: y..y + attribute(tag, "height"),
            words: String::new(),
        }
    }

    /// A text stands on its line. A character is 0.62 of its size wide at most, and 0.8 of it high; what goes below the line is
    /// less than a fourth.
    fn text(tag: &str, sizes: &BTreeMap<String, usize>) -> Self {
        let (_, class) = tag.split_once("class=\"").unwrap();
        let class = class.split(['"', ' ']).next().unwrap();
        let size = sizes[class];
        let (x, y) = (attribute(tag, "x"), attribute(tag, "y"));
        let words = tag.rsplit_once('>').unwrap().1.to_string();
        let width = (words.chars().count() * size * 62).div_ceil(100);
        let left = match class {
            "words" | "title" => x,
            _ => x
                .checked_sub(width / 2)
                .expect("a text that begins on the page"),
        };
        Self {
            across: left..left + width,
            down: y - size * 4 / 5..y + size / 4,
            words,
        }
    }

    fn is_apart(&self, other: &Self) -> bool {
        let apart =
            |one: &Range<usize>, two: &Range<usize>| one.end <= two.start || two.end <= one.start;
        apart(&self.across, &other.across) || apart(&self.down, &other.down)
    }

    fn holds(&self, other: &Self) -> bool {
        let holds =
            |one: &Range<usize>, two: &Range<usize>| one.start <= two.start && two.end <= one.end;
        holds(&self.across, &other.across) && holds(&self.down, &other.down)
    }
}

/// Fails where two of what is drawn cover the same place.
fn assert_apart(drawn: &[Drawn]) {
    for (place, one) in drawn.iter().enumerate() {
        for other in &drawn[place + 1..] {
            assert!(one.is_apart(other), "{one:?} {other:?}");
        }
    }
}

/// All that is drawn stands on the page, and no two things in one place, but a cell's value and label in it. A card of 512
/// bytes fits on a page of A4 (210 by 297 millimetres), on which no text is smaller than 6 points of 25.4/72 millimetres.
fn assert_page(tags: &[String], layout: Layout) -> Vec<Drawn> {
    let (width, height) = page(tags);
    let sizes = text_sizes(tags);
    let sheet = Drawn {
        across: 0..width,
        down: 0..height,
        words: String::new(),
    };
    let (mut cells, mut inside, mut others) = (vec![], vec![], vec![]);
    for tag in tags {
        if tag.starts_with("rect class=") {
            let drawn = Drawn::rectangle(tag);
            let kind = if tag.contains("width=\"62\"") {
                &mut cells
            } else {
                &mut others
            };
            kind.push(drawn);
        } else if tag.starts_with("text ") {
            let drawn = Drawn::text(tag, &sizes);
            let is_inside = cells.last().is_some_and(|cell: &Drawn| cell.holds(&drawn));
            let kind = if is_inside { &mut inside } else { &mut others };
            kind.push(drawn);
        }
    }
    assert_eq!(cells.len(), usize::from(layout.size));
    assert_eq!(inside.len(), 2 * cells.len(), "a value and a label in each");
    assert_apart(&inside);
    others.extend(cells);
    assert_apart(&others);
    assert!(others.iter().all(|it| sheet.holds(it)), "{others:?}");
    if layout.size != SMALL {
        assert!(height * 210 <= width * 297, "{width} by {height}");
        let smallest = *sizes.values().min().unwrap();
        let points = (smallest * 210 * 72 * 10) as f64 / (width as f64 * 25.4);
        assert!(points.round() >= 60.0, "{points} tenths of a point");
    }
    others
}

/// The page of a card of each layout, with blocks that a reader steps over: more than there are lines for, and with numbers up
/// to 254. Each field has its key in the legend, and the lines stand below.
#[test]
fn pages() {
    let folder = temporary("pages");
    let unknown = || block::extended(9, &[]);
    for layout in LAYOUTS {
        let made = if layout.size == SMALL {
            Card::tidy(21143, 0x0800, vec![unknown(); 12])
        } else {
            Card::tidy(21041, 0x0800, vec![block::media(4, None); 255])
        };
        let made = made.laid_out(&mut Random::new(1), layout);
        let blocks_of_21143 = Card::tidy(21143, 0x0800, vec![unknown(); 150]);
        let mut cards = vec![(made.leaves[0].chip, made)];
        if layout.size != SMALL {
            let made = blocks_of_21143.laid_out(&mut Random::new(1), layout);
            cards.push((21143, made));
        }
        for (chip, made) in cards {
            let image = made.image();
            let (file, svg) = (folder.join("card.rom"), folder.join("card.svg"));
            fs::write(&file, &image).unwrap();
            let (file, picture) = (file.display(), svg.display());
            let options = options(layout, &image);
            let run = card(&format!("map {file} {chip} {picture} --force{options}"));
            assert_eq!(run.status, 0, "{}", run.written);
            let tags = tags(&fs::read_to_string(&svg).unwrap());
            let drawn = assert_page(&tags, layout);
            let keys = tags
                .iter()
                .filter(|tag| tag.contains("width=\"26\""))
                .count();
            assert_eq!(keys, if layout.magic { 21 } else { 17 });
            assert!(drawn.iter().any(|it| it.words == "block: power"));
            let lowest_key = drawn
                .iter()
                .filter(|it| it.across.len() == 26)
                .map(|it| it.down.end)
                .max();
            let lines: Vec<_> = drawn
                .iter()
                .filter(|it| it.words.contains("steps over"))
                .collect();
            assert_eq!(lines.len(), if chip == 21143 { 3 } else { 0 });
            assert!(
                lines.iter().all(|it| Some(it.down.start) > lowest_key),
                "{lines:?}"
            );
        }
    }
}

/// The replacement card: its unknown block has eight bytes, its PHY's 14, its two media's seven and
/// nine (samples/README.md; document 01, 'Leaf and blocks').
#[test]
fn replacement_card() {
    let path = temporary("replacement").join("card.svg");
    let run = card(&format!(
        "map samples/replacement-card.rom 21143 {}",
        path.display()
    ));
    assert_eq!(run.status, 0, "{}", run.written);
    let cells = cells(&tags(&fs::read_to_string(path).unwrap()));
    for (field, bytes) in [
        (UNKNOWN, 8),
        (PHY, 14),
        (MEDIUM, 7 + 9),
        (CONTROLLER, 3),
        (RESERVED, 1),
        (LEAF, 3),
    ] {
        let found = cells.iter().filter(|(_, it)| *it == field).count();
        assert_eq!(found, bytes, "field {field}");
    }
}

/// A card of version 1 in each edition, whose line below the title names it; and "extended ones get 14 at every level", so that
/// one of a type that nobody has met is refused and not stepped over.
#[test]
fn first_version() {
    let folder = temporary("first_version");
    let (file, svg) = (folder.join("card.rom"), folder.join("card.svg"));
    for blocks in [
        vec![block::compact(3, 0, 0)],
        vec![block::compact(3, 0, 0), block::extended(9, &[1, 2])],
    ] {
        let is_accepted = blocks.len() == 1;
        let mut made = Card::tidy(21140, 0x0800, blocks);
        made.version = FIRST_VERSION;
        fs::write(&file, made.image()).unwrap();
        for first_edition in EDITIONS {
            let (file, picture) = (file.display(), svg.display());
            let option = edition_option(first_edition);
            let run = card(&format!("map {file} 21140 {picture} --force{option}"));
            assert_eq!(run.status, i32::from(!is_accepted), "{}", run.written);
            let tags = tags(&fs::read_to_string(&svg).unwrap());
            let drawn = assert_page(&tags, Layout::PLAIN);
            let has = |words: &str| drawn.iter().any(|it| it.words.contains(words));
            let read = format!(
                "accepted by a reader of level 7 for controller 0, read in edition {}",
                edition(first_edition)
            );
            assert_eq!(has(&read), is_accepted, "{drawn:?}");
            assert_eq!(has("refused 14: "), !is_accepted, "{drawn:?}");
            assert!(!has("steps over"), "{drawn:?}");
            let count = |field| cells(&tags).iter().filter(|(_, it)| *it == field).count();
            let refused = if is_accepted { 0 } else { 4 };
            assert_eq!([MEDIUM, UNKNOWN, REFUSED].map(count), [4, 0, refused]);
        }
    }
}
