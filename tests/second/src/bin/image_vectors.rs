//! Writes 520 records, each an image and the arguments to read it with, to one file, and to another
//! what reading each must answer: `image_vectors INPUT OUTPUT`.
//!
//! A record has the image's length (a word, low byte first), the chip (a word), the controller, the
//! level, the stated size (a word), the layout (1 with a Magic Packet block, 0 without), the edition (1
//! for 1.00, 0 for 1.01), the image.

use second::cases::cases;
use second::edition::{CODES, EDITIONS, FIRST_CHIPS, VERSIONS};
use second::images::{Card, Image, Sample, damages};
use second::layout::LAYOUTS;
use second::random::Random;
use second::reader::{Arguments, read_all, view};
use std::{env, fs, io, process};

const RECORD_COUNT: usize = 520;
const MISSIZED_COUNT: usize = 6;
const DAMAGED_COUNT: usize = 3;
const POWERED_COUNT: usize = 24;
const FIRST_COUNT: usize = 3;
const VALID_COUNT: usize = 150;

/// An image and the arguments to read it with.
struct Record {
    image: Image,
    arguments: Arguments,
}

fn main() -> io::Result<()> {
    let arguments: Vec<_> = env::args_os().skip(1).collect();
    let [input, output] = arguments.as_slice() else {
        eprintln!("usage: image_vectors INPUT OUTPUT");
        process::exit(2);
    };
    let records = records();
    let bytes: Vec<_> = records.iter().flat_map(Record::bytes).collect();
    let lines: String = records.iter().map(Record::line).collect();
    fs::write(input, bytes)?;
    fs::write(output, lines)
}

/// The cases of document 01; in each layout the leaf with the most blocks and each field damaged, and
/// cards of version 1 in each edition; each of the editions' codes; valid cards with power blocks, valid cards
/// for readers of all levels, and leaves of random bytes.
fn records() -> Vec<Record> {
    let mut random = Random::new(1);
    let mut records: Vec<_> = cases()
        .into_iter()
        .map(|case| Record {
            image: case.image,
            arguments: case.arguments,
        })
        .collect();
    for layout in LAYOUTS {
        let mut sample = Sample::longest(&mut random, layout);
        sample.arguments.level = 0;
        records.push(Record::of(&sample));
        for number in damages(layout) {
            let count = if number == 1 {
                MISSIZED_COUNT
            } else {
                DAMAGED_COUNT
            };
            for _ in 0..count {
                records.push(Record::of(&Sample::damaged_in(&mut random, number, layout)));
            }
        }
        for first_edition in EDITIONS {
            let valid = |_| Sample::first_version(&mut random, layout, first_edition);
            records.extend((0..FIRST_COUNT).map(valid).map(|it| Record::of(&it)));
        }
    }
    records.extend(codes());
    for round in 0..POWERED_COUNT {
        let layout = LAYOUTS[round % LAYOUTS.len()];
        records.push(Record::of(&Sample::powered_in(&mut random, layout)));
    }
    for _ in 0..VALID_COUNT {
        let mut sample = Sample::valid(&mut random);
        sample.arguments.level = random.pick(&[0, 1, 2, 3, 4, 5, 6, 7, 7, 7, 7]);
        records.push(Record::of(&sample));
    }
    while records.len() < RECORD_COUNT {
        records.push(Record::of(&Sample::wild(&mut random)));
    }
    records
}

/// Each of the codes of both editions, read in each, of each version for the chips of version 1.
fn codes() -> Vec<Record> {
    let mut records = Vec::new();
    for (version, chip) in VERSIONS
        .into_iter()
        .flat_map(|version| FIRST_CHIPS.map(|chip| (version, chip)))
    {
        for code in CODES {
            let mut card = Card::tidy(chip, code, vec![]);
            card.version = version;
            let arguments = EDITIONS.map(|first| Arguments::newest(chip).in_edition(first));
            records.extend(arguments.map(|arguments| Record {
                image: card.image(),
                arguments,
            }));
        }
    }
    records
}

impl Record {
    fn of(sample: &Sample) -> Self {
        Self {
            image: sample.card.image(),
            arguments: sample.arguments,
        }
    }

    fn bytes(&self) -> Vec<u8> {
        let mut bytes = (self.image.len() as u16).to_le_bytes().to_vec();
        bytes.extend(self.arguments.bytes());
        bytes.extend(&self.image);
        bytes
    }

    /// The answer, its numbers up to the address in hex, and the table, each entry with its view's
    /// bytes in hex; or the refusal's number.
    fn line(&self) -> String {
        let (answer, entries) = read_all(&self.image, self.arguments);
        if answer.number != 0 {
            return format!("refused {}\n", answer.number);
        }
        let entry = |(entry, (kind, offset)): (usize, &(u16, u16))| {
            let block: String = view(&self.image, self.arguments, entry)
                .iter()
                .map(|byte| format!("{byte:02x}"))
                .collect();
            format!(" {kind}@{offset}:{block}")
        };
        let table: String = entries.iter().enumerate().map(entry).collect();
        let [_, connection, control, address, counts @ ..] = answer.values();
        let counts = counts.map(|count| count.to_string()).join(" ");
        format!("accepted {connection:04x} {control:02x} {address:012x} {counts}{table}\n")
    }
}

#[cfg(test)]
mod tests {
    use super::*;
    use second::images::block;
    use second::layout::SIZES;

    /// "Why a call is refused": the records of each size meet 1 to 18, but for 12, 29 to 31, 38 and
    /// acceptance in both layouts; and blocks behind byte 255, and a leaf of 255 blocks.
    #[test]
    fn every_refusal() {
        let records = records();
        assert_eq!(records.len(), RECORD_COUNT);
        for size in SIZES {
            let of_size = records.iter().filter(|it| it.arguments.layout.size == size);
            let lines: Vec<_> = of_size.map(Record::line).collect();
            let numbers = (1..=18).filter(|&number| number != 12);
            for number in numbers.chain(29..=31).chain([38]) {
                let refused = format!("refused {number}\n");
                assert!(lines.contains(&refused), "{size}: {number}");
            }
        }
        let answer = |record: &Record| read_all(&record.image, record.arguments);
        for layout in LAYOUTS {
            let of_layout = records.iter().filter(|it| it.arguments.layout == layout);
            let often = of_layout.filter(|it| answer(it).0.number == 0).count();
            assert!(often > VALID_COUNT / 6, "{layout:?}: {often}");
        }
        let has_high = |it: &&Record| answer(it).1.iter().any(|&(_, offset)| offset > 255);
        assert!(records.iter().filter(has_high).count() > 20);
        assert!(records.iter().any(|it| answer(it).0.blocks == 255));
        let is_misstated = |it: &&Record| !SIZES.contains(&it.arguments.layout.size);
        assert!(records.iter().filter(is_misstated).count() > 5);
    }

    /// Case b of document 01, in the form of a line.
    #[test]
    fn line_of_case_b() {
        assert_eq!(
            records()[1].line(),
            "accepted 0800 00 08002b000000 3 2 0 1 0 255 \
             2@42:86020101000200 2@33:86020001000200\n"
        );
    }

    /// "each edition reads its own code, where the chip's row has that of 1.01, and refuses the other's
    /// with 11 ... Codes are kept as read": the numbers of both editions, 1.01 first, in the order of the
    /// records.
    #[test]
    fn lines_of_codes() {
        let lines: Vec<_> = codes().iter().map(Record::line).collect();
        // 0x0200, 0x0203, 0x0204, 0x0205, each in 1.01 and in 1.00.
        let of_21041 = [[false, true], [false; 2], [true, false], [false; 2]];
        let of_21140 = [[false, true], [false, true], [true, false], [true, false]];
        let later_21041 = [[false; 2], [false; 2], [true; 2], [false; 2]];
        let later_21140 = [[false; 2], [false; 2], [true; 2], [true; 2]];
        let later = [later_21041, later_21140].concat();
        let expected = [of_21041.to_vec(), of_21140.to_vec(), later.clone(), later].concat();
        let expected = expected.concat();
        assert_eq!(lines.len(), expected.len());
        for (place, (line, is_read)) in lines.iter().zip(expected).enumerate() {
            let code = CODES[place / 2 % CODES.len()];
            let accepted = format!("accepted {code:04x} 00 08002b000000 0 0 0 0 0 255\n");
            let expected = if is_read {
                accepted
            } else {
                "refused 11\n".into()
            };
            assert_eq!(*line, expected, "{place}");
        }
    }

    /// "They are counted as power ..., not listed": a block of each kind that the chip has, in the form
    /// of a line. The records meet one power block and more, in both layouts.
    #[test]
    fn lines_of_power_blocks() {
        let blocks = vec![
            block::power(0x01, &[]),
            block::symbol(3, 0, 0, 0x4000),
            block::extended(9, &[]),
            block::power(0x0E, &[0x0821]),
            block::reset(&[]),
            block::power(0xF0, &[]),
        ];
        let image = Card::tidy(21143, 0x0800, blocks).image();
        let line_at = |level| {
            let record = Record {
                image: image.clone(),
                arguments: Arguments::at_level(21143, level),
            };
            record.line()
        };
        let table = "4@37:880403000000000040";
        assert_eq!(
            line_at(7),
            format!("accepted 0800 00 08002b000000 6 1 1 1 3 1 {table}\n")
        );
        assert_eq!(
            line_at(6),
            format!("accepted 0800 00 08002b000000 6 1 1 4 0 1 {table}\n")
        );
        let records = records();
        for layout in LAYOUTS {
            let of_layout = records.iter().filter(|it| it.arguments.layout == layout);
            let lines: Vec<_> = of_layout.map(Record::line).collect();
            let power = |line: &String| {
                let words: Vec<_> = line.split_whitespace().collect();
                words.get(8).map_or(0, |word| word.parse().unwrap())
            };
            let often = |least: u8| lines.iter().filter(|line| power(line) >= least).count();
            assert!(
                often(1) > POWERED_COUNT / LAYOUTS.len(),
                "{layout:?}: {}",
                often(1)
            );
            assert!(often(2) > 1, "{layout:?}: {}", often(2));
        }
    }
}
