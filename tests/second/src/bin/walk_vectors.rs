//! Writes 480 records, each an image, the arguments to load it with and a list of calls, to one
//! file, and to another what each call must answer: `walk_vectors INPUT OUTPUT`.
//!
//! A record has the image's length (a word, low byte first), the chip (a word), the controller, the
//! level, the stated size (a word), the layout (1 with a Magic Packet block, 0 without), the edition (1
//! for 1.00, 0 for 1.01), how many calls follow, the image, and the calls: 0 a load, 1 a clear, 2 a look, which the report's length and the
//! report follow.

use second::calls::{self, Call, Habits};
use second::cases::{CASES_K, CaseK, REPORTS_K, card_b, cases};
use second::edition::CORRECTED;
use second::images::{Card, Image, Sample, damages};
use second::layout::{LAYOUTS, SIZES};
use second::random::Random;
use second::reader::{Arguments, CHIPS};
use second::walk::{Autosense, NONE};
use std::{env, fs, io, process};

const RECORD_COUNT: usize = 480;
const DAMAGED_COUNT: usize = 2;
const POWERED_COUNT: usize = 24;
const FIXED_COUNT: usize = 60;
const FIRST_COUNT: usize = 10;
const MOST_CALLS: usize = 12;

/// The longest report whose length fits a byte.
const LONGEST_REPORT: usize = 255;

/// An image and a list of calls that load it.
struct Record {
    image: Image,
    arguments: Arguments,
    list: Vec<Call>,
}

fn main() -> io::Result<()> {
    let arguments: Vec<_> = env::args_os().skip(1).collect();
    let [input, output] = arguments.as_slice() else {
        eprintln!("usage: walk_vectors INPUT OUTPUT");
        process::exit(2);
    };
    let records = records();
    let bytes: Vec<_> = records.iter().flat_map(Record::bytes).collect();
    let lines: String = records.iter().map(Record::lines).collect();
    fs::write(input, bytes)?;
    fs::write(output, lines)
}

/// Case k of document 01, lists on the cases before it and on the leaf with the most blocks of each
/// layout, each field damaged, cards with power blocks, cards with the codes of edition 1.00 and their
/// twins, and valid cards at all levels, autosensed and fixed ones.
fn records() -> Vec<Record> {
    let mut random = Random::new(1);
    let mut records = case_k();
    for case in cases() {
        let list = list(&mut random, &case.image, case.arguments);
        records.push(Record {
            image: case.image,
            arguments: case.arguments,
            list,
        });
    }
    let mut samples = Vec::new();
    for layout in LAYOUTS {
        samples.push(Sample::longest(&mut random, layout));
        for number in damages(layout) {
            let damaged = |_| Sample::damaged_in(&mut random, number, layout);
            samples.extend((0..DAMAGED_COUNT).map(damaged));
        }
    }
    for round in 0..POWERED_COUNT {
        let layout = LAYOUTS[round % LAYOUTS.len()];
        let mut sample = Sample::powered_in(&mut random, layout);
        calls::autosense(&mut random, &mut sample.card);
        samples.push(sample);
    }
    samples.extend((0..FIXED_COUNT).map(|_| calls::fixed(&mut random)));
    for _ in 0..FIRST_COUNT {
        for (first, _) in CORRECTED {
            let sample = calls::of_code(&mut random, first);
            let twin = sample.corrected();
            samples.extend([sample, twin]);
        }
    }
    // Without a block no chip's leaf has a fixed medium.
    for (chip, size) in CHIPS
        .into_iter()
        .flat_map(|chip| SIZES.map(|size| (chip, size)))
    {
        let card = Card::tidy(chip, 0x0001, vec![]).sized(size);
        let arguments = Arguments::newest(chip).laid_out(card.layout());
        samples.push(Sample { card, arguments });
    }
    while records.len() + samples.len() < RECORD_COUNT {
        samples.push(calls::sample(&mut random));
    }
    for sample in samples {
        let image = sample.card.image();
        let list = list(&mut random, &image, sample.arguments);
        records.push(Record {
            image,
            arguments: sample.arguments,
            list,
        });
    }
    records
}

/// "k b, reports 000, 101, 100", under each type of the case.
fn case_k() -> Vec<Record> {
    let looks = REPORTS_K.map(|report| Call::Look(report.to_vec()));
    let list = [&[Call::Load], looks.as_slice()].concat();
    let record = |case: &CaseK| Record {
        image: card_b(case.connection).image(),
        arguments: Arguments::newest(21143),
        list: list.clone(),
    };
    CASES_K.iter().map(record).collect()
}

/// A list of up to twelve calls whose reports are no longer than a byte can say.
fn list(random: &mut Random, image: &Image, arguments: Arguments) -> Vec<Call> {
    let blocks = calls::block_count(image, arguments);
    let length = 1 + random.below(MOST_CALLS);
    let mut list = Habits::new(random, blocks).list(random, length);
    for call in &mut list {
        if let Call::Look(report) = call {
            report.truncate(LONGEST_REPORT);
        }
    }
    list
}

impl Record {
    fn bytes(&self) -> Vec<u8> {
        let mut bytes = (self.image.len() as u16).to_le_bytes().to_vec();
        bytes.extend(self.arguments.bytes());
        bytes.push(self.list.len() as u8);
        bytes.extend(&self.image);
        for call in &self.list {
            match call {
                Call::Load => bytes.push(0),
                Call::Clear => bytes.push(1),
                Call::Look(report) => {
                    bytes.extend([2, report.len() as u8]);
                    bytes.extend(report);
                }
            }
        }
        bytes
    }

    /// For each call its number and the walk after it: fresh, or settled or not, the selected
    /// block, looks and switches.
    fn lines(&self) -> String {
        let mut walk = Autosense::default();
        let line = |call: &Call| {
            let number = match call {
                Call::Load => walk.load(&self.image, self.arguments),
                Call::Look(report) => walk.look(report),
                Call::Clear => walk.clear(),
            };
            let walk = walk.walk();
            if !walk.loaded {
                return format!("{number} fresh\n");
            }
            let settled = if walk.settled { "settled" } else { "unsettled" };
            let selected = match walk.selected {
                NONE => "none".to_string(),
                block => block.to_string(),
            };
            let (looks, switches) = (walk.looks, walk.switches);
            format!("{number} {settled} {selected} {looks} {switches}\n")
        };
        self.list.iter().map(line).collect()
    }
}

#[cfg(test)]
mod tests {
    use super::*;
    use second::edition::CODES;
    use second::layout::Layout;
    use second::reader::read_all;
    use second::walk::Way;

    /// "none, block 2, block 0, 2 switches; under 0x8800: none, 2, 2, 1 switch", and so under 0xFFFF,
    /// in the form of lines.
    #[test]
    fn lines_of_case_k() {
        let [every_look, once, empty] = &case_k()[..] else {
            panic!("case k has three records");
        };
        let case_b = &cases()[1];
        assert_eq!(every_look.image, case_b.image);
        assert_eq!(every_look.arguments, case_b.arguments);
        assert_eq!(
            every_look.lines(),
            "0 unsettled none 0 0\n\
             0 unsettled none 1 0\n\
             0 settled 2 2 1\n\
             0 settled 0 3 2\n"
        );
        assert_eq!(
            once.lines(),
            "0 unsettled none 0 0\n\
             0 unsettled none 1 0\n\
             0 settled 2 2 1\n\
             0 settled 2 3 1\n"
        );
        assert_eq!(empty.image[30..32], [0xFF, 0xFF]);
        assert_eq!(empty.lines(), once.lines());
    }

    /// "Why a call is refused": the records of each size meet the refusals of load and look, but for
    /// 12 and 23, and every form of a line.
    #[test]
    fn every_refusal() {
        let records = records();
        assert_eq!(records.len(), RECORD_COUNT);
        let lists = records.iter().map(|record| record.list.len());
        assert!(
            lists
                .clone()
                .all(|length| (1..=MOST_CALLS).contains(&length))
        );
        let lines: String = records.iter().map(Record::lines).collect();
        assert_eq!(lines.lines().count(), lists.sum());
        for size in SIZES {
            let of_size = records.iter().filter(|it| it.arguments.layout.size == size);
            let lines: String = of_size.map(Record::lines).collect();
            let met = |number: u8| {
                let start = format!("{number} ");
                lines.lines().any(|line| line.starts_with(&start))
            };
            let numbers = (0..=38).filter(|&number| met(number));
            let expected = (0..=21).filter(|&number| number != 12);
            assert!(numbers.eq(expected.chain(29..=32).chain([38])), "{size}");
        }
        for layout in LAYOUTS {
            let of_layout = records
                .iter()
                .filter(|record| record.arguments.layout == layout);
            assert!(of_layout.count() > RECORD_COUNT / 6, "{layout:?}");
        }
        // Blocks are selected that no leaf of the smaller size has.
        let selected = lines.lines().filter_map(|line| line.split(' ').nth(2));
        let high = selected.filter_map(|block| block.parse().ok());
        let most = Layout::PLAIN.most_blocks();
        assert!(high.filter(|&block: &usize| block >= most).count() > 10);
        for form in ["0 fresh", "0 settled none", "0 unsettled none"] {
            assert!(lines.contains(form), "{form}");
        }
        let many = lines.lines().filter(|line| line.starts_with("0 settled"));
        assert!(many.count() > 300);
    }

    /// "A look under a fixed type selects the first listed block for it" or gets 32: records of
    /// each chip under a fixed type, whose walk settles, and in which looks are refused with it.
    #[test]
    fn fixed_types() {
        let records = records();
        let fixed: Vec<_> = records
            .iter()
            .filter(|record| {
                let (answer, _) = read_all(&record.image, record.arguments);
                answer.number == 0 && Way::of(answer.connection) == Way::Fixed
            })
            .collect();
        for chip in CHIPS {
            let often = |begin: &str| {
                let has_line = |record: &&&Record| {
                    let lines = record.lines();
                    record.arguments.chip == chip && lines.lines().any(|it| it.starts_with(begin))
                };
                fixed.iter().filter(has_line).count()
            };
            let often = [often("0 settled"), often("32 ")];
            assert!(often.iter().all(|&often| often > 1), "{chip}: {often:?}");
        }
    }

    /// "a walk takes 0x0200 as 0x0204 and 0x0203 as 0x0205": records of each of the four codes whose
    /// walk settles.
    #[test]
    fn codes_of_both_editions() {
        let records = records();
        for code in CODES {
            let settled = records.iter().filter(|record| {
                let (answer, _) = read_all(&record.image, record.arguments);
                answer.connection == code && record.lines().contains("0 settled")
            });
            let often = settled.count();
            assert!(often >= FIRST_COUNT / 2, "{code:#06x}: {often}");
        }
    }

    /// "They are counted as power ..., not listed": some of the records that a walk settles on have
    /// power blocks that its reader knows.
    #[test]
    fn power_blocks() {
        let records = records();
        let settled = records.iter().filter(|record| {
            let (answer, _) = read_all(&record.image, record.arguments);
            answer.power > 0 && record.lines().contains("0 settled")
        });
        let often = settled.count();
        assert!(often > POWERED_COUNT / 3, "only {often} have power blocks");
    }
}
