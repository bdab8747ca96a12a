//! Writes 680 records, each a sheet of either form with what it is written or converted with, to one
//! file, and to another what each must give: of a writing the image and the sheet made of it again, or
//! what the maker answers to an output that is refused for its size, and of a conversion the sheet in
//! the other form: `sheet_vectors INPUT OUTPUT`.
//!
//! A record has words, low byte first: the sheet's length, the stated size, the length of the buffer
//! for a sheet, the chip; then bytes: whether the sheet is wide (1) or narrow (0), whether it is
//! converted (1) or written (0), the layout (1 with a Magic Packet block, 0 without), whether the output
//! is of the larger size (1) or of the smaller (0), the edition (1 for 1.00, 0 for 1.01), the output's
//! last 32 bytes, and the sheet. The output's bytes before are 0.

use second::images::{Image, MAGIC_DAMAGES, MagicBlock, WRONG_SIZES};
use second::layout::{LARGE, Layout, SIZES, SMALL, magic_block};
use second::random::Random;
use second::sheet::{FORMS, Form, KINDS, Made, convert, make, served_editions, write};
use second::sheets::converted::convert_damages;
use second::sheets::{Sheet, sheet_damages};
use std::{env, fs, io, process};

const RECORD_COUNT: usize = 680;
const DAMAGED_COUNT: usize = 2;
const CONVERTED_COUNT: usize = 24;
const FIRST_COUNT: usize = 3;

/// The most bytes of a sheet, and of the buffer for one.
const ROOM: usize = 4_096;

#[derive(Clone, Copy, PartialEq, Eq)]
enum Call {
    Write,
    Convert,
}

/// A sheet and what it is written or converted with.
struct Record {
    call: Call,
    form: Form,
    layout: Layout,
    first_edition: bool,
    output: Image,
    room: usize,
    sheet: Vec<u8>,
}

fn main() -> io::Result<()> {
    let arguments: Vec<_> = env::args_os().skip(1).collect();
    let [input, output] = arguments.as_slice() else {
        eprintln!("usage: sheet_vectors INPUT OUTPUT");
        process::exit(2);
    };
    let records = records();
    let bytes: Vec<_> = records.iter().flat_map(Record::bytes).collect();
    let lines: String = records.iter().map(Record::lines).collect();
    fs::write(input, bytes)?;
    fs::write(output, lines)
}

fn records() -> Vec<Record> {
    let mut random = Random::new(1);
    let mut records = conversions(&mut random);
    records.extend(refused_writings(&mut random));
    let served: Vec<_> = served_editions().collect();
    for &served in served.iter().filter(|(.., first_edition)| !first_edition) {
        let (form, layout, first_edition) = served;
        for sheet in [
            Sheet::new(21143, 0x0800, &[]).bytes(form),
            Sheet::longest(&mut random, layout, first_edition).bytes(form),
            vec![],
        ] {
            records.push(Record::new(&mut random, served, sheet));
        }
    }
    for &served in &served {
        let (form, layout, first_edition) = served;
        for short in 0..FIRST_COUNT {
            let sheet = Sheet::first_version(&mut random, layout, first_edition).bytes(form);
            let mut record = Record::new(&mut random, served, sheet);
            record.room = record.sheet.len() + 1 - short;
            records.push(record);
        }
    }
    while records.len() < RECORD_COUNT {
        let served = random.pick(&served);
        let (form, layout, first_edition) = served;
        let sheet = Sheet::valid(&mut random, layout, first_edition).bytes(form);
        let mut record = Record::new(&mut random, served, sheet);
        let exact = record.sheet.len();
        record.room = random.pick(&[ROOM, exact, exact - 1]);
        records.push(record);
    }
    records
}

/// In each form, layout and edition sheets with each field damaged; valid ones for an output whose block
/// is damaged, or whose size is not served.
fn refused_writings(random: &mut Random) -> Vec<Record> {
    let mut records = Vec::new();
    for served in served_editions() {
        let (form, layout, first_edition) = served;
        for number in sheet_damages(form) {
            for _ in 0..DAMAGED_COUNT {
                let sheet = short(|| Sheet::damaged(random, number, form, layout, first_edition));
                records.push(Record::new(random, served, sheet));
            }
        }
        for number in MAGIC_DAMAGES.into_iter().filter(|_| layout.magic) {
            for _ in 0..DAMAGED_COUNT {
                let sheet = Sheet::valid(random, layout, first_edition).bytes(form);
                let mut record = Record::new(random, served, sheet);
                MagicBlock::damaged(random, number).lay(&mut record.output);
                records.push(record);
            }
        }
        for (output, stated) in other_sizes(form).filter(|_| !first_edition) {
            // The larger size's sheets are for sizes that no ROM has as the smaller's are.
            if layout.size == LARGE && SIZES.contains(&stated) {
                continue;
            }
            let sheet = Sheet::valid(random, layout, first_edition).bytes(form);
            let mut record = Record::new(random, served, sheet);
            record.layout.size = stated;
            record.output = vec![0; output.into()];
            MagicBlock::valid(random).lay(&mut record.output);
            records.push(record);
        }
    }
    records
}

/// Conversions of sheets that each form can say, into buffers that are long enough and too short, and
/// of those that are refused.
fn conversions(random: &mut Random) -> Vec<Record> {
    let mut records = Vec::new();
    for form in FORMS {
        for _ in 0..CONVERTED_COUNT {
            let sheet = Sheet::convertible(random);
            let needed = sheet.bytes(form.other()).len();
            let any = random.below(needed);
            let room = random.pick(&[ROOM, needed, needed - 1, any]);
            records.push(Record::converted(form, room, sheet.bytes(form)));
        }
        for &number in convert_damages(form) {
            for _ in 0..CONVERTED_COUNT / 2 {
                let sheet = short(|| Sheet::unconvertible(random, number, form));
                let room = random.pick(&[ROOM, 0]);
                records.push(Record::converted(form, room, sheet));
            }
        }
    }
    records
}

/// The first sheet that a record has room for.
fn short(mut sheet: impl FnMut() -> Vec<u8>) -> Vec<u8> {
    loop {
        let sheet = sheet();
        if sheet.len() <= ROOM {
            return sheet;
        }
    }
}

/// Sizes of the output, and sizes that are stated of it, that no sheet of the form is written with.
fn other_sizes(form: Form) -> impl Iterator<Item = (u16, u16)> {
    let stated = WRONG_SIZES.into_iter().step_by(3).chain(SIZES);
    let pairs = stated.flat_map(|stated| SIZES.map(|output| (output, stated)));
    pairs.filter(move |&(output, stated)| {
        let image = vec![0; output.into()];
        !form.serves(&image, Layout::new(stated, false))
    })
}

impl Record {
    /// With an output that has a right block, whether the layout does or not.
    fn new(
        random: &mut Random,
        (form, layout, first_edition): (Form, Layout, bool),
        sheet: Vec<u8>,
    ) -> Self {
        let mut output = vec![0; layout.size.into()];
        MagicBlock::valid(random).lay(&mut output);
        Self {
            call: Call::Write,
            form,
            layout,
            first_edition,
            output,
            room: ROOM,
            sheet,
        }
    }

    /// A conversion, which has no output but a buffer.
    fn converted(form: Form, room: usize, sheet: Vec<u8>) -> Self {
        Self {
            call: Call::Convert,
            form,
            layout: Layout::PLAIN,
            first_edition: false,
            output: vec![0; SMALL.into()],
            room,
            sheet,
        }
    }

    /// What its writer is told of form, layout and edition.
    #[cfg(test)]
    fn served(&self) -> (Form, Layout, bool) {
        (self.form, self.layout, self.first_edition)
    }

    /// The chip of a sheet that has one.
    fn chip(&self) -> u16 {
        match self.sheet.len() < self.form.place(KINDS) {
            true => 0,
            false => self.form.chip(&self.sheet),
        }
    }

    fn bytes(&self) -> Vec<u8> {
        let is_large = self.output.len() == LARGE.into();
        let words = [
            self.sheet.len() as u16,
            self.layout.size,
            self.room as u16,
            self.chip(),
        ];
        let flags = [
            self.form.is_wide(),
            self.call == Call::Convert,
            self.layout.magic,
            is_large,
            self.first_edition,
        ];
        let mut bytes = words.map(u16::to_le_bytes).concat();
        bytes.extend(flags.map(u8::from));
        bytes.extend(magic_block(&self.output));
        bytes.extend(&self.sheet);
        bytes
    }

    /// The image in hex and, on a line of its own, the sheet made of it; for either, the refusal's
    /// number where it is refused. Where the writer refuses the output's size, the maker is asked of
    /// the output. Of a conversion the sheet in the other form.
    fn lines(&self) -> String {
        if self.call == Call::Convert {
            return self.line_of_sheet(|buffer| convert(&self.sheet, self.form, buffer));
        }
        let mut image = self.output.clone();
        let (form, layout) = (self.form, self.layout);
        match write(&self.sheet, form, layout, self.first_edition, &mut image) {
            0 => hex(&image) + &self.line_of_made(&image),
            1 => refused(1) + &self.line_of_made(&image),
            number => refused(number),
        }
    }

    fn line_of_made(&self, image: &Image) -> String {
        let (form, layout) = (self.form, self.layout);
        let make =
            |buffer: &mut [u8]| make(image, self.chip(), form, layout, self.first_edition, buffer);
        self.line_of_sheet(make)
    }

    /// What a call lays into the buffer.
    fn line_of_sheet(&self, call: impl FnOnce(&mut [u8]) -> Made) -> String {
        let mut buffer = vec![0; self.room];
        let made = call(&mut buffer);
        match made.number {
            0 => hex(&buffer[..made.length]),
            number => refused(number),
        }
    }
}

fn refused(number: u8) -> String {
    format!("refused {number}\n")
}

/// A line of hex.
fn hex(bytes: &[u8]) -> String {
    let digits = bytes.iter().map(|byte| format!("{byte:02x}"));
    digits.chain(["\n".to_string()]).collect()
}

#[cfg(test)]
mod tests {
    use super::*;
    use second::edition::FIRST_VERSION;
    use second::reader::POWER;
    use second::sheet::{LONGEST_WIDE_SHEET, VERSION};

    /// The records of one call.
    fn records_of(call: Call) -> Vec<Record> {
        let mut records = records();
        assert_eq!(records.len(), RECORD_COUNT);
        records.retain(|record| record.call == call);
        records
    }

    /// "Writer: 24 ... then the newest reader's number", 33 after 24: the records of each form and
    /// layout meet all that a sheet can cause, and what the output's block and size can. "the old form
    /// gets 1 for any but 128 bytes".
    #[test]
    fn every_refusal() {
        let records = records_of(Call::Write);
        for served in served_editions() {
            let (form, layout, _) = served;
            let blocks = MAGIC_DAMAGES.into_iter().filter(|_| layout.magic);
            for number in sheet_damages(form).into_iter().chain(blocks) {
                let is_it = |record: &&Record| record.served() == served;
                let of_it = records.iter().filter(is_it);
                let met = of_it.filter(|record| record.lines() == refused(number));
                assert!(met.count() >= DAMAGED_COUNT, "{served:?} {number}");
            }
        }
        let both = refused(1) + &refused(1);
        let mut met = [0; 2];
        for record in &records {
            let lines = record.lines();
            let sizes = (record.layout.size, record.output.len());
            let is_served = match record.form {
                Form::Narrow => sizes == (128, 128),
                Form::Wide => sizes == (128, 128) || sizes == (512, 512),
            };
            assert!(is_served != lines.starts_with(&refused(1)));
            assert!(is_served || lines == both, "{lines}");
            met[usize::from(record.form.is_wide())] += usize::from(!is_served);
        }
        assert!(met.iter().all(|&often| often >= 10), "{met:?}");
    }

    /// "newest means 7": some of the sheets that are written have power blocks, and some of them two.
    #[test]
    fn power_blocks() {
        let records = records_of(Call::Write);
        let written = records
            .iter()
            .filter(|record| !record.lines().starts_with("refused"));
        let counts: Vec<_> = written
            .map(|record| {
                let (count, _) = record.form.sizes(&record.sheet);
                let kinds = &record.sheet[record.form.place(KINDS)..][..2 * count];
                let kinds = kinds.chunks(2);
                kinds.filter(|kind| **kind == POWER.to_le_bytes()).count()
            })
            .collect();
        let often = |least| counts.iter().filter(|&&count| count >= least).count();
        assert!(often(1) >= 10 && often(2) >= 3, "{counts:?}");
    }

    /// "Writing a sheet and reading it returns that sheet": the second line is the record's sheet, or
    /// 12 where the buffer is too short for it, and the first ends with the output's bytes where they
    /// are kept.
    #[test]
    fn second_line_is_the_sheet() {
        let records = records_of(Call::Write);
        for served in served_editions() {
            let (form, layout, first_edition) = served;
            let (mut met, mut short, mut longest, mut first) = (0, 0, 0, 0);
            let digits = 2 * usize::from(layout.size);
            let is_it = |record: &&Record| record.served() == served;
            for record in records.iter().filter(is_it) {
                let lines = record.lines();
                if lines.starts_with("refused") {
                    continue;
                }
                let (image, sheet) = lines.split_at(digits + 1);
                let expected = if record.room < record.sheet.len() {
                    short += 1;
                    refused(12)
                } else {
                    hex(&record.sheet)
                };
                assert_eq!(sheet, expected);
                let kept = hex(magic_block(&record.output));
                assert_eq!(image.ends_with(&kept), layout.magic);
                met += 1;
                longest = longest.max(record.sheet.len());
                first += usize::from(record.sheet[form.place(VERSION)] == FIRST_VERSION);
            }
            let often = (met, short, first);
            assert!(
                met > 5 && short > 0 && first >= FIRST_COUNT,
                "{served:?}: {often:?}"
            );
            assert!(first_edition || longest == form.longest(layout));
        }
        let lengths = records.iter().map(|record| record.sheet.len());
        assert!(lengths.max() > Some(LONGEST_WIDE_SHEET));
    }

    /// "give 24, 33 and 12 only": each converter's answers are met, and 33 is none of widening's.
    #[test]
    fn conversions_of_every_number() {
        let records = records_of(Call::Convert);
        for form in FORMS {
            let of_form = records.iter().filter(|record| record.form == form);
            let lines: Vec<_> = of_form.map(Record::lines).collect();
            let often = |number| lines.iter().filter(|it| **it == refused(number)).count();
            let accepted = lines.iter().filter(|it| !it.starts_with("refused")).count();
            let large = often(33);
            assert_eq!(accepted + often(24) + often(12) + large, lines.len());
            assert!(accepted > 6 && often(24) > 6 && often(12) > 6, "{form:?}");
            assert!(if form.is_wide() {
                large > 6
            } else {
                large == 0
            });
        }
    }
}
