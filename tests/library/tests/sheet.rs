//! The writer and the sheet maker of the library against the second implementation in both forms,
//! both returns, and the forms against each other.

use library::compare::{self, agreed};
use library::editions::{Editions, titled};
use library::families::{Family, Numbers, numbers_table, seen_rows, show, tallies, total_row};
use library::lent::{Lent, hex};
use library::{Form, Made};
use second::crc::lay_crcs;
use second::edition::{CODES, EDITIONS};
use second::images::{MAGIC_DAMAGES, MagicBlock, Sample, WRONG_SIZES};
use second::layout::{LARGE, LAYOUTS, Layout, SIZES, SMALL};
use second::random::Random;
use second::reader::{Arguments, CHIPS};
use second::sheet::{FORMS, LONGEST_SHEET, LONGEST_WIDE_SHEET, served, served_editions};
use second::sheets::tidy::{TIDY_DAMAGES, damaged, tidy, untidy};
use second::sheets::{Sheet, output, sheet_damages, unserved};

const LEAST_INPUTS: usize = 400_000;

/// The numbers that the writer can answer. The image to be written has right CRCs but for the Magic
/// Packet block that it keeps, a right header and one controller, so the reader is left with few.
const WRITE_NUMBERS: [usize; 17] = [
    0, 1, 2, 7, 38, 11, 14, 15, 16, 17, 18, 24, 25, 26, 29, 30, 31,
];

/// The numbers that the maker can answer: controller 0 is below every count, and its address is the
/// base.
const MAKE_NUMBERS: [usize; 21] = [
    0, 1, 2, 3, 4, 5, 7, 38, 10, 11, 12, 13, 14, 15, 16, 17, 18, 27, 29, 30, 31,
];

/// The numbers that the two can answer in a form where its size is stated, or another: "serve both ROM
/// sizes in the wide one; the old form gets 1 for any but 128 bytes". 33 is of the wide form alone.
fn can_write(form: Form, is_served: bool) -> Vec<usize> {
    let numbers = if is_served {
        &WRITE_NUMBERS[..]
    } else {
        &[1, 24]
    };
    let too_large = form.is_wide().then_some(33);
    numbers.iter().copied().chain(too_large).collect()
}

fn can_make(is_served: bool) -> Vec<usize> {
    let numbers = if is_served { &MAKE_NUMBERS[..] } else { &[1] };
    numbers.to_vec()
}

/// More bytes than any sheet of a tidy image has.
const ROOMY: usize = LONGEST_WIDE_SHEET + 40;

/// The longest sheets of accepted images, each with its form and its image's size.
const LONGEST: [(usize, Form, u16); 3] = [
    (LONGEST_SHEET, Form::Narrow, SMALL),
    (400, Form::Wide, SMALL),
    (LONGEST_WIDE_SHEET, Form::Wide, LARGE),
];

/// What is counted beside numbers.
#[derive(Debug, Clone, Copy, PartialEq, Eq)]
enum Seen {
    Written(Form, Layout),
    Made(Form, Layout),
    /// One of [`LONGEST`] is written, or made.
    LongestWritten(usize),
    LongestMade(usize),
    /// A narrow sheet and the same widened: both are written, or both are refused.
    WrittenAlike,
    RefusedAlike,
    /// The wide sheet of an image and its narrow one, widened; or neither.
    MadeAlike,
    NotMadeAlike,
}

/// All of these, in the table's order.
fn all_seen() -> Vec<Seen> {
    let mut seen = Vec::new();
    seen.extend(served().map(|(form, layout)| Seen::Written(form, layout)));
    seen.extend(served().map(|(form, layout)| Seen::Made(form, layout)));
    seen.extend(LONGEST.map(|(length, ..)| Seen::LongestWritten(length)));
    seen.extend(LONGEST.map(|(length, ..)| Seen::LongestMade(length)));
    seen.extend([Seen::WrittenAlike, Seen::RefusedAlike]);
    seen.extend([Seen::MadeAlike, Seen::NotMadeAlike]);
    seen
}

impl Seen {
    fn title(self) -> String {
        let in_layout = |call: &str, form: Form, Layout { size, magic }: Layout| {
            let magic = if magic { " magic" } else { "" };
            format!("{call} {} {size}{magic}", form_name(form))
        };
        match self {
            Self::Written(form, layout) => in_layout("written", form, layout),
            Self::Made(form, layout) => in_layout("made", form, layout),
            Self::LongestWritten(length) => format!("written of {length}"),
            Self::LongestMade(length) => format!("made of {length}"),
            Self::WrittenAlike => "written alike".into(),
            Self::RefusedAlike => "refused alike".into(),
            Self::MadeAlike => "made alike".into(),
            Self::NotMadeAlike => "not made alike".into(),
        }
    }
}

fn form_name(form: Form) -> &'static str {
    match form {
        Form::Narrow => "narrow",
        Form::Wide => "wide",
    }
}

/// How often the writer and the maker of each form answered each number, what was seen beside, and
/// how many sheets and images were compared.
struct Tally {
    writes: [Numbers; FORMS.len()],
    makes: [Numbers; FORMS.len()],
    seen: Vec<usize>,
    /// What the two answered to version 1 in each form and layout, the writer first.
    editions: [[Editions; SERVED_COUNT]; 2],
    sheets: usize,
    images: usize,
}

/// How many layouts the forms serve, each counted.
const SERVED_COUNT: usize = 6;

impl Default for Tally {
    fn default() -> Self {
        Self {
            writes: Default::default(),
            makes: Default::default(),
            seen: vec![0; all_seen().len()],
            editions: Default::default(),
            sheets: 0,
            images: 0,
        }
    }
}

impl Tally {
    fn see(&mut self, seen: Seen) {
        let place = all_seen().iter().position(|&it| it == seen);
        self.seen[place.expect("it is one of all")] += 1;
    }

    /// What the writer or the maker answered to version 1 in a form and a layout, if it is served.
    fn editions_of(&mut self, call: usize, served_as: (Form, Layout)) -> Option<&mut Editions> {
        let place = served().position(|it| it == served_as)?;
        Some(&mut self.editions[call][place])
    }

    /// Compares the writing of a sheet to an image, which a refusal must leave as it is; an accepted
    /// sheet is made again, and what stands behind the board's part is kept.
    fn compare_write(
        &mut self,
        sheet: &[u8],
        form: Form,
        layout: Layout,
        first_edition: bool,
        before: &[u8],
    ) {
        let (number, image) = agreed(compare::write(sheet, form, layout, first_edition, before));
        assert!(
            number == 0 || image == before,
            "refused with {number}, and changed the image\nsheet {}",
            hex(sheet)
        );
        self.writes[form as usize].count(before, layout.size, number);
        if let Some(editions) = self.editions_of(0, (form, layout)) {
            editions.count_sheet(sheet, form, first_edition, number);
        }
        if number == 0 {
            assert_eq!(image[layout.board_end()..], before[layout.board_end()..]);
            let mut again = vec![0; sheet.len()];
            let chip = form.chip(sheet);
            let made = library::make_sheet(&image, chip, form, layout, first_edition, &mut again);
            let expected = Made {
                number: 0,
                length: sheet.len(),
            };
            assert!(
                made == expected && again == sheet,
                "{made:?}\nsheet {}\nagain {}",
                hex(sheet),
                hex(&again)
            );
            self.see(Seen::Written(form, layout));
            if LONGEST.contains(&(sheet.len(), form, layout.size)) {
                self.see(Seen::LongestWritten(sheet.len()));
            }
        }
        if !form.is_wide() && number != 24 && layout.size != LARGE {
            self.compare_written_alike(sheet, layout, first_edition, before, (number, &image));
        }
    }

    /// "The writer and the sheet maker take both": a narrow sheet is written as it is when it is widened,
    /// with the same number and the same image.
    fn compare_written_alike(
        &mut self,
        sheet: &[u8],
        layout: Layout,
        first_edition: bool,
        before: &[u8],
        (number, image): (u8, &[u8]),
    ) {
        let mut widened = vec![0; sheet.len() + 2];
        let made = library::widen(sheet, &mut widened);
        assert_eq!((made.number, made.length), (0, sheet.len() + 2));
        let mut again = before.to_vec();
        let wide = library::write(&widened, Form::Wide, layout, first_edition, &mut again);
        assert!(
            wide == number && again == image,
            "{number}, and {wide} for the wide form\nsheet {}",
            hex(sheet)
        );
        self.see(match number {
            0 => Seen::WrittenAlike,
            _ => Seen::RefusedAlike,
        });
    }

    /// Compares the making of a sheet in a buffer of so many bytes, of which a refusal must leave
    /// all as they are and acceptance those past the sheet; an accepted sheet is written again, over
    /// an image that has what stands behind the board's part.
    fn compare_make(
        &mut self,
        image: &[u8],
        form: Form,
        arguments: Arguments,
        length: usize,
    ) -> Made {
        let Arguments {
            layout,
            first_edition,
            ..
        } = arguments;
        let (made, buffer) = agreed(compare::make_sheet(image, form, arguments, length));
        assert_eq!(
            buffer[made.length..],
            Lent::pattern(length).elements()[made.length..],
            "{made:?}, and changed other bytes\nimage {}",
            hex(image)
        );
        self.makes[form as usize].count(image, layout.size, made.number);
        if let Some(editions) = self.editions_of(1, (form, layout)) {
            editions.count_made(image, arguments, made.number);
        }
        if made.number == 0 {
            let mut again = vec![0xA5; image.len()];
            let kept = layout.board_end()..;
            again[kept.clone()].copy_from_slice(&image[kept]);
            let number = library::write(
                &buffer[..made.length],
                form,
                layout,
                first_edition,
                &mut again,
            );
            assert!(
                number == 0 && again == image,
                "{number}\nimage {}\nagain {}",
                hex(image),
                hex(&again)
            );
            self.see(Seen::Made(form, layout));
            if LONGEST.contains(&(made.length, form, layout.size)) {
                self.see(Seen::LongestMade(made.length));
            }
        }
        if form.is_wide() && layout.size != LARGE {
            self.compare_made_alike(image, arguments, made, &buffer);
        }
        made
    }

    /// The wide sheet of an image of 128 bytes is its narrow one, widened into a buffer of the same length;
    /// where there is no narrow one, there is for the same reason no wide one.
    fn compare_made_alike(
        &mut self,
        image: &[u8],
        arguments: Arguments,
        made: Made,
        buffer: &[u8],
    ) {
        let Arguments {
            chip,
            layout,
            first_edition,
            ..
        } = arguments;
        let mut narrow = [0; LONGEST_SHEET];
        let mut again = Lent::pattern(buffer.len()).elements().to_vec();
        let mut expected = library::make_sheet(
            image,
            chip,
            Form::Narrow,
            layout,
            first_edition,
            &mut narrow,
        );
        if expected.number == 0 {
            expected = library::widen(&narrow[..expected.length], &mut again);
        }
        assert!(
            made == expected && again == buffer,
            "{made:?}, and {expected:?} by way of the narrow form\nimage {}",
            hex(image)
        );
        self.see(match made.number {
            0 => Seen::MadeAlike,
            _ => Seen::NotMadeAlike,
        });
    }

    /// Compares a sheet's writing to an image with a right Magic Packet block, where the layout has
    /// one, and now and then to one with any or of a size that is not served too.
    fn compare_sheet(
        &mut self,
        random: &mut Random,
        sheet: &[u8],
        form: Form,
        layout: Layout,
        first_edition: bool,
    ) {
        self.sheets += 1;
        let mut image = output(random, layout);
        self.compare_write(sheet, form, layout, first_edition, &image);
        if random.one_in(16) {
            MagicBlock::any(random).lay(&mut image);
            self.compare_write(sheet, form, layout, first_edition, &image);
            let (stated, image) = unserved(random, form, layout.magic);
            self.compare_write(sheet, form, stated, first_edition, &image);
        }
    }

    /// Compares the making of an image's sheet in a roomy buffer, and then in one that is exact and
    /// in those that are too short and too long by one.
    fn compare_image(
        &mut self,
        random: &mut Random,
        image: &[u8],
        form: Form,
        arguments: Arguments,
    ) {
        self.images += 1;
        let made = self.compare_make(image, form, arguments, ROOMY);
        if made.number == 0 {
            for length in [made.length - 1, made.length, made.length + 1] {
                self.compare_make(image, form, arguments, length);
            }
        }
        if random.one_in(4) {
            let length = random.below(ROOMY);
            self.compare_make(image, form, arguments, length);
        }
    }
}

/// "Writing a sheet": valid sheets of every chip, form and layout, and the image that the builder of
/// images lays; then "making a sheet of a tidy image", of that image.
fn valid_sheets() -> Tally {
    let (mut tally, mut random) = (Tally::default(), Random::new(1));
    for (form, layout, first_edition) in served_editions() {
        for _ in 0..5_000 {
            let sheet = Sheet::valid(&mut random, layout, first_edition);
            let magic = MagicBlock::of_layout(&mut random, layout);
            let (bytes, expected) = (sheet.bytes(form), sheet.card(layout.size, magic).image());
            tally.compare_sheet(&mut random, &bytes, form, layout, first_edition);
            let mut image = random.row(expected.len());
            if let Some(block) = magic {
                block.lay(&mut image);
            }
            assert_eq!(
                library::write(&bytes, form, layout, first_edition, &mut image),
                0,
                "{sheet:02x?}"
            );
            assert_eq!(image, expected, "{sheet:02x?}");
            let arguments = Arguments::newest(sheet.chip).laid_out(layout);
            let arguments = arguments.in_edition(first_edition);
            tally.compare_image(&mut random, &image, form, arguments);
        }
    }
    tally
}

/// The longest sheet of each form and size is written, and made in a buffer that is exact.
fn longest_sheets() -> Tally {
    let (mut tally, mut random) = (Tally::default(), Random::new(12));
    for (length, form, size) in LONGEST {
        let layout = Layout::new(size, false);
        for _ in 0..500 {
            let first_edition = random.one_in(2);
            let sheet = Sheet::longest(&mut random, layout, first_edition).bytes(form);
            assert_eq!(sheet.len(), length);
            tally.compare_sheet(&mut random, &sheet, form, layout, first_edition);
            let mut image = output(&mut random, layout);
            assert_eq!(
                library::write(&sheet, form, layout, first_edition, &mut image),
                0
            );
            let arguments = Arguments::newest(form.chip(&sheet)).laid_out(layout);
            let arguments = arguments.in_edition(first_edition);
            tally.compare_image(&mut random, &image, form, arguments);
        }
    }
    tally
}

/// Document 02, request 12: sheets of version 1 with the codes of both editions, with extended blocks and
/// for other chips, and their images, in every form, layout and edition.
fn first_versions() -> Tally {
    let (mut tally, mut random) = (Tally::default(), Random::new(13));
    for (form, layout, first_edition) in served_editions() {
        for round in 0..3_000 {
            let mut sheet = Sheet::first_version(&mut random, layout, first_edition);
            match round % 6 {
                0..3 => sheet.connection = random.pick(&CODES),
                3 => _ = sheet.damage(&mut random, 14, form, layout, first_edition),
                4 => sheet.chip = random.pick(&CHIPS),
                _ => {}
            }
            let magic = MagicBlock::of_layout(&mut random, layout);
            let (bytes, image) = (sheet.bytes(form), sheet.card(layout.size, magic).image());
            let newest = Arguments::newest(sheet.chip).laid_out(layout);
            for edition in EDITIONS {
                tally.compare_sheet(&mut random, &bytes, form, layout, edition);
                tally.compare_image(&mut random, &image, form, newest.in_edition(edition));
            }
        }
    }
    tally
}

/// "its cause met": each field of a sheet damaged, in every form and layout.
fn damaged_sheets() -> Tally {
    let (mut tally, mut random) = (Tally::default(), Random::new(2));
    for (form, layout, first_edition) in served_editions() {
        for number in sheet_damages(form) {
            for _ in 0..450 {
                let sheet = Sheet::damaged(&mut random, number, form, layout, first_edition);
                tally.compare_sheet(&mut random, &sheet, form, layout, first_edition);
            }
        }
    }
    tally
}

/// "its cause met and no earlier cause": two fields of a sheet damaged, the later cause first, and
/// then perhaps a sum.
fn two_damaged_fields() -> Tally {
    let (mut tally, mut random) = (Tally::default(), Random::new(3));
    for (form, layout, first_edition) in served_editions() {
        let damages = sheet_damages(form);
        for _ in 0..2_500 {
            let mut sheet = Sheet::valid(&mut random, layout, first_edition);
            let later = 2 + random.below(damages.len() - 2);
            let earlier = 1 + random.below(later - 1);
            for place in [later, earlier] {
                sheet.damage(&mut random, damages[place], form, layout, first_edition);
            }
            let mut bytes = sheet.bytes(form);
            if random.one_in(8) {
                bytes.push(0);
            }
            tally.compare_sheet(&mut random, &bytes, form, layout, first_edition);
        }
    }
    tally
}

/// "keeps bytes 96 to 127, judged with the rest": images whose Magic Packet block is damaged, for
/// sheets that are valid, and for damaged ones.
fn damaged_blocks() -> Tally {
    let (mut tally, mut random) = (Tally::default(), Random::new(10));
    for (form, layout, first_edition) in served_editions() {
        for round in 0..3_000 {
            let sheet = match round % 4 {
                0 => {
                    let number = random.pick(&sheet_damages(form));
                    Sheet::damaged(&mut random, number, form, layout, first_edition)
                }
                _ => Sheet::valid(&mut random, layout, first_edition).bytes(form),
            };
            let mut image = output(&mut random, layout);
            let number = random.pick(&MAGIC_DAMAGES);
            MagicBlock::damaged(&mut random, number).lay(&mut image);
            tally.sheets += 1;
            tally.compare_write(&sheet, form, layout, first_edition, &image);
        }
    }
    tally
}

/// Each byte of a valid sheet changed: those of the head to every value in the first sheets, all to a
/// few in the others.
fn changed_sheet_bytes() -> Tally {
    let (mut tally, mut random) = (Tally::default(), Random::new(4));
    for round in 0..13 {
        for (form, layout, first_edition) in served_editions() {
            let sheet = Sheet::valid(&mut random, layout, first_edition).bytes(form);
            for offset in 0..sheet.len() {
                let is_head = offset < 48;
                for value in values(&mut random, sheet[offset], round == 0 && is_head) {
                    let mut changed = sheet.clone();
                    changed[offset] = value;
                    tally.compare_sheet(&mut random, &changed, form, layout, first_edition);
                }
            }
        }
    }
    tally
}

/// All values, or a few near a byte's own.
fn values(random: &mut Random, byte: u8, all: bool) -> Vec<u8> {
    if all {
        return (0..=255).collect();
    }
    let flipped = byte ^ 1 << random.below(8);
    let (next, last) = (byte.wrapping_add(1), byte.wrapping_sub(1));
    vec![next, last, flipped, random.byte()]
}

/// "Every call comes to an end on every input": any kinds, sizes and bodies, with sums that are
/// mostly right, and sheets of the other form.
fn random_sheets() -> Tally {
    let (mut tally, mut random) = (Tally::default(), Random::new(5));
    for (form, layout, first_edition) in served_editions() {
        for round in 0..4_000 {
            let bytes = match round % 8 {
                0 => Sheet::valid(&mut random, layout, first_edition).bytes(form.other()),
                _ => Sheet::wild(&mut random, form),
            };
            tally.compare_sheet(&mut random, &bytes, form, layout, first_edition);
        }
    }
    tally
}

/// "24 sheet length or sum, then 1 for its output": every length of a sheet, with and without right
/// bytes after it, and every length of an image up to 600, with one that is 128 in its low bits, each
/// as either size.
fn lengths() -> Tally {
    let (mut tally, mut random) = (Tally::default(), Random::new(6));
    for (form, layout, first_edition) in served_editions() {
        for _ in 0..2 {
            let sheet = Sheet::valid(&mut random, layout, first_edition).bytes(form);
            let longer = [sheet.as_slice(), &random.row(300)].concat();
            for length in 0..longer.len() {
                tally.compare_sheet(&mut random, &longer[..length], form, layout, first_edition);
            }
            let far = usize::from(layout.size) + (1 << 16);
            let sample = tidy(&mut random, form);
            let mut image = sample.card.image();
            image.resize(far, 0);
            for length in (0..600).chain([far]) {
                for size in SIZES {
                    let image = &image[..length];
                    let layout = Layout { size, ..layout };
                    tally.compare_write(&sheet, form, layout, first_edition, image);
                    tally.compare_write(&longer, form, layout, first_edition, image);
                    let magic = sample.arguments.layout.magic;
                    let arguments = sample.arguments.laid_out(Layout::new(size, magic));
                    tally.compare_image(&mut random, image, form, arguments);
                }
            }
        }
    }
    tally
}

/// "serve both ROM sizes in the wide one; the old form gets 1 for any but 128 bytes": right sheets and
/// cards of sizes that are not served, and those that get 24 or 33 before.
fn unserved_sizes() -> Tally {
    let (mut tally, mut random) = (Tally::default(), Random::new(11));
    for round in 0..24_000 {
        let form = FORMS[round % 2];
        let layout = random.pick(form.layouts());
        let first_edition = random.one_in(2);
        let sheet = match random.below(3) {
            0 => Sheet::damaged(&mut random, 24, form, layout, first_edition),
            1 if form.is_wide() => Sheet::damaged(&mut random, 33, form, layout, first_edition),
            _ => Sheet::valid(&mut random, layout, first_edition).bytes(form),
        };
        tally.sheets += 1;
        let (stated, image) = unserved(&mut random, form, layout.magic);
        tally.compare_write(&sheet, form, stated, first_edition, &image);
        let size = random.pick(&WRONG_SIZES);
        let length = usize::from(size).min(ROOMY);
        let other = Layout { size, ..layout };
        tally.compare_write(&sheet, form, other, first_edition, &random.row(length));
        let layout = random.pick(&LAYOUTS);
        let Sample { card, arguments } = Sample::valid_in(&mut random, layout);
        tally.compare_image(&mut random, &card.image(), form, arguments);
        tally.compare_image(&mut random, &image, form, arguments.laid_out(stated));
    }
    tally
}

/// "reader's numbers (12 apart)": each field of a tidy image damaged, and "27 not tidy": a byte
/// after the leaf, the leaf elsewhere, more controllers.
fn damaged_images() -> Tally {
    let (mut tally, mut random) = (Tally::default(), Random::new(7));
    for form in FORMS {
        let rounds = 12_000 * form.layouts().len();
        for &number in TIDY_DAMAGES.iter().cycle().take(rounds) {
            let sample = damaged(&mut random, number, form);
            tally.compare_image(&mut random, &sample.card.image(), form, sample.arguments);
            let (image, arguments) = untidy(&mut random, form);
            tally.compare_image(&mut random, &image, form, arguments);
        }
    }
    tally
}

/// Each byte of a tidy image changed, before and after the CRCs are mended, and leaves of random
/// bytes.
fn changed_image_bytes() -> Tally {
    let (mut tally, mut random) = (Tally::default(), Random::new(8));
    for round in 0..60 {
        let form = FORMS[round % 2];
        let Sample { card, arguments } = tidy(&mut random, form);
        let image = card.image();
        for offset in 0..image.len() {
            for value in values(&mut random, image[offset], round < 4 && offset < 64) {
                let mut changed = image.clone();
                changed[offset] = value;
                tally.compare_image(&mut random, &changed, form, arguments);
                lay_crcs(&mut changed, arguments.layout);
                tally.compare_image(&mut random, &changed, form, arguments);
            }
        }
    }
    for round in 0..20_000 {
        let Sample { card, arguments } = Sample::wild(&mut random);
        let form = FORMS[round % 2];
        tally.compare_image(&mut random, &card.image(), form, arguments);
    }
    tally
}

/// "12 sheet buffer too short": buffers of every length up to some past the sheet's, among the
/// images those with the longest sheet of each form and layout.
fn buffer_lengths() -> Tally {
    let (mut tally, mut random) = (Tally::default(), Random::new(9));
    for (form, layout, first_edition) in served_editions() {
        let mut longest = 0;
        for round in 0..6 {
            let sheet = match round {
                0 => Sheet::longest(&mut random, layout, first_edition),
                _ => Sheet::valid(&mut random, layout, first_edition),
            };
            let magic = MagicBlock::of_layout(&mut random, layout);
            let image = sheet.card(layout.size, magic).image();
            let arguments = Arguments::newest(sheet.chip).laid_out(layout);
            let arguments = arguments.in_edition(first_edition);
            let made = tally.compare_make(&image, form, arguments, ROOMY);
            longest = longest.max(made.length);
            for length in 0..=made.length + 20 {
                let expected = if length < made.length { 12 } else { 0 };
                let number = tally.compare_make(&image, form, arguments, length).number;
                assert_eq!(number, expected, "{length} of {}", made.length);
            }
            tally.images += 1;
        }
        assert_eq!(longest, form.longest(layout));
    }
    tally
}

/// The rows of what the writer or the maker answered to version 1: acceptances in each form, layout and
/// edition, and the causes of refusals in each form.
fn editions_rows<const COUNT: usize>(
    call: &str,
    tallies: &[Tally; COUNT],
    index: usize,
    wrong: &mut Vec<String>,
) -> String {
    let (mut titles, mut counts) = (Vec::new(), [(); COUNT].map(|()| Vec::new()));
    for (place, (form, layout)) in served().enumerate() {
        let name = form_name(form);
        titles.extend(["1.01", "1.00"].map(|it| format!("{name} {}", titled(layout, it))));
        for (counts, tally) in counts.iter_mut().zip(tallies) {
            counts.extend(tally.editions[index][place].accepted());
        }
    }
    for form in FORMS {
        let all = Editions::titles();
        let causes = &all[all.len() - Editions::default().causes().len()..];
        titles.extend(causes.iter().map(|it| format!("{} {it}", form_name(form))));
        for (counts, tally) in counts.iter_mut().zip(tallies) {
            let mut of_form = Editions::default();
            let places = served().zip(&tally.editions[index]);
            let places = places.filter(|((it, _), _)| *it == form);
            places.for_each(|(_, editions)| of_form.add(editions));
            counts.extend(of_form.causes());
        }
    }
    let titles: Vec<_> = titles
        .iter()
        .map(|title| format!("{call} {title}"))
        .collect();
    seen_rows(&titles, counts.each_ref().map(Vec::as_slice), wrong)
}

/// "Writing a sheet and reading it returns that sheet; making a sheet of a tidy image and writing
/// it returns that image": both are run for each that is accepted. Four hundred thousand sheets and
/// images, in which each refusal is met a thousand times in each form, and at each size that it
/// serves; the table of them is shown.
#[test]
fn library_writes_and_makes_as_second() {
    let families: [Family<Tally>; 13] = [
        ("valid", valid_sheets),
        ("longest", longest_sheets),
        ("damaged", damaged_sheets),
        ("twice", two_damaged_fields),
        ("blocks", damaged_blocks),
        ("bytes", changed_sheet_bytes),
        ("random", random_sheets),
        ("lengths", lengths),
        ("unserved", unserved_sizes),
        ("images", damaged_images),
        ("ibytes", changed_image_bytes),
        ("buffers", buffer_lengths),
        ("version 1", first_versions),
    ];
    let tallies = tallies(families);
    let names = families.map(|(name, _)| name);
    let (mut table, mut wrong) = (String::new(), Vec::new());
    for form in FORMS {
        let is_served = [true, form.is_wide(), false];
        let (index, name) = (form as usize, form_name(form));
        let writes = tallies.each_ref().map(|tally| &tally.writes[index]);
        let can = is_served.map(|is_served| can_write(form, is_served));
        let can = can.each_ref().map(Vec::as_slice);
        table += &numbers_table(&format!("write {name}"), &names, writes, can, &mut wrong);
        let makes = tallies.each_ref().map(|tally| &tally.makes[index]);
        let can = is_served.map(can_make);
        let can = can.each_ref().map(Vec::as_slice);
        table += &numbers_table(&format!("make {name}"), &names, makes, can, &mut wrong);
    }
    let titles: Vec<_> = all_seen().into_iter().map(Seen::title).collect();
    let seen = tallies.each_ref().map(|tally| &tally.seen[..]);
    table += &seen_rows(&titles, seen, &mut wrong);
    for (call, name) in ["write", "make"].into_iter().enumerate() {
        table += &editions_rows(name, &tallies, call, &mut wrong);
    }
    let sheets = tallies.each_ref().map(|tally| tally.sheets);
    let images = tallies.each_ref().map(|tally| tally.images);
    table += &total_row("sheets", &sheets);
    table += &total_row("images", &images);
    show(&table);
    assert!(wrong.is_empty(), "{wrong:?}");
    let inputs: usize = sheets.iter().chain(&images).sum();
    assert!(inputs >= LEAST_INPUTS, "only {inputs} sheets and images");
}
