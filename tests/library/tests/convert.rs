//! The converters of the library against the second implementation, and their return.

use library::compare::{self, agreed};
use library::families::{Answered, Family, answered_table, seen_rows, show, tallies, total_row};
use library::lent::{Lent, hex};
use library::{Form, Made};
use second::random::Random;
use second::sheet::{FORMS, KINDS, served};
use second::sheets::Sheet;
use second::sheets::converted::convert_damages;

const LEAST_CALLS: usize = 500_000;

/// The numbers that a converter can answer, by the form that it reads: "give 24, 33 and 12 only", and
/// 33 "when narrowing" alone.
fn can_answer(form: Form) -> &'static [usize] {
    match form {
        Form::Narrow => &[0, 12, 24],
        Form::Wide => &[0, 12, 24, 33],
    }
}

/// What is counted of sheets with the right length and sum: one that cannot be narrowed for its blocks,
/// for its body bytes or for both, and the least and the most of either.
const SEEN: [&str; 9] = [
    "N over 255",
    "T over 255",
    "both over 255",
    "N 255",
    "N 256",
    "T 255",
    "T 256",
    "widened and narrowed",
    "narrowed and widened",
];

/// How often each converter answered each number, what was seen beside, and how many calls were
/// compared.
#[derive(Default)]
struct Tally {
    numbers: [Answered; FORMS.len()],
    seen: [usize; SEEN.len()],
    calls: usize,
}

impl Tally {
    /// Compares a conversion into a buffer of so many bytes, of which a refusal must leave all as they
    /// are and acceptance those past the sheet; a sheet that was converted comes back.
    fn compare(&mut self, sheet: &[u8], form: Form, length: usize) -> Made {
        let (made, buffer) = agreed(compare::convert(sheet, form, length));
        assert_eq!(
            buffer[made.length..],
            Lent::pattern(length).elements()[made.length..],
            "{made:?}, and changed other bytes\nsheet {}",
            hex(sheet)
        );
        self.numbers[form as usize].count(made.number);
        self.calls += 1;
        if made.number != 24 {
            self.see_sizes(form.sizes(sheet), made.number);
        }
        if made.number == 0 {
            let mut again = vec![0; sheet.len()];
            let returned = library::convert(&buffer[..made.length], form.other(), &mut again);
            assert!(
                returned.number == 0 && returned.length == sheet.len() && again == sheet,
                "{returned:?}\nsheet {}\nagain {}",
                hex(sheet),
                hex(&again)
            );
            self.seen[7 + form as usize] += 1;
        }
        made
    }

    fn see_sizes(&mut self, (count, total): (usize, usize), number: u8) {
        let is_refused = number == 33;
        let seen = [
            is_refused && count > 255 && total <= 255,
            is_refused && count <= 255 && total > 255,
            is_refused && count > 255 && total > 255,
            !is_refused && count == 255,
            is_refused && count == 256,
            !is_refused && total == 255,
            is_refused && total == 256,
        ];
        self.seen
            .iter_mut()
            .zip(seen)
            .for_each(|(often, is_seen)| *often += usize::from(is_seen));
    }

    /// Compares conversions into a buffer that is roomy, and where the sheet is converted into those
    /// that are exact and too short and too long by one, and any that is too short.
    fn compare_all(&mut self, random: &mut Random, sheet: &[u8], form: Form) {
        let made = self.compare(sheet, form, sheet.len() + 40);
        if made.number == 0 {
            let short = random.below(made.length);
            for length in [made.length - 1, made.length, made.length + 1, short] {
                self.compare(sheet, form, length);
            }
        } else if random.one_in(4) {
            let length = random.below(sheet.len() + 40);
            self.compare(sheet, form, length);
        }
    }
}

/// "Old to wide and back returns the same bytes, and a wide sheet that converts back loses nothing":
/// sheets that each form can say.
fn convertible() -> Tally {
    let (mut tally, mut random) = (Tally::default(), Random::new(1));
    for _ in 0..20_000 {
        let sheet = Sheet::convertible(&mut random);
        for form in FORMS {
            tally.compare_all(&mut random, &sheet.bytes(form), form);
        }
    }
    tally
}

/// "24, 33 and 12 only": sheets with the wrong length or sum, of the other form, and too large ones.
fn unconvertible() -> Tally {
    let (mut tally, mut random) = (Tally::default(), Random::new(2));
    for form in FORMS {
        for &number in convert_damages(form) {
            for _ in 0..12_000 {
                let sheet = Sheet::unconvertible(&mut random, number, form);
                tally.compare_all(&mut random, &sheet, form);
            }
        }
    }
    tally
}

/// Sheets that the writer accepts, of which many of 512 bytes cannot be narrowed, in the form and taken
/// for the other.
fn written() -> Tally {
    let (mut tally, mut random) = (Tally::default(), Random::new(3));
    for (form, layout) in served() {
        for _ in 0..5_000 {
            let first_edition = random.one_in(2);
            let sheet = Sheet::valid(&mut random, layout, first_edition).bytes(form);
            for form in FORMS {
                tally.compare_all(&mut random, &sheet, form);
            }
        }
    }
    tally
}

/// Each byte of a sheet's sizes changed to every value, and any other byte.
fn changed_bytes() -> Tally {
    let (mut tally, mut random) = (Tally::default(), Random::new(4));
    for round in 0..120 {
        let form = FORMS[round % 2];
        let sheet = Sheet::convertible(&mut random);
        let (bytes, blocks) = (sheet.bytes(form), sheet.blocks.len());
        let sizes = form.place(KINDS) + 2 * blocks;
        let some = (0..20).map(|_| random.below(bytes.len()));
        let some: Vec<_> = some.collect();
        for offset in (0..2 * form.width()).chain(sizes..(sizes + blocks).min(sizes + 8)) {
            for value in 0..=255 {
                let mut changed = bytes.clone();
                changed[offset] = value;
                tally.compare(&changed, form, bytes.len() + 2);
            }
        }
        for offset in some {
            let mut changed = bytes.clone();
            changed[offset] = random.byte();
            tally.compare_all(&mut random, &changed, form);
        }
    }
    tally
}

/// Every length of a sheet, with right bytes after it and any, and every length of a buffer; all
/// lengths of zeros and of any bytes up to 40.
fn lengths() -> Tally {
    let (mut tally, mut random) = (Tally::default(), Random::new(5));
    for form in FORMS {
        for _ in 0..30 {
            let sheet = Sheet::convertible(&mut random).bytes(form);
            let longer = [sheet.as_slice(), &random.row(60)].concat();
            for length in 0..longer.len() {
                tally.compare(&longer[..length], form, longer.len());
            }
            for length in 0..longer.len() {
                tally.compare(&sheet, form, length);
            }
        }
        for round in 0..41 * 40 {
            let bytes = match round % 4 {
                0 => vec![0; round % 41],
                _ => random.row(round % 41),
            };
            tally.compare_all(&mut random, &bytes, form);
        }
    }
    tally
}

/// "The converters answer the sheet's length, alter nothing past it, and give 24, 33 and 12 only, in
/// that order": each number is met a thousand times, and 33 never when a sheet is widened. The table of
/// them is shown.
#[test]
fn library_converts_as_second() {
    let families: [Family<Tally>; 5] = [
        ("right", convertible),
        ("refused", unconvertible),
        ("written", written),
        ("bytes", changed_bytes),
        ("lengths", lengths),
    ];
    let tallies = tallies(families);
    let names = families.map(|(name, _)| name);
    let mut wrong = Vec::new();
    let mut table = String::new();
    for (form, call) in FORMS.into_iter().zip(["widen", "narrow"]) {
        let answered = tallies.each_ref().map(|it| &it.numbers[form as usize]);
        table += &answered_table(call, &names, answered, can_answer(form), &mut wrong);
    }
    let seen = tallies.each_ref().map(|tally| &tally.seen[..]);
    table += &seen_rows(&SEEN, seen, &mut wrong);
    let calls = tallies.each_ref().map(|tally| tally.calls);
    table += &total_row("calls", &calls);
    show(&table);
    assert!(wrong.is_empty(), "{wrong:?}");
    let calls: usize = calls.iter().sum();
    assert!(calls >= LEAST_CALLS, "only {calls} calls were compared");
}

/// "In the wide sheet N and T are words": as many blocks and body bytes as words can say cannot be
/// narrowed, and are no narrow sheet.
#[test]
fn most_of_everything() {
    let mut random = Random::new(6);
    let mut tally = Tally::default();
    for (count, total) in [(65_535, 0), (65_535, 65_535), (257, 65_535), (255, 65_025)] {
        let sheet = Sheet::of_sizes(&mut random, count, total).bytes(Form::Wide);
        for length in [0, sheet.len(), sheet.len() + 40] {
            assert_eq!(tally.compare(&sheet, Form::Wide, length).number, 33);
            assert_eq!(tally.compare(&sheet, Form::Narrow, length).number, 24);
        }
    }
}
