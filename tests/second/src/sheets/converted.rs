//! Sheets to convert. A converter judges N, T and the sizes alone, so that these have any kinds and
//! bodies.

use super::Sheet;
use super::damage::LARGEST_BODY;
use crate::images::damage::between;
use crate::layout::LAYOUTS;
use crate::random::Random;
use crate::sheet::{COUNT, Form};

/// The refusals that a sheet can meet when it is read in a form and converted, in the converters'
/// order: all but the one for the buffer's length.
pub fn convert_damages(form: Form) -> &'static [u8] {
    match form {
        Form::Narrow => &[24],
        Form::Wide => &[24, 33],
    }
}

/// More blocks, or body bytes, than the narrow form can say: often one more, once in a while as many
/// as the wide form can.
pub(super) fn over_a_byte(random: &mut Random) -> usize {
    let least = Form::Narrow.most() + 1;
    let any = between(random, least, 4 * least);
    let most = match random.one_in(64) {
        true => Form::Wide.most(),
        false => any,
    };
    random.pick(&[least, least, least + 1, any, 2 * least, most])
}

/// No more than that: often the most.
fn within_a_byte(random: &mut Random) -> usize {
    let most = Form::Narrow.most();
    let (few, any) = (random.below(8), random.below(most + 1));
    random.pick(&[few, few, any, most, most - 1])
}

impl Sheet {
    /// A sheet with so many blocks and body bytes, no more than the blocks can hold, and any bytes
    /// elsewhere.
    pub fn of_sizes(random: &mut Random, count: usize, total: usize) -> Self {
        let mut left = total;
        let body = |number: usize| {
            let behind = count - 1 - number;
            let least = left.saturating_sub(LARGEST_BODY * behind);
            let about = random.below(2 * left / (behind + 1) + 1);
            let size = about.clamp(least, LARGEST_BODY.min(left));
            left -= size;
            (random.word(), random.row(size))
        };
        let blocks = (0..count).map(body).collect();
        assert_eq!(left, 0, "{count} blocks do not hold {total} bytes");
        let layout = random.pick(&LAYOUTS);
        Self {
            blocks,
            version: random.byte(),
            chip: random.word(),
            connection: random.word(),
            control: random.byte(),
            ..Self::valid(random, layout, false)
        }
    }

    /// A sheet that each form can say.
    pub fn convertible(random: &mut Random) -> Self {
        let count = within_a_byte(random);
        let total = within_a_byte(random).min(LARGEST_BODY * count);
        Self::of_sizes(random, count, total)
    }

    /// A sheet that the narrow form cannot say, for its blocks, its body bytes or both.
    pub fn too_large(random: &mut Random) -> Self {
        let (count, total) = match random.below(4) {
            0 => (over_a_byte(random), within_a_byte(random)),
            1 => {
                let count = over_a_byte(random);
                (count, over_a_byte(random).min(LARGEST_BODY * count))
            }
            _ => {
                let total = over_a_byte(random);
                let least = total.div_ceil(LARGEST_BODY);
                let any = between(random, least, Form::Narrow.most().max(least));
                (random.pick(&[least, any]), total)
            }
        };
        Self::of_sizes(random, count, total)
    }

    /// The bytes of a sheet that is refused with this number, one of [`convert_damages`], when it is
    /// read in the form and converted. Cause 24 is often a sheet of the other form, or few bytes.
    pub fn unconvertible(random: &mut Random, number: u8, form: Form) -> Vec<u8> {
        if number == 33 {
            return Self::too_large(random).bytes(form);
        }
        let sheet = match (form, random.below(3)) {
            (Form::Wide, 0) => Self::too_large(random),
            _ => Self::convertible(random),
        };
        match random.below(4) {
            0 => sheet.bytes(form.other()),
            1 => few_bytes(random, form),
            _ => sheet.missummed(random, form),
        }
    }
}

/// Up to 40 bytes that are no sheet of the form: zeros, as a sheet without blocks may have, or any.
fn few_bytes(random: &mut Random, form: Form) -> Vec<u8> {
    let length = random.below(41);
    let mut bytes = match random.one_in(2) {
        true => vec![0; length],
        false => random.row(length),
    };
    if length == form.length(0, 0) && form.sizes(&bytes) == (0, 0) {
        bytes[COUNT] = 1;
    }
    bytes
}

#[cfg(test)]
mod tests {
    use super::*;
    use crate::sheet::{FORMS, LONGEST_WIDE_SHEET, Made, convert};

    /// What a converter answers into a roomy buffer, and how far it changes it.
    fn converted(sheet: &[u8], form: Form) -> (Made, Vec<u8>) {
        let mut buffer = vec![0xA5; sheet.len() + 9];
        let made = convert(sheet, form, &mut buffer);
        (made, buffer)
    }

    /// "give 24, 33 and 12 only, in that order": each sheet is refused with its number and leaves the
    /// buffer, and those that both forms can say are converted.
    #[test]
    fn numbers() {
        let mut random = Random::new(1);
        for form in FORMS {
            for &number in convert_damages(form) {
                for _ in 0..2_000 {
                    let sheet = Sheet::unconvertible(&mut random, number, form);
                    let (made, buffer) = converted(&sheet, form);
                    let refused = Made { number, length: 0 };
                    assert_eq!(made, refused, "{form:?} {sheet:02x?}");
                    assert!(buffer.iter().all(|&byte| byte == 0xA5), "{sheet:02x?}");
                }
            }
            for _ in 0..2_000 {
                let sheet = Sheet::convertible(&mut random);
                let (made, buffer) = converted(&sheet.bytes(form), form);
                assert_eq!(made.number, 0, "{sheet:02x?}");
                assert_eq!(buffer[..made.length], sheet.bytes(form.other()));
                assert!(buffer[made.length..].iter().all(|&byte| byte == 0xA5));
            }
        }
    }

    /// "N over 255 in a wide sheet, or T over 255 when narrowing": sheets with either and both, at the
    /// first number that is too large and at the last that is not, and with the most that a word says.
    #[test]
    fn sizes() {
        let mut random = Random::new(2);
        let mut met = [0; 9];
        for _ in 0..8_000 {
            let too_large = Sheet::too_large(&mut random);
            let convertible = Sheet::convertible(&mut random);
            let of = |sheet: &Sheet| (sheet.blocks.len(), sheet.body_bytes());
            let ((count, total), (fewer, less)) = (of(&too_large), of(&convertible));
            assert!(count <= 0xFFFF && total <= 0xFFFF && (count > 255 || total > 255));
            assert!(fewer <= 255 && less <= 255);
            let has = [
                count > 255 && total <= 255,
                count <= 255 && total > 255,
                count > 255 && total > 255,
                count == 256,
                total == 256,
                count == 0xFFFF,
                total == 0xFFFF,
                fewer == 255,
                less == 255,
            ];
            met.iter_mut()
                .zip(has)
                .for_each(|(met, has)| *met += usize::from(has));
        }
        assert!(met.iter().all(|&often| often > 5), "{met:?}");
        assert!(met[..5].iter().all(|&often| often > 500), "{met:?}");
    }

    /// "In the wide sheet ... all that follows stands two bytes later": sheets taken for the other form
    /// are among those refused with 24, and so are those with a byte too few or too many, and all
    /// lengths up to 40.
    #[test]
    fn lengths() {
        let mut random = Random::new(3);
        for form in FORMS {
            let (mut other, mut one_off, mut short) = (0, 0, [0; 41]);
            for _ in 0..12_000 {
                let sheet = Sheet::unconvertible(&mut random, 24, form);
                let mut buffer = [0; LONGEST_WIDE_SHEET];
                other += usize::from(convert(&sheet, form.other(), &mut buffer).number == 0);
                if sheet.len() >= 4 {
                    let (count, total) = form.sizes(&sheet);
                    let right = form.length(count, total);
                    one_off += usize::from(right.abs_diff(sheet.len()) == 1);
                }
                if let Some(often) = short.get_mut(sheet.len()) {
                    *often += 1;
                }
            }
            assert!(other > 500 && one_off > 500, "{form:?}: {other} {one_off}");
            assert!(short.iter().all(|&often| often > 10), "{form:?}: {short:?}");
        }
    }
}
