//! Each call of the library against the second implementation, on the same inputs. What is lent
//! stands between guards.

use crate::lent::{Lent, hex};
use crate::{
    Answer, Arguments, Checksum, Form, Layout, Made, Magic, MagicAnswer, Part, Walk, Walked,
};
use second::calls::{Call, Step};
use second::walk::Autosense;
use second::{crc, magic, reader, sheet};
use std::fmt::{self, Debug, Display, Formatter};

/// A call with two answers that differ.
#[derive(Debug, Clone, PartialEq, Eq)]
pub struct Difference {
    /// The call and its arguments, bytes in hex.
    pub call: String,
    /// Whose answer, and the answer.
    pub answers: Vec<(&'static str, String)>,
    /// What is wrong with what was lent.
    pub faults: Vec<String>,
}

impl Display for Difference {
    fn fmt(&self, formatter: &mut Formatter) -> fmt::Result {
        writeln!(formatter, "{}", self.call)?;
        for (whose, answer) in &self.answers {
            writeln!(formatter, "{whose:<7} {answer}")?;
        }
        let mut faults = self.faults.iter();
        faults.try_for_each(|fault| writeln!(formatter, "library leaves {fault}"))
    }
}

/// What both answered, for a test that fails at a difference.
#[track_caller]
pub fn agreed<A>(compared: Result<A, Difference>) -> A {
    compared.unwrap_or_else(|difference| panic!("the two differ\n{difference}"))
}

/// The number that both answered.
pub fn srom_crc(image: &[u8], layout: Layout) -> Result<u8, Difference> {
    checksum(
        || format!("srom_crc {layout:?}"),
        |image| crate::srom_crc(image, layout),
        |image| crc::srom_crc(image, layout),
        image,
    )
}

/// The number that both answered.
pub fn id_crc(image: &[u8], size: u16) -> Result<u8, Difference> {
    checksum(
        || format!("srom_id_crc, size {size}"),
        |image| crate::id_crc(image, size),
        |image| crc::id_crc(image, size),
        image,
    )
}

/// The number that both answered.
pub fn magic_crc(image: &[u8], size: u16) -> Result<u8, Difference> {
    checksum(
        || format!("srom_magic_crc, size {size}"),
        |image| crate::magic_crc(image, size),
        |image| crc::magic_crc(image, size),
        image,
    )
}

/// The number that the library's CRC call and the second implementation's rule answered.
fn checksum(
    call: impl FnOnce() -> String,
    library: impl Fn(&[u8]) -> Checksum,
    second: impl Fn(&[u8]) -> Checksum,
    image: &[u8],
) -> Result<u8, Difference> {
    let lent = Lent::new(image);
    let answer = judge(
        || format!("{}\nimage   {}", call(), hex(image)),
        [library(lent.elements()), second(image)],
        [lent.fault("image", image)],
    );
    Ok(answer?.number)
}

/// What both read of a Magic Packet block.
pub fn read_magic(image: &[u8], size: u16) -> Result<MagicAnswer, Difference> {
    let lent = Lent::new(image);
    judge(
        || format!("srom_read_magic, size {size}\nimage   {}", hex(image)),
        [
            crate::read_magic(lent.elements(), size),
            magic::read_magic(image, size),
        ],
        [lent.fault("image", image)],
    )
}

/// The number that both answered, and the image after the writing of a Magic Packet block to it.
pub fn write_magic(magic: Magic, before: &[u8], size: u16) -> Result<(u8, Vec<u8>), Difference> {
    let (mut lent, mut image) = (Lent::new(before), before.to_vec());
    let number = judge(
        || {
            let before = hex(before);
            format!("srom_write_magic {magic:02x?}, size {size}\nimage   {before}")
        },
        [
            crate::write_magic(magic, lent.elements_mut(), size),
            magic::write_magic(magic, &mut image, size),
        ],
        [lent.fault("image", &image)],
    )?;
    Ok((number, image))
}

/// What a reading answered, and its arrays after it.
pub struct Reading {
    pub answer: Answer,
    pub kinds: Vec<u16>,
    pub offsets: Vec<u16>,
}

impl Reading {
    /// Kind and offset of each entry of the table.
    pub fn table(&self) -> Vec<(u16, u16)> {
        let entries = self.kinds.iter().copied().zip(self.offsets.iter().copied());
        entries.take(self.answer.listed.into()).collect()
    }
}

/// A reading into arrays of so many elements.
pub fn read(
    image: &[u8],
    arguments: Arguments,
    (kinds_length, offsets_length): (usize, usize),
) -> Result<Reading, Difference> {
    let lent = Lent::new(image);
    let (mut lent_kinds, mut lent_offsets) =
        (Lent::pattern(kinds_length), Lent::pattern(offsets_length));
    let mut kinds = lent_kinds.elements().to_vec();
    let mut offsets = lent_offsets.elements().to_vec();
    let answers = [
        crate::read(
            lent.elements(),
            arguments,
            lent_kinds.elements_mut(),
            lent_offsets.elements_mut(),
        ),
        reader::read(image, arguments, &mut kinds, &mut offsets),
    ];
    let answer = judge(
        || {
            let image = hex(image);
            format!(
                "srom_read {arguments:?} into {kinds_length} kinds and {offsets_length} offsets\n\
                 image   {image}"
            )
        },
        answers,
        [
            lent.fault("image", image),
            lent_kinds.fault("kinds", &kinds),
            lent_offsets.fault("offsets", &offsets),
        ],
    )?;
    Ok(Reading {
        answer,
        kinds,
        offsets,
    })
}

/// A view, by its place in the image too: the second implementation hands back an empty part at the
/// image's start.
pub fn view(image: &[u8], arguments: Arguments, entry: usize) -> Result<Part, Difference> {
    let lent = Lent::new(image);
    let part = reader::view(image, arguments, entry);
    let second = Part {
        start: part.as_ptr().addr() - image.as_ptr().addr(),
        length: part.len(),
    };
    judge(
        || {
            let image = hex(image);
            format!("srom_view {arguments:?} of entry {entry}\nimage   {image}")
        },
        [crate::view_part(lent.elements(), arguments, entry), second],
        [lent.fault("image", image)],
    )
}

/// The number that both answered, and the image after the writing of a sheet of a form to it.
pub fn write(
    sheet: &[u8],
    form: Form,
    layout: Layout,
    first_edition: bool,
    before: &[u8],
) -> Result<(u8, Vec<u8>), Difference> {
    let (lent, mut lent_image) = (Lent::new(sheet), Lent::new(before));
    let mut image = before.to_vec();
    let number = judge(
        || {
            let (sheet, before) = (hex(sheet), hex(before));
            format!(
                "srom_write {form:?}, {layout:?}, first edition {first_edition}\n\
                 sheet   {sheet}\nto      {before}"
            )
        },
        [
            crate::write(
                lent.elements(),
                form,
                layout,
                first_edition,
                lent_image.elements_mut(),
            ),
            sheet::write(sheet, form, layout, first_edition, &mut image),
        ],
        [
            lent.fault("sheet", sheet),
            lent_image.fault("image", &image),
        ],
    )?;
    Ok((number, image))
}

/// What both answered, and the buffer of so many bytes after the making of a sheet in it, of an image for
/// the chip, in the layout and the edition of these arguments.
pub fn make_sheet(
    image: &[u8],
    form: Form,
    arguments: Arguments,
    length: usize,
) -> Result<(Made, Vec<u8>), Difference> {
    let Arguments {
        chip,
        layout,
        first_edition,
        ..
    } = arguments;
    lay_sheet(
        || {
            format!(
                "srom_make_sheet for the {chip}, {form:?}, {layout:?}, first edition {first_edition}"
            )
        },
        |image, buffer| crate::make_sheet(image, chip, form, layout, first_edition, buffer),
        |image, buffer| sheet::make(image, chip, form, layout, first_edition, buffer),
        ("image", image),
        length,
    )
}

/// The same after the conversion of a sheet that is read in a form.
pub fn convert(sheet: &[u8], form: Form, length: usize) -> Result<(Made, Vec<u8>), Difference> {
    let name = match form {
        Form::Narrow => "srom_widen",
        Form::Wide => "srom_narrow",
    };
    lay_sheet(
        || name.into(),
        |sheet, buffer| crate::convert(sheet, form, buffer),
        |sheet, buffer| sheet::convert(sheet, form, buffer),
        ("sheet", sheet),
        length,
    )
}

/// What both answered, and the buffer of so many bytes after a call that lays a sheet into it, of
/// bytes with a name.
fn lay_sheet(
    call: impl FnOnce() -> String,
    library: impl FnOnce(&[u8], &mut [u8]) -> Made,
    second: impl FnOnce(&[u8], &mut [u8]) -> Made,
    (name, bytes): (&str, &[u8]),
    length: usize,
) -> Result<(Made, Vec<u8>), Difference> {
    let (lent, mut lent_buffer) = (Lent::new(bytes), Lent::pattern(length));
    let mut buffer = lent_buffer.elements().to_vec();
    let made = judge(
        || format!("{} in {length} bytes\n{name:<7} {}", call(), hex(bytes)),
        [
            library(lent.elements(), lent_buffer.elements_mut()),
            second(bytes, &mut buffer),
        ],
        [
            lent.fault(name, bytes),
            lent_buffer.fault("buffer", &buffer),
        ],
    )?;
    Ok((made, buffer))
}

/// One walk by the library and by the second implementation, compared after every call.
pub struct Pair {
    pub library: Walk,
    pub second: Autosense,
}

impl Pair {
    pub fn fresh() -> Result<Self, Difference> {
        let second = Autosense::default();
        let walks = [crate::fresh(), second.walk()];
        let library = judge_as(|| "srom_fresh".into(), walks, [], walk_text)?;
        Ok(Self { library, second })
    }

    pub fn load(&mut self, image: &[u8], arguments: Arguments) -> Result<u8, Difference> {
        let lent = Lent::new(image);
        let walked = crate::load(self.library, lent.elements(), arguments);
        let number = self.second.load(image, arguments);
        let call = || format!("srom_load {arguments:?}\nimage   {}", hex(image));
        self.walked(call, walked, number, lent.fault("image", image))
    }

    pub fn look(&mut self, report: &[u8]) -> Result<u8, Difference> {
        let lent = Lent::new(report);
        let walked = crate::look(self.library, lent.elements());
        let number = self.second.look(report);
        let call = || format!("srom_look\nreport  {}", hex(report));
        self.walked(call, walked, number, lent.fault("report", report))
    }

    pub fn clear(&mut self) -> Result<u8, Difference> {
        let walked = crate::clear(self.library);
        let number = self.second.clear();
        self.walked(|| "srom_clear".into(), walked, number, None)
    }

    /// A call of a list, whose loads take this image and these arguments.
    pub fn call(
        &mut self,
        call: &Call,
        image: &[u8],
        arguments: Arguments,
    ) -> Result<u8, Difference> {
        match call {
            Call::Load => self.load(image, arguments),
            Call::Look(report) => self.look(report),
            Call::Clear => self.clear(),
        }
    }

    pub fn step(&mut self, step: &Step) -> Result<u8, Difference> {
        match step {
            Step::Load(image, arguments) => self.load(image, *arguments),
            Step::Look(report) => self.look(report),
            Step::Clear => self.clear(),
        }
    }

    /// Takes over the walk after a call, and answers the call's number.
    fn walked(
        &mut self,
        call: impl FnOnce() -> String,
        walked: Walked,
        number: u8,
        fault: Option<String>,
    ) -> Result<u8, Difference> {
        let before = self.library;
        let second = Walked {
            number,
            walk: self.second.walk(),
        };
        let call = || format!("{}\nbefore  {}", call(), walk_text(&before));
        let is_changed = number > 0 && walked.walk != before;
        let refused = is_changed.then(|| "a walk that the refused call changed".into());
        let walked = judge_as(call, [walked, second], [fault, refused], walked_text)?;
        self.library = walked.walk;
        Ok(number)
    }
}

/// A call's number and the walk after it.
pub(crate) fn walked_text(walked: &Walked) -> String {
    format!("{} {}", walked.number, walk_text(&walked.walk))
}

/// The walk's fields, its rows in hex as far as their last byte that is not 0.
pub(crate) fn walk_text(walk: &Walk) -> String {
    let row = |row: &[u8]| {
        let length = row
            .iter()
            .rposition(|&flag| flag != 0)
            .map_or(0, |it| it + 1);
        hex(&row[..length])
    };
    format!(
        "loaded {}, connection {:#06x}, blocks {}, listed [{}], active_invalid [{}], fixed [{}], \
         default {}, settled {}, selected {}, looks {}, switches {}",
        walk.loaded,
        walk.connection,
        walk.blocks,
        row(&walk.rows.listed),
        row(&walk.rows.active_invalid),
        row(&walk.rows.fixed),
        walk.default_number,
        walk.settled,
        walk.selected,
        walk.looks,
        walk.switches,
    )
}

/// The answer of the library, where it is the second implementation's and nothing that was lent
/// has a fault.
fn judge<A: PartialEq + Debug, const LENT: usize>(
    call: impl FnOnce() -> String,
    answers: [A; 2],
    faults: [Option<String>; LENT],
) -> Result<A, Difference> {
    judge_as(call, answers, faults, |answer| format!("{answer:?}"))
}

fn judge_as<A: PartialEq, const LENT: usize>(
    call: impl FnOnce() -> String,
    [library, second]: [A; 2],
    faults: [Option<String>; LENT],
    text: impl Fn(&A) -> String,
) -> Result<A, Difference> {
    if library == second && faults.iter().all(Option::is_none) {
        return Ok(library);
    }
    Err(Difference {
        call: call(),
        answers: vec![("library", text(&library)), ("second", text(&second))],
        faults: faults.into_iter().flatten().collect(),
    })
}

#[cfg(test)]
mod tests {
    use super::*;

    fn difference(answers: [u8; 2], faults: [Option<String>; 2]) -> Option<Difference> {
        judge(|| "srom_call".into(), answers, faults).err()
    }

    /// Two answers that differ are a difference, and so is a fault of what was lent.
    #[test]
    fn differences() {
        assert_eq!(difference([3, 3], [None, None]), None);
        let answers = |library: &str| vec![("library", library.to_owned()), ("second", "3".into())];
        let expected = Difference {
            call: "srom_call".into(),
            answers: answers("4"),
            faults: Vec::new(),
        };
        assert_eq!(difference([4, 3], [None, None]), Some(expected));
        let expected = Difference {
            call: "srom_call".into(),
            answers: answers("3"),
            faults: vec!["kinds 01, not 02".into()],
        };
        let fault = Some("kinds 01, not 02".into());
        assert_eq!(difference([3, 3], [None, fault]), Some(expected));
    }

    /// "The walk's state unchanged on a refusal": a refused call that hands back another walk is a
    /// difference, even where the second implementation's walk has it too.
    #[test]
    fn changed_by_a_refusal() {
        let refused = |library, changed| {
            let mut pair = Pair {
                library,
                second: Autosense::default(),
            };
            let walked = Walked {
                number: 20,
                walk: changed,
            };
            pair.walked(|| "srom_look".into(), walked, 20, None)
        };
        let other = Walk {
            looks: 1,
            ..Walk::FRESH
        };
        assert_eq!(refused(Walk::FRESH, Walk::FRESH), Ok(20));
        let difference = refused(other, Walk::FRESH).expect_err("the walk is changed");
        assert_eq!(difference.faults, ["a walk that the refused call changed"]);
        assert!(refused(Walk::FRESH, other).is_err());
    }
}
