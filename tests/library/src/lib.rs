//! The calls of `libsrom.a` as safe functions over slices, and their comparison with the second
//! implementation.

pub mod compare;
pub mod editions;
pub mod families;
pub mod lent;
pub mod levels;
pub mod twins;

pub use second::crc::Checksum;
pub use second::layout::Layout;
pub use second::magic::{Magic, MagicAnswer};
pub use second::reader::{Answer, Arguments};
pub use second::sheet::{Form, Made};
pub use second::walk::{Walk, Walked};

/// Where a part of the image starts, and how many bytes it has: 0 and 0 for none.
#[repr(C)]
#[derive(Debug, Clone, Copy, PartialEq, Eq)]
pub struct Part {
    pub start: usize,
    pub length: usize,
}

mod archive {
    use super::{
        Answer, Arguments, Checksum, Layout, Made, Magic, MagicAnswer, Part, Walk, Walked,
    };

    unsafe extern "C" {
        pub fn srom_crc(image: *const u8, length: usize, layout: Layout) -> Checksum;
        pub fn srom_id_crc(image: *const u8, length: usize, size: u16) -> Checksum;
        pub fn srom_magic_crc(image: *const u8, length: usize, size: u16) -> Checksum;
        pub fn srom_read(
            image: *const u8,
            image_length: usize,
            arguments: Arguments,
            kinds: *mut u16,
            kinds_length: usize,
            offsets: *mut u16,
            offsets_length: usize,
        ) -> Answer;
        pub fn srom_view(
            image: *const u8,
            image_length: usize,
            arguments: Arguments,
            entry: usize,
        ) -> Part;
        pub fn srom_read_magic(image: *const u8, length: usize, size: u16) -> MagicAnswer;
        pub fn srom_write_magic(magic: Magic, image: *mut u8, length: usize, size: u16) -> u8;
        pub safe fn srom_fresh() -> Walk;
        pub fn srom_load(
            walk: Walk,
            image: *const u8,
            image_length: usize,
            arguments: Arguments,
        ) -> Walked;
        pub fn srom_look(walk: Walk, report: *const u8, report_length: usize) -> Walked;
        pub safe fn srom_clear(walk: Walk) -> Walked;
        pub fn srom_write(
            sheet: *const u8,
            sheet_length: usize,
            wide: bool,
            layout: Layout,
            first_edition: bool,
            image: *mut u8,
            image_length: usize,
        ) -> u8;
        pub fn srom_make_sheet(
            image: *const u8,
            image_length: usize,
            chip: u16,
            wide: bool,
            layout: Layout,
            first_edition: bool,
            buffer: *mut u8,
            buffer_length: usize,
        ) -> Made;
        pub fn srom_widen(
            sheet: *const u8,
            sheet_length: usize,
            buffer: *mut u8,
            buffer_length: usize,
        ) -> Made;
        pub fn srom_narrow(
            sheet: *const u8,
            sheet_length: usize,
            buffer: *mut u8,
            buffer_length: usize,
        ) -> Made;
    }
}

/// The SROM CRC, to be stored in the board's last word, of the bytes before it; refusal 1 for an image
/// that has not the layout's size, or for a size that no ROM has.
pub fn srom_crc(image: &[u8], layout: Layout) -> Checksum {
    // SAFETY: the call only reads the `length` bytes at `image`, which the slice lends it.
    unsafe { archive::srom_crc(image.as_ptr(), image.len(), layout) }
}

/// The ID CRC of words 0 to 7 and byte 17, to be stored in byte 16; refusal 1 for an image that
/// has not the stated size, or for a size that no ROM has.
pub fn id_crc(image: &[u8], size: u16) -> Checksum {
    // SAFETY: the call only reads the `length` bytes at `image`, which the slice lends it.
    unsafe { archive::srom_id_crc(image.as_ptr(), image.len(), size) }
}

/// The CRC of a Magic Packet block, of all its words but the last and of its last byte, to be stored
/// in the byte before that; refusal 1 as for [`id_crc`].
pub fn magic_crc(image: &[u8], size: u16) -> Checksum {
    // SAFETY: the call only reads the `length` bytes at `image`, which the slice lends it.
    unsafe { archive::srom_magic_crc(image.as_ptr(), image.len(), size) }
}

/// Reads the leaf of one controller and lists its known blocks in the two arrays, the last block
/// first; a refusal leaves both arrays as they are.
pub fn read(image: &[u8], arguments: Arguments, kinds: &mut [u16], offsets: &mut [u16]) -> Answer {
    // SAFETY: the call only reads the bytes at `image`, and writes no more than the elements of
    // the two arrays; the three slices lend it all of these, apart from each other.
    unsafe {
        archive::srom_read(
            image.as_ptr(),
            image.len(),
            arguments,
            kinds.as_mut_ptr(),
            kinds.len(),
            offsets.as_mut_ptr(),
            offsets.len(),
        )
    }
}

/// The bytes of the block that an entry of the table names, in the image; an empty part where the
/// image is refused or the table has no such entry.
pub fn view(image: &[u8], arguments: Arguments, entry: usize) -> &[u8] {
    let part = view_part(image, arguments, entry);
    &image[part.start..][..part.length]
}

/// The place of what [`view`] hands back.
pub fn view_part(image: &[u8], arguments: Arguments, entry: usize) -> Part {
    // SAFETY: the call only reads the bytes at `image`, which the slice lends it.
    unsafe { archive::srom_view(image.as_ptr(), image.len(), arguments, entry) }
}

/// What the Magic Packet block of an image of the stated size says, whatever stands before it.
pub fn read_magic(image: &[u8], size: u16) -> MagicAnswer {
    // SAFETY: the call only reads the `length` bytes at `image`, which the slice lends it.
    unsafe { archive::srom_read_magic(image.as_ptr(), image.len(), size) }
}

/// Writes the Magic Packet block to the last 32 bytes of an image of the stated size, and answers the
/// number; a refusal leaves the image as it is.
pub fn write_magic(magic: Magic, image: &mut [u8], size: u16) -> u8 {
    // SAFETY: the call writes no more than the `length` bytes at `image`, which the slice lends it.
    unsafe { archive::srom_write_magic(magic, image.as_mut_ptr(), image.len(), size) }
}

/// A walk that has read no image.
pub fn fresh() -> Walk {
    archive::srom_fresh()
}

/// Reads an image into a fresh walk; a refusal hands the walk back as it was.
pub fn load(walk: Walk, image: &[u8], arguments: Arguments) -> Walked {
    // SAFETY: the call only reads the bytes at `image`, which the slice lends it.
    unsafe { archive::srom_load(walk, image.as_ptr(), image.len(), arguments) }
}

/// Takes the steps of one look at a report with a byte for each block; a refusal hands the walk
/// back as it was.
pub fn look(walk: Walk, report: &[u8]) -> Walked {
    // SAFETY: the call only reads the bytes at `report`, which the slice lends it.
    unsafe { archive::srom_look(walk, report.as_ptr(), report.len()) }
}

/// Makes a walk fresh; it is never refused.
pub fn clear(walk: Walk) -> Walked {
    archive::srom_clear(walk)
}

/// Writes the image that a sheet of a form describes, and answers the number; a refusal leaves the
/// image as it is. Where the layout has a Magic Packet block, the image's own is kept. A sheet of version 1
/// is judged by the edition.
pub fn write(
    sheet: &[u8],
    form: Form,
    layout: Layout,
    first_edition: bool,
    image: &mut [u8],
) -> u8 {
    // SAFETY: the call only reads the bytes at `sheet`, and writes no more than those at `image`;
    // the two slices lend it all of these, apart from each other.
    unsafe {
        archive::srom_write(
            sheet.as_ptr(),
            sheet.len(),
            form.is_wide(),
            layout,
            first_edition,
            image.as_mut_ptr(),
            image.len(),
        )
    }
}

/// Makes the sheet of a tidy image in a form, in the first bytes of the buffer; a refusal leaves the
/// buffer as it is. An image of version 1 is read in the edition.
pub fn make_sheet(
    image: &[u8],
    chip: u16,
    form: Form,
    layout: Layout,
    first_edition: bool,
    buffer: &mut [u8],
) -> Made {
    // SAFETY: the call only reads the bytes at `image`, and writes no more than those at `buffer`;
    // the two slices lend it all of these, apart from each other.
    unsafe {
        archive::srom_make_sheet(
            image.as_ptr(),
            image.len(),
            chip,
            form.is_wide(),
            layout,
            first_edition,
            buffer.as_mut_ptr(),
            buffer.len(),
        )
    }
}

/// The wide sheet of a narrow one, in the first bytes of the buffer; a refusal leaves the buffer as
/// it is.
pub fn widen(sheet: &[u8], buffer: &mut [u8]) -> Made {
    convert(sheet, Form::Narrow, buffer)
}

/// The narrow sheet of a wide one, in the same way.
pub fn narrow(sheet: &[u8], buffer: &mut [u8]) -> Made {
    convert(sheet, Form::Wide, buffer)
}

/// The sheet in the other form than this one, which it is read in.
pub fn convert(sheet: &[u8], form: Form, buffer: &mut [u8]) -> Made {
    let call = match form {
        Form::Narrow => archive::srom_widen,
        Form::Wide => archive::srom_narrow,
    };
    // SAFETY: the call only reads the bytes at `sheet`, and writes no more than those at `buffer`;
    // the two slices lend it all of these, apart from each other.
    unsafe {
        call(
            sheet.as_ptr(),
            sheet.len(),
            buffer.as_mut_ptr(),
            buffer.len(),
        )
    }
}
