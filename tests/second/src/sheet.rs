//! The sheet in its two forms, its writer, its maker and its converters (document 01, "The sheet";
//! document 02, request 1, for the layout with a Magic Packet block, request 7, for the wide form and
//! the larger ROM, and request 12, for the editions), with a plain record between the sheet's bytes
//! and the image's.

pub mod fast;

use crate::crc::{ID_LAST_OFFSET, lay_board_crcs};
use crate::edition::EDITIONS;
use crate::layout::{LAYOUTS, Layout, is_of_size};
use crate::reader::{
    ADDRESS_OFFSET, Arguments, CHIPS, COMPACT, CONTROLLERS_OFFSET, COUNT_OFFSET, EXT, EXTENDED,
    HIGHEST_COUNT, MEDIA_21041, Refusal, VERSION_OFFSET, field, first_block, header_size, kind,
    leaf, refuse_if, word,
};

/// Where the writer puts the leaf, and where a tidy image has it.
pub const TIDY_LEAF: usize = 30;

/// The places of the narrow sheet's fields; [`Form::total`] and [`Form::place`] say where the wide one
/// has them. N stands first in both.
pub const COUNT: usize = 0;
pub const ID: usize = 2;
pub const VERSION: usize = 19;
pub const ADDRESS: usize = 20;
pub const DEVICE: usize = 26;
pub const CHIP: usize = 27;
pub const CONNECTION: usize = 29;
pub const CONTROL: usize = 31;
pub const MAKER: usize = 32;
pub const KINDS: usize = 34;

/// The longest body of an extended block: its length, of seven bits, counts the type too.
pub const LONGEST_BODY: usize = !EXTENDED as usize - 1;

/// The sizes of a 21041 block, without EXT and with it.
pub const MEDIA_SIZES: [usize; 2] = [1, 7];

/// The longest sheets of accepted images in each form, of the largest ROM that it serves.
pub const LONGEST_SHEET: usize = Form::Narrow.longest(Layout::PLAIN);
pub const LONGEST_WIDE_SHEET: usize = Form::Wide.longest(Layout::LARGE_PLAIN);

/// The forms of a sheet: "In the wide sheet N and T are words, and all that follows stands two bytes
/// later" (document 02, request 7).
#[derive(Debug, Clone, Copy, PartialEq, Eq)]
pub enum Form {
    Narrow,
    Wide,
}

pub const FORMS: [Form; 2] = [Form::Narrow, Form::Wide];

/// Each form with each layout that it serves.
pub fn served() -> impl Iterator<Item = (Form, Layout)> {
    let with_layouts = |form: Form| form.layouts().iter().map(move |&layout| (form, layout));
    FORMS.into_iter().flat_map(with_layouts)
}

/// The same in each edition.
pub fn served_editions() -> impl Iterator<Item = (Form, Layout, bool)> {
    let editions = |(form, layout)| EDITIONS.map(|first_edition| (form, layout, first_edition));
    served().flat_map(editions)
}

impl Form {
    /// The form as the C interface names it.
    pub const fn of(wide: bool) -> Self {
        if wide { Self::Wide } else { Self::Narrow }
    }

    pub const fn is_wide(self) -> bool {
        matches!(self, Self::Wide)
    }

    pub const fn other(self) -> Self {
        Self::of(!self.is_wide())
    }

    /// How many bytes N has, and T.
    pub const fn width(self) -> usize {
        match self {
            Self::Narrow => 1,
            Self::Wide => 2,
        }
    }

    /// The highest N and T that it can say.
    pub const fn most(self) -> usize {
        (1 << (8 * self.width())) - 1
    }

    /// Where T stands.
    pub const fn total(self) -> usize {
        COUNT + self.width()
    }

    /// Where a field behind T stands that the narrow form has at this place.
    pub const fn place(self, narrow: usize) -> usize {
        narrow - ID + 2 * self.width()
    }

    /// The length of a sheet with so many blocks and body bytes.
    pub const fn length(self, count: usize, total: usize) -> usize {
        self.place(KINDS) + 3 * count + total
    }

    /// The length of the longest sheet of an accepted image. It has as many blocks as a leaf can
    /// hold, since one more adds 3 bytes beside its body, and of these as many with EXT as have room,
    /// in a leaf of the 21041's, whose blocks stand whole in the sheet.
    pub const fn longest(self, layout: Layout) -> usize {
        let [plain, ext] = MEDIA_SIZES;
        let blocks = layout.most_blocks();
        let places = layout.leaf_limit() - TIDY_LEAF - 3;
        let with_ext = (places - blocks * plain) / (ext - plain);
        self.length(blocks, blocks * plain + with_ext * (ext - plain))
    }

    /// The layouts that it serves: "both ROM sizes in the wide one; the old form gets 1 for any but
    /// 128 bytes".
    pub const fn layouts(self) -> &'static [Layout] {
        match self {
            Self::Narrow => &[Layout::PLAIN, Layout::MAGIC],
            Self::Wide => &LAYOUTS,
        }
    }

    /// Whether an image has the stated size, and the form serves it.
    pub fn serves(self, image: &[u8], layout: Layout) -> bool {
        self.layouts().contains(&layout) && is_of_size(image, layout.size)
    }

    /// N and T, of a sheet that is long enough to have both.
    pub fn sizes(self, sheet: &[u8]) -> (usize, usize) {
        let number = |place: usize| {
            let bytes = sheet[place..place + self.width()].iter().rev();
            bytes.fold(0, |number, &byte| number << 8 | usize::from(byte))
        };
        (number(COUNT), number(self.total()))
    }

    /// The chip of a sheet that is long enough to have one.
    pub fn chip(self, sheet: &[u8]) -> u16 {
        word(sheet, self.place(CHIP))
    }
}

/// What the sheet maker and the converters answer: number 0 and the sheet's length, or the refusal's
/// number and 0. The library's C interface has the same layout.
#[repr(C)]
#[derive(Debug, Clone, Copy, PartialEq, Eq)]
pub struct Made {
    pub number: u8,
    pub length: usize,
}

/// What a sheet says, and what a tidy image does.
#[derive(Debug, Clone, PartialEq, Eq)]
struct Record {
    /// ID bytes 0 to 15 and 17.
    id: [u8; 17],
    version: u8,
    address: [u8; 6],
    device: u8,
    chip: u16,
    connection: u16,
    control: u8,
    maker: [u8; 2],
    blocks: Vec<Body>,
}

/// A block without what its kind and its size already say.
#[derive(Debug, Clone, PartialEq, Eq)]
struct Body {
    kind: u16,
    bytes: Vec<u8>,
}

/// Writes the image that a sheet of a form describes, and answers the number; a refusal leaves the
/// image as it is. What stands behind the board's part in the image is kept, and judged with the rest,
/// by the edition that the caller names.
pub fn write(
    sheet: &[u8],
    form: Form,
    layout: Layout,
    first_edition: bool,
    image: &mut [u8],
) -> u8 {
    let written = try_write(sheet, form, layout, first_edition, image);
    if let Ok(written) = &written {
        image.copy_from_slice(written);
    }
    Refusal::number(&written)
}

/// Makes the sheet of a tidy image in a form, in the first bytes of the buffer; a refusal leaves the
/// buffer as it is.
pub fn make(
    image: &[u8],
    chip: u16,
    form: Form,
    layout: Layout,
    first_edition: bool,
    buffer: &mut [u8],
) -> Made {
    let newest = Arguments::newest(chip).laid_out(layout);
    lay_sheet(
        try_make(image, newest.in_edition(first_edition), form),
        buffer,
    )
}

/// The wide sheet of a narrow one, in the first bytes of the buffer; a refusal leaves the buffer as
/// it is.
pub fn widen(sheet: &[u8], buffer: &mut [u8]) -> Made {
    convert(sheet, Form::Narrow, buffer)
}

/// The narrow sheet of a wide one, in the same way.
pub fn narrow(sheet: &[u8], buffer: &mut [u8]) -> Made {
    convert(sheet, Form::Wide, buffer)
}

/// The sheet in the other form than this one, which it is read in.
pub fn convert(sheet: &[u8], form: Form, buffer: &mut [u8]) -> Made {
    lay_sheet(try_convert(sheet, form), buffer)
}

/// Lays a sheet into the buffer, where it was not refused and the buffer is long enough.
fn lay_sheet(sheet: Result<Vec<u8>, Refusal>, buffer: &mut [u8]) -> Made {
    let laid = sheet.and_then(|sheet| {
        let place = buffer.get_mut(..sheet.len()).ok_or(Refusal::ShortArray)?;
        place.copy_from_slice(&sheet);
        Ok(sheet.len())
    });
    Made {
        number: Refusal::number(&laid),
        length: laid.unwrap_or(0),
    }
}

fn try_write(
    sheet: &[u8],
    form: Form,
    layout: Layout,
    first_edition: bool,
    output: &[u8],
) -> Result<Vec<u8>, Refusal> {
    let record = Record::of_sheet(sheet, form).ok_or(Refusal::SheetLengthOrSum)?;
    refuse_if(record.blocks.len() > HIGHEST_COUNT, Refusal::SheetTooLarge)?;
    refuse_if(!form.serves(output, layout), Refusal::ImageLength)?;
    refuse_if(!CHIPS.contains(&record.chip), Refusal::Chip)?;
    refuse_if(record.has_wrong_form(), Refusal::KindOrBody)?;
    let leaf_bytes = record.leaf();
    refuse_if(
        TIDY_LEAF + leaf_bytes.len() > layout.leaf_limit(),
        Refusal::LeafPastLimit,
    )?;
    let mut image = output.to_vec();
    record.lay(&leaf_bytes, layout, &mut image);
    let newest = Arguments::newest(record.chip).laid_out(layout);
    leaf(&image, newest.in_edition(first_edition), usize::MAX)?;
    Ok(image)
}

fn try_make(image: &[u8], newest: Arguments, form: Form) -> Result<Vec<u8>, Refusal> {
    let Arguments { chip, layout, .. } = newest;
    refuse_if(!form.serves(image, layout), Refusal::ImageLength)?;
    let (header, blocks) = leaf(image, newest, usize::MAX)?;
    let start = header.first_block - header_size(chip);
    let end = blocks
        .last()
        .map_or(header.first_block, |block| block.start + block.size);
    let is_tidy = image[COUNT_OFFSET] == 1
        && start == TIDY_LEAF
        && image[end..layout.leaf_limit()]
            .iter()
            .all(|&byte| byte == 0);
    refuse_if(!is_tidy, Refusal::NotTidy)?;
    Ok(Record::of_image(image, chip, layout).sheet(form))
}

fn try_convert(sheet: &[u8], form: Form) -> Result<Vec<u8>, Refusal> {
    let record = Record::of_sheet(sheet, form).ok_or(Refusal::SheetLengthOrSum)?;
    let other = form.other();
    refuse_if(
        record.blocks.len().max(record.body_bytes()) > other.most(),
        Refusal::SheetTooLarge,
    )?;
    Ok(record.sheet(other))
}

impl Record {
    /// None where the length is not the one that the sizes give, or the total is not their sum.
    fn of_sheet(sheet: &[u8], form: Form) -> Option<Self> {
        let (head, arrays) = sheet.split_at_checked(form.place(KINDS))?;
        let (count, total) = form.sizes(head);
        let (kinds, rest) = arrays.split_at_checked(2 * count)?;
        let (sizes, mut bodies) = rest.split_at_checked(count)?;
        let sum: usize = sizes.iter().map(|&size| usize::from(size)).sum();
        if total != sum || bodies.len() != sum {
            return None;
        }
        let blocks = sizes.iter().enumerate().map(|(number, &size)| {
            let (body, later) = bodies.split_at(size.into());
            bodies = later;
            Body {
                kind: word(kinds, 2 * number),
                bytes: body.to_vec(),
            }
        });
        Some(Self {
            blocks: blocks.collect(),
            id: field(head, form.place(ID)),
            version: head[form.place(VERSION)],
            address: field(head, form.place(ADDRESS)),
            device: head[form.place(DEVICE)],
            chip: form.chip(head),
            connection: word(head, form.place(CONNECTION)),
            control: head[form.place(CONTROL)],
            maker: field(head, form.place(MAKER)),
        })
    }

    /// The record of a tidy image that the newest reader accepts.
    fn of_image(image: &[u8], chip: u16, layout: Layout) -> Self {
        let mut id = field(image, 0);
        id[16] = image[ID_LAST_OFFSET];
        let mut rest = &image[TIDY_LEAF + header_size(chip)..layout.leaf_limit()];
        let count = image[TIDY_LEAF + header_size(chip) - 1];
        let blocks = (0..count).map(|_| {
            let block = first_block(rest, chip).expect("an accepted block ends before the limit");
            rest = &rest[block.len()..];
            Body::of_block(block, chip)
        });
        Self {
            blocks: blocks.collect(),
            id,
            version: image[VERSION_OFFSET],
            address: field(image, ADDRESS_OFFSET),
            device: image[CONTROLLERS_OFFSET],
            chip,
            connection: word(image, TIDY_LEAF),
            control: if chip == 21140 {
                image[TIDY_LEAF + 2]
            } else {
                0
            },
            maker: field(image, layout.leaf_limit()),
        }
    }

    /// Cause 25.
    fn has_wrong_form(&self) -> bool {
        let is_wrong = |body: &Body| body.has_wrong_form(self.chip);
        self.blocks.iter().any(is_wrong) || self.chip != 21140 && self.control != 0
    }

    fn leaf(&self) -> Vec<u8> {
        let mut leaf = self.connection.to_le_bytes().to_vec();
        if self.chip == 21140 {
            leaf.push(self.control);
        }
        leaf.push(self.blocks.len() as u8);
        leaf.extend(self.blocks.iter().flat_map(Body::block));
        leaf
    }

    /// "The writer makes n = 1, the leaf at 30, both CRCs, and zeros elsewhere", which is the board's
    /// part of the image.
    fn lay(&self, leaf: &[u8], layout: Layout, image: &mut [u8]) {
        image[..layout.board_end()].fill(0);
        image[..16].copy_from_slice(&self.id[..16]);
        image[ID_LAST_OFFSET] = self.id[16];
        image[VERSION_OFFSET] = self.version;
        image[COUNT_OFFSET] = 1;
        image[ADDRESS_OFFSET..CONTROLLERS_OFFSET].copy_from_slice(&self.address);
        image[CONTROLLERS_OFFSET] = self.device;
        image[CONTROLLERS_OFFSET + 1] = TIDY_LEAF as u8;
        image[TIDY_LEAF..][..leaf.len()].copy_from_slice(leaf);
        image[layout.leaf_limit()..][..2].copy_from_slice(&self.maker);
        lay_board_crcs(image, layout);
    }

    fn body_bytes(&self) -> usize {
        self.blocks.iter().map(|body| body.bytes.len()).sum()
    }

    /// The sheet's bytes in a form, the sizes first.
    fn sheet(&self, form: Form) -> Vec<u8> {
        let mut sheet = Vec::new();
        for size in [self.blocks.len(), self.body_bytes()] {
            sheet.extend(&size.to_le_bytes()[..form.width()]);
        }
        sheet.extend(self.id);
        sheet.push(self.version);
        sheet.extend(self.address);
        sheet.push(self.device);
        sheet.extend(self.chip.to_le_bytes());
        sheet.extend(self.connection.to_le_bytes());
        sheet.push(self.control);
        sheet.extend(self.maker);
        sheet.extend(self.blocks.iter().flat_map(|body| body.kind.to_le_bytes()));
        sheet.extend(self.blocks.iter().map(|body| body.bytes.len() as u8));
        sheet.extend(self.blocks.iter().flat_map(|body| &body.bytes));
        sheet
    }
}

impl Body {
    /// "an extended block without length and type, others whole".
    fn of_block(block: &[u8], chip: u16) -> Self {
        let kind = kind(block, chip).expect("an accepted extended block has a type");
        let skipped = if kind < COMPACT { 2 } else { 0 };
        Self {
            kind,
            bytes: block[skipped..].to_vec(),
        }
    }

    fn block(&self) -> Vec<u8> {
        let mut block = Vec::new();
        if self.kind < COMPACT {
            block.push(EXTENDED | (1 + self.bytes.len()) as u8);
            block.push(self.kind as u8);
        }
        block.extend(&self.bytes);
        block
    }

    fn has_wrong_form(&self, chip: u16) -> bool {
        let bytes = self.bytes.as_slice();
        match self.kind {
            0..COMPACT => chip == 21041 || bytes.len() > LONGEST_BODY,
            COMPACT => chip == 21041 || bytes.len() != 4 || bytes[0] & EXTENDED != 0,
            MEDIA_21041 => {
                let has_ext = bytes.first().is_some_and(|code| code & EXT != 0);
                chip != 21041 || bytes.len() != MEDIA_SIZES[usize::from(has_ext)]
            }
            _ => true,
        }
    }
}

#[cfg(test)]
mod tests;
