//! The same writer, maker and converters with the CRCs by table, in few passes and without
//! allocation.

use super::{
    ADDRESS, CHIP, CONNECTION, CONTROL, COUNT, DEVICE, Form, ID, KINDS, LONGEST_BODY, MAKER, Made,
    TIDY_LEAF, VERSION,
};
use crate::crc::fast::{id_crc, magic_crc, srom_crc};
use crate::crc::{ID_CRC_OFFSET, ID_LAST_OFFSET};
use crate::edition::is_version;
use crate::layout::{LARGE, Layout, SMALL};
use crate::magic;
use crate::reader::fast::{each_block, each_block_unframed};
use crate::reader::{
    ADDRESS_OFFSET, Arguments, CHIPS, COMPACT, CONTROLLERS_OFFSET, COUNT_OFFSET, EXT, EXTENDED,
    HIGHEST_COUNT, MEDIA_21041, Refusal, VERSION_OFFSET, first_block, header_size, kind, refuse_if,
    word,
};

/// [`super::write`] without allocation.
pub fn write(
    sheet: &[u8],
    form: Form,
    layout: Layout,
    first_edition: bool,
    image: &mut [u8],
) -> u8 {
    match layout.size {
        LARGE => write_to::<{ LARGE as usize }>(sheet, form, layout, first_edition, image),
        _ => write_to::<{ SMALL as usize }>(sheet, form, layout, first_edition, image),
    }
}

/// The same for images of one size.
fn write_to<const SIZE: usize>(
    sheet: &[u8],
    form: Form,
    layout: Layout,
    first_edition: bool,
    image: &mut [u8],
) -> u8 {
    let written = try_write::<SIZE>(sheet, form, layout, first_edition, image);
    if let Ok(written) = &written {
        image.copy_from_slice(written);
    }
    Refusal::number(&written)
}

/// [`super::make`] without allocation.
pub fn make(
    image: &[u8],
    chip: u16,
    form: Form,
    layout: Layout,
    first_edition: bool,
    buffer: &mut [u8],
) -> Made {
    let newest = Arguments::newest(chip).laid_out(layout);
    answer(try_make(
        image,
        newest.in_edition(first_edition),
        form,
        buffer,
    ))
}

/// [`super::widen`] without allocation.
pub fn widen(sheet: &[u8], buffer: &mut [u8]) -> Made {
    answer(try_convert(sheet, Form::Narrow, buffer))
}

/// [`super::narrow`] without allocation.
pub fn narrow(sheet: &[u8], buffer: &mut [u8]) -> Made {
    answer(try_convert(sheet, Form::Wide, buffer))
}

fn answer(made: Result<usize, Refusal>) -> Made {
    Made {
        number: Refusal::number(&made),
        length: made.unwrap_or(0),
    }
}

/// N and T of a sheet, or cause 24.
fn sizes(sheet: &[u8], form: Form) -> Result<(usize, usize), Refusal> {
    refuse_if(sheet.len() < form.place(KINDS), Refusal::SheetLengthOrSum)?;
    let (count, total) = form.sizes(sheet);
    let is_length = sheet.len() == form.length(count, total);
    refuse_if(!is_length, Refusal::SheetLengthOrSum)?;
    let bodies = form.length(count, 0);
    let sizes = &sheet[bodies - count..bodies];
    let sum: usize = sizes.iter().map(|&size| usize::from(size)).sum();
    refuse_if(sum != total, Refusal::SheetLengthOrSum)?;
    Ok((count, total))
}

/// What follows N and T is copied.
fn try_convert(sheet: &[u8], form: Form, buffer: &mut [u8]) -> Result<usize, Refusal> {
    let (count, total) = sizes(sheet, form)?;
    let other = form.other();
    refuse_if(count.max(total) > other.most(), Refusal::SheetTooLarge)?;
    let length = other.length(count, total);
    let place = buffer.get_mut(..length).ok_or(Refusal::ShortArray)?;
    lay_sizes(place, other, count, total);
    place[other.place(ID)..].copy_from_slice(&sheet[form.place(ID)..]);
    Ok(length)
}

fn lay_sizes(sheet: &mut [u8], form: Form, count: usize, total: usize) {
    let width = form.width();
    sheet[COUNT..][..width].copy_from_slice(&count.to_le_bytes()[..width]);
    sheet[form.total()..][..width].copy_from_slice(&total.to_le_bytes()[..width]);
}

fn try_write<const SIZE: usize>(
    sheet: &[u8],
    form: Form,
    layout: Layout,
    first_edition: bool,
    output: &[u8],
) -> Result<[u8; SIZE], Refusal> {
    let (count, _) = sizes(sheet, form)?;
    refuse_if(count > HIGHEST_COUNT, Refusal::SheetTooLarge)?;
    refuse_if(!form.serves(output, layout), Refusal::ImageLength)?;
    let mut image = output.try_into().map_err(|_| Refusal::ImageLength)?;
    let chip = form.chip(sheet);
    refuse_if(!CHIPS.contains(&chip), Refusal::Chip)?;
    lay_head(sheet, form, chip, layout, &mut image);
    image[TIDY_LEAF + header_size(chip) - 1] = count as u8;
    let end = lay_blocks(sheet, form, chip, count, &mut image[..layout.leaf_limit()])?;
    refuse_if(end > layout.leaf_limit(), Refusal::LeafPastLimit)?;
    refuse_if(!is_version(&image), Refusal::Version)?;
    image[ID_CRC_OFFSET] = id_crc(&image, layout.size).value as u8;
    let stored = srom_crc(&image, layout).value.to_le_bytes();
    image[layout.srom_crc_offset()..layout.board_end()].copy_from_slice(&stored);
    if layout.magic {
        magic::judge(&image, magic_crc(&image, layout.size))?;
    }
    let newest = Arguments::newest(chip).laid_out(layout);
    let newest = newest.in_edition(first_edition);
    each_block_unframed(&image, newest, usize::MAX, |_, _, _| {})?;
    Ok(image)
}

/// Lays all that the sheet says of the image but for the block count, the blocks and the CRCs.
fn lay_head<const SIZE: usize>(
    sheet: &[u8],
    form: Form,
    chip: u16,
    layout: Layout,
    image: &mut [u8; SIZE],
) {
    let from = |narrow: usize, size: usize| &sheet[form.place(narrow)..][..size];
    image[..layout.board_end()].fill(0);
    image[..16].copy_from_slice(from(ID, 16));
    image[ID_LAST_OFFSET] = sheet[form.place(ID) + 16];
    image[VERSION_OFFSET] = sheet[form.place(VERSION)];
    image[COUNT_OFFSET] = 1;
    image[ADDRESS_OFFSET..=CONTROLLERS_OFFSET].copy_from_slice(from(ADDRESS, DEVICE + 1 - ADDRESS));
    image[CONTROLLERS_OFFSET + 1] = TIDY_LEAF as u8;
    image[TIDY_LEAF..TIDY_LEAF + 2].copy_from_slice(from(CONNECTION, 2));
    if chip == 21140 {
        image[TIDY_LEAF + 2] = sheet[form.place(CONTROL)];
    }
    image[layout.leaf_limit()..][..2].copy_from_slice(from(MAKER, 2));
}

/// Lays the blocks into the image up to the limit as far as they fit, and answers where the leaf
/// ends.
fn lay_blocks(
    sheet: &[u8],
    form: Form,
    chip: u16,
    count: usize,
    image: &mut [u8],
) -> Result<usize, Refusal> {
    let has_control = chip == 21140 || sheet[form.place(CONTROL)] == 0;
    refuse_if(!has_control, Refusal::KindOrBody)?;
    let kinds = form.place(KINDS);
    let (mut end, mut start) = (TIDY_LEAF + header_size(chip), kinds + 3 * count);
    for number in 0..count {
        let kind = word(sheet, kinds + 2 * number);
        let size = usize::from(sheet[kinds + 2 * count + number]);
        let body = &sheet[start..start + size];
        start += size;
        refuse_if(has_wrong_form(kind, body, chip), Refusal::KindOrBody)?;
        let opening = if kind < COMPACT { 2 } else { 0 };
        if let Some(place) = image.get_mut(end..end + opening + size) {
            if opening == 2 {
                place[0] = EXTENDED | (1 + size) as u8;
                place[1] = kind as u8;
            }
            place[opening..].copy_from_slice(body);
        }
        end += opening + size;
    }
    Ok(end)
}

fn has_wrong_form(kind: u16, body: &[u8], chip: u16) -> bool {
    match kind {
        MEDIA_21041 if chip == 21041 => match body {
            [code] => code & EXT != 0,
            [code, _, _, _, _, _, _] => code & EXT == 0,
            _ => true,
        },
        COMPACT if chip != 21041 => body.len() != 4 || body[0] & EXTENDED != 0,
        0..COMPACT if chip != 21041 => body.len() > LONGEST_BODY,
        _ => true,
    }
}

fn try_make(
    image: &[u8],
    newest: Arguments,
    form: Form,
    buffer: &mut [u8],
) -> Result<usize, Refusal> {
    let Arguments { chip, layout, .. } = newest;
    refuse_if(!form.serves(image, layout), Refusal::ImageLength)?;
    let (first, limit) = (TIDY_LEAF + header_size(chip), layout.leaf_limit());
    let (mut end, mut total) = (first, 0);
    let answer = each_block(image, newest, usize::MAX, |_, _, block| {
        end = block.start + block.size;
        let is_extended = chip != 21041 && image[block.start] & EXTENDED != 0;
        total += block.size - if is_extended { 2 } else { 0 };
    })?;
    let is_tidy = image[COUNT_OFFSET] == 1
        && word(image, CONTROLLERS_OFFSET + 1) == TIDY_LEAF as u16
        && image[end..limit].iter().all(|&byte| byte == 0);
    refuse_if(!is_tidy, Refusal::NotTidy)?;
    let count = usize::from(answer.blocks);
    let length = form.length(count, total);
    let sheet = buffer.get_mut(..length).ok_or(Refusal::ShortArray)?;
    lay_sizes(sheet, form, count, total);
    let (head, arrays) = sheet.split_at_mut(form.place(KINDS));
    let fields = &mut head[form.place(ID)..];
    fields[..16].copy_from_slice(&image[..16]);
    fields[16] = image[ID_LAST_OFFSET];
    fields[VERSION - ID] = image[VERSION_OFFSET];
    fields[ADDRESS - ID..=DEVICE - ID].copy_from_slice(&image[ADDRESS_OFFSET..=CONTROLLERS_OFFSET]);
    fields[CHIP - ID..][..2].copy_from_slice(&chip.to_le_bytes());
    fields[CONNECTION - ID..][..2].copy_from_slice(&answer.connection.to_le_bytes());
    fields[CONTROL - ID] = answer.control;
    fields[MAKER - ID..].copy_from_slice(&image[limit..limit + 2]);
    let (kinds, rest) = arrays.split_at_mut(2 * count);
    let (sizes, mut bodies) = rest.split_at_mut(count);
    let mut rest = &image[first..limit];
    for (place, size) in kinds.chunks_exact_mut(2).zip(sizes) {
        let block = first_block(rest, chip).expect("an accepted block ends before the limit");
        rest = &rest[block.len()..];
        let kind = kind(block, chip).expect("an accepted extended block has a type");
        let body = &block[if kind < COMPACT { 2 } else { 0 }..];
        place.copy_from_slice(&kind.to_le_bytes());
        *size = body.len() as u8;
        let (laid, later) = bodies.split_at_mut(body.len());
        laid.copy_from_slice(body);
        bodies = later;
    }
    Ok(length)
}
