//! The same reading with the CRCs by table, in one pass over the leaf and without allocation.

use super::{
    Answer, Arguments, Block, HIGHEST_COUNT, Header, NO_DEFAULT, POWER, RESET, Refusal, block,
    first_block, header, refuse_if, word,
};
use crate::crc::{ID_CRC_OFFSET, fast};
use crate::edition::is_version;
use crate::layout::{Layout, is_of_size};
use crate::magic;

/// Kind and start of each known block but resets and power blocks, the first block first.
type Listed = [(u16, u16); HIGHEST_COUNT];

/// [`super::read`] in one pass.
pub fn read(image: &[u8], arguments: Arguments, kinds: &mut [u16], offsets: &mut [u16]) -> Answer {
    let mut listed = [(0, 0); HIGHEST_COUNT];
    let shorter = kinds.len().min(offsets.len());
    match leaf(image, arguments, shorter, &mut listed) {
        Ok(answer) => {
            let entries = listed[..answer.listed.into()].iter().rev();
            for ((&entry, kind), offset) in entries.zip(kinds).zip(offsets) {
                (*kind, *offset) = entry;
            }
            answer
        }
        Err(refusal) => Answer::refused(refusal),
    }
}

/// [`super::view`] in one pass.
pub fn view(image: &[u8], arguments: Arguments, entry: usize) -> &[u8] {
    let mut listed = [(0, 0); HIGHEST_COUNT];
    let Ok(answer) = leaf(image, arguments, usize::MAX, &mut listed) else {
        return &image[..0];
    };
    let rest = |start: u16| &image[start.into()..arguments.layout.leaf_limit()];
    match listed[..answer.listed.into()].iter().rev().nth(entry) {
        Some(&(_, start)) => first_block(rest(start), arguments.chip)
            .expect("an accepted block ends before the limit"),
        None => &image[..0],
    }
}

fn leaf(
    image: &[u8],
    arguments: Arguments,
    shorter: usize,
    listed: &mut Listed,
) -> Result<Answer, Refusal> {
    let mut entries = 0;
    each_block(image, arguments, shorter, |_, _, block| {
        if let Some(kind) = block.kind.filter(|_| block.is_listed()) {
            listed[entries] = (kind, block.start as u16);
            entries += 1;
        }
    })
}

/// Hands each accepted block on with the leaf's header and its number, the first block first, also
/// where a later cause refuses the leaf.
pub(crate) fn each_block(
    image: &[u8],
    arguments: Arguments,
    shorter: usize,
    take: impl FnMut(&Header, u8, &Block),
) -> Result<Answer, Refusal> {
    frame(image, arguments.layout)?;
    each_block_unframed(image, arguments, shorter, take)
}

/// The same where the frame is known to be right (causes 1 to 4, 29 and 30).
pub(crate) fn each_block_unframed(
    image: &[u8],
    arguments: Arguments,
    shorter: usize,
    mut take: impl FnMut(&Header, u8, &Block),
) -> Result<Answer, Refusal> {
    let header = header(image, arguments)?;
    refuse_if(shorter < usize::from(header.count), Refusal::ShortArray)?;
    let mut answer = Answer {
        number: 0,
        connection: header.connection,
        control: header.control,
        address: header.address,
        blocks: header.count,
        listed: 0,
        resets: 0,
        skipped: 0,
        power: 0,
        default_number: NO_DEFAULT,
    };
    let mut start = header.first_block;
    let (mut defaults, mut resets_phy) = (0, false);
    let (mut modes, mut repeated) = (0, 0);
    for number in 0..header.count {
        let block = block(image, start, arguments)?;
        match block.kind {
            None => answer.skipped += 1,
            Some(RESET) => answer.resets += 1,
            Some(POWER) => answer.power += 1,
            Some(_) => answer.listed += 1,
        }
        if block.is_default {
            answer.default_number = number;
            defaults += 1;
        }
        resets_phy |= block.resets_phy;
        repeated |= modes & block.mode;
        modes |= block.mode;
        take(&header, number, &block);
        start += block.size;
    }
    refuse_if(
        answer.resets > 1 || answer.resets == 1 && resets_phy || defaults > 1,
        Refusal::Conflict,
    )?;
    refuse_if(repeated != 0, Refusal::RepeatedMode)?;
    Ok(answer)
}

fn frame(image: &[u8], layout: Layout) -> Result<(), Refusal> {
    refuse_if(!is_of_size(image, layout.size), Refusal::ImageLength)?;
    refuse_if(!is_version(image), Refusal::Version)?;
    let srom_crc = fast::srom_crc(image, layout).value;
    let stored = word(image, layout.srom_crc_offset());
    refuse_if(srom_crc != stored, Refusal::SromCrc)?;
    let id_crc = fast::id_crc(image, layout.size).value;
    refuse_if(id_crc != image[ID_CRC_OFFSET].into(), Refusal::IdCrc)?;
    if layout.magic {
        magic::judge(image, fast::magic_crc(image, layout.size))?;
    }
    Ok(())
}
