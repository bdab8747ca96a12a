//! The same walk on its rows, handed from call to call by value, without allocation.

use super::{NONE, Walk, Walked, Way, has_fixed_medium};
use crate::reader::{Arguments, Refusal, fast, refuse_if};

pub fn fresh() -> Walk {
    Walk::FRESH
}

/// [`super::Autosense::load`] by value.
pub fn load(walk: Walk, image: &[u8], arguments: Arguments) -> Walked {
    handed_back(walk, try_load(walk, image, arguments))
}

/// [`super::Autosense::look`] by value.
pub fn look(walk: Walk, report: &[u8]) -> Walked {
    handed_back(walk, try_look(walk, report))
}

/// [`super::Autosense::clear`] by value.
pub fn clear(_walk: Walk) -> Walked {
    Walked {
        number: 0,
        walk: Walk::FRESH,
    }
}

/// The walk after an accepted call, or the walk before a refused one.
fn handed_back(before: Walk, result: Result<Walk, Refusal>) -> Walked {
    Walked {
        number: Refusal::number(&result),
        walk: result.unwrap_or(before),
    }
}

fn try_load(walk: Walk, image: &[u8], arguments: Arguments) -> Result<Walk, Refusal> {
    refuse_if(walk.loaded, Refusal::LoadedWalk)?;
    let mut loaded = Walk::FRESH;
    let answer = fast::each_block(image, arguments, usize::MAX, |header, number, block| {
        let number = usize::from(number);
        loaded.rows.listed[number] = block.is_listed().into();
        loaded.rows.active_invalid[number] = block.is_active_invalid.into();
        loaded.rows.fixed[number] = has_fixed_medium(block, header.connection).into();
    })?;
    loaded.loaded = true;
    loaded.connection = answer.connection;
    loaded.blocks = answer.blocks;
    loaded.default_number = answer.default_number;
    Ok(loaded)
}

fn try_look(mut walk: Walk, report: &[u8]) -> Result<Walk, Refusal> {
    refuse_if(!walk.loaded, Refusal::FreshWalk)?;
    let fixed = match Way::of(walk.connection) {
        Way::Fixed => Some(walk.fixed_choice().ok_or(Refusal::NoFixedMedium)?),
        Way::EveryLook | Way::Once => None,
    };
    refuse_if(walk.looks == u16::MAX, Refusal::LooksSpent)?;
    let report = report.get(..walk.blocks.into()).ok_or(Refusal::Report)?;
    refuse_if(report.iter().any(|&byte| byte > 1), Refusal::Report)?;
    let before = walk.selected;
    if fixed.is_some() || !stays(&walk, report) {
        match fixed.or_else(|| candidate(&walk, report)) {
            Some(block) => {
                walk.selected = block as u8;
                walk.settled = true;
            }
            None => walk.selected = walk.default_number,
        }
    }
    walk.looks += 1;
    walk.switches += u16::from(walk.selected != before);
    Ok(walk)
}

fn stays(walk: &Walk, report: &[u8]) -> bool {
    if !walk.settled || walk.selected == NONE {
        return false;
    }
    let selected = usize::from(walk.selected);
    Way::of(walk.connection) == Way::Once
        || walk.rows.active_invalid[selected] == 1
        || report[selected] == 1
}

fn candidate(walk: &Walk, report: &[u8]) -> Option<usize> {
    let is_candidate = |block: usize| {
        walk.rows.listed[block] == 1 && !(walk.settled && walk.rows.active_invalid[block] == 1)
    };
    (0..report.len())
        .rev()
        .find(|&block| report[block] == 1 && is_candidate(block))
}
