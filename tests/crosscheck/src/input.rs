//! The inputs of the cross-check, and their comparison.

use crate::tally::{Name, Tally};
use library::compare::{self, Difference, Pair};
use library::lent::hex;
use library::levels::{Choice, Older};
use library::twins::Twins;
use library::{Form, Layout, Magic};
use second::calls::{Call, Step};
use second::reader::Arguments;
use std::fmt::{self, Display, Formatter};

/// A call with all that it takes, or a list of calls.
#[derive(Debug, Clone, PartialEq, Eq)]
pub enum Input {
    SromCrc(Vec<u8>, Layout),
    /// With the size that is stated of the image, as in the next three.
    IdCrc(Vec<u8>, u16),
    MagicCrc(Vec<u8>, u16),
    ReadMagic(Vec<u8>, u16),
    /// To an image with these bytes.
    WriteMagic(Magic, Vec<u8>, u16),
    Read {
        image: Vec<u8>,
        arguments: Arguments,
        kinds: usize,
        offsets: usize,
    },
    View {
        image: Vec<u8>,
        arguments: Arguments,
        entry: usize,
    },
    /// Steps from a fresh walk, each so many times.
    Walk(Vec<(Step, usize)>),
    /// The newest level against an older one.
    Levels {
        image: Vec<u8>,
        arguments: Arguments,
        level: u8,
        list: Vec<Call>,
    },
    /// Looks at a walk that has read the image, under 0xFFFF and under 0x8800.
    Twins {
        image: Vec<u8>,
        arguments: Arguments,
        reports: Vec<Vec<u8>>,
    },
    /// To an image with these bytes.
    Write {
        sheet: Vec<u8>,
        form: Form,
        layout: Layout,
        first_edition: bool,
        image: Vec<u8>,
    },
    /// For the chip, in the layout and the edition of the arguments.
    MakeSheet {
        image: Vec<u8>,
        form: Form,
        arguments: Arguments,
        length: usize,
    },
    /// From this form to the other.
    Convert {
        sheet: Vec<u8>,
        form: Form,
        length: usize,
    },
}

impl Input {
    /// Makes the calls of both implementations, or of both levels or types, as far as the first
    /// difference.
    pub fn compare(&self, tally: &mut Tally) -> Result<(), Difference> {
        tally.count_under(self.layout());
        match self {
            Self::SromCrc(image, layout) => {
                tally.count(Name::SromCrc, compare::srom_crc(image, *layout)?);
            }
            Self::IdCrc(image, size) => {
                tally.count(Name::IdCrc, compare::id_crc(image, *size)?);
            }
            Self::MagicCrc(image, size) => {
                tally.count(Name::MagicCrc, compare::magic_crc(image, *size)?);
            }
            Self::ReadMagic(image, size) => {
                tally.count(Name::ReadMagic, compare::read_magic(image, *size)?.number);
            }
            Self::WriteMagic(magic, image, size) => {
                let (number, _) = compare::write_magic(*magic, image, *size)?;
                tally.count(Name::WriteMagic, number);
            }
            Self::Read {
                image,
                arguments,
                kinds,
                offsets,
            } => {
                let reading = compare::read(image, *arguments, (*kinds, *offsets))?;
                let number = reading.answer.number;
                tally.count(Name::Read, number);
                tally.editions.count_image(image, *arguments, number);
            }
            Self::View {
                image,
                arguments,
                entry,
            } => {
                let part = compare::view(image, *arguments, *entry)?;
                tally.count_view(part.length == 0);
            }
            Self::Walk(steps) => compare_steps(steps, tally)?,
            Self::Levels {
                image,
                arguments,
                level,
                list,
            } => compare_levels(image, *arguments, *level, list, tally)?,
            Self::Twins {
                image,
                arguments,
                reports,
            } => compare_twins(image, *arguments, reports, tally)?,
            Self::Write {
                sheet,
                form,
                layout,
                first_edition,
                image,
            } => {
                let (number, _) = compare::write(sheet, *form, *layout, *first_edition, image)?;
                tally.count_sheet(*form, Name::Write, number);
                let editions = &mut tally.editions;
                editions.count_sheet(sheet, *form, *first_edition, number);
            }
            Self::MakeSheet {
                image,
                form,
                arguments,
                length,
            } => {
                let (made, _) = compare::make_sheet(image, *form, *arguments, *length)?;
                tally.count_sheet(*form, Name::MakeSheet, made.number);
                tally.editions.count_made(image, *arguments, made.number);
            }
            Self::Convert {
                sheet,
                form,
                length,
            } => {
                let (made, _) = compare::convert(sheet, *form, *length)?;
                let name = match form {
                    Form::Narrow => Name::Widen,
                    Form::Wide => Name::Narrow,
                };
                tally.count_sheet(*form, name, made.number);
            }
        }
        Ok(())
    }

    /// The layout that is stated, or that of the first load; the calls of a Magic Packet block have one
    /// with it. None for steps without a load, and for conversions.
    fn layout(&self) -> Option<Layout> {
        match self {
            Self::SromCrc(_, layout) | Self::Write { layout, .. } => Some(*layout),
            Self::IdCrc(_, size) => Some(Layout::new(*size, false)),
            Self::MagicCrc(_, size) | Self::ReadMagic(_, size) | Self::WriteMagic(_, _, size) => {
                Some(Layout::new(*size, true))
            }
            Self::Read { arguments, .. }
            | Self::View { arguments, .. }
            | Self::Levels { arguments, .. }
            | Self::Twins { arguments, .. }
            | Self::MakeSheet { arguments, .. } => Some(arguments.layout),
            Self::Walk(steps) => steps.iter().find_map(|(step, _)| loaded(step)),
            Self::Convert { .. } => None,
        }
    }

    /// How many calls of the library a comparison makes, about.
    pub fn cost(&self) -> usize {
        match self {
            Self::Walk(steps) => 1 + steps.iter().map(|(_, times)| times).sum::<usize>(),
            Self::Levels { list, .. } => 4 + 2 * list.len(),
            Self::Twins { reports, .. } => 2 + 3 * reports.len(),
            _ => 1,
        }
    }
}

/// The layout that a load states.
fn loaded(step: &Step) -> Option<Layout> {
    match step {
        Step::Load(_, arguments) => Some(arguments.layout),
        Step::Look(_) | Step::Clear => None,
    }
}

/// The calls behind a load count under its layout.
fn compare_steps(steps: &[(Step, usize)], tally: &mut Tally) -> Result<(), Difference> {
    let mut pair = Pair::fresh()?;
    tally.count(Name::Fresh, 0);
    for (step, times) in steps {
        if let Some(layout) = loaded(step) {
            tally.count_under(Some(layout));
        }
        let name = match step {
            Step::Load(..) => Name::Load,
            Step::Look(_) => Name::Look,
            Step::Clear => Name::Clear,
        };
        for _ in 0..*times {
            let number = pair.step(step)?;
            tally.count(name, number);
            if let (Step::Load(image, arguments), true) = (step, number != 21) {
                tally.editions.count_image(image, *arguments, number);
            }
        }
    }
    Ok(())
}

/// Demand 3, under a fixed type with its one condition. Where a condition is not met, the calls are
/// compared and the levels are not.
fn compare_levels(
    image: &[u8],
    arguments: Arguments,
    level: u8,
    list: &[Call],
    tally: &mut Tally,
) -> Result<(), Difference> {
    let Some(older) = Older::new(image, arguments, level) else {
        return Ok(());
    };
    older.compare_tables()?;
    let shown = older.run(list, |call, number| {
        let name = match call {
            Call::Load => Name::Load,
            Call::Look(_) => Name::Look,
            Call::Clear => Name::Clear,
        };
        tally.count(name, number);
    })?;
    for name in [Name::Read, Name::Fresh] {
        tally.count(name, 0);
        tally.count(name, 0);
    }
    let (looks, selections) = (shown.looks as u64, shown.selections as u64);
    let seen = &mut tally.levels[usize::from(level)];
    seen.lists += 1;
    tally.fixed.lists += u64::from(older.choice.is_some());
    if !older.is_promised(&shown) {
        return Ok(());
    }
    seen.under_conditions += 1;
    seen.with_removed += u64::from(!older.removed.is_empty());
    seen.looks += looks;
    seen.selections += selections;
    if let Some(choice) = older.choice {
        tally.fixed.with_choice += u64::from(choice == Choice::Listed);
        tally.fixed.without_choice += u64::from(choice == Choice::Missing);
        tally.fixed.looks += looks;
    }
    shown.difference.map_or(Ok(()), Err)
}

/// Document 02, request 4: "Such a card walks as 0x8800 does." Where the image is not loaded, there
/// is no such walk.
fn compare_twins(
    image: &[u8],
    arguments: Arguments,
    reports: &[Vec<u8>],
    tally: &mut Tally,
) -> Result<(), Difference> {
    let mut pair = Pair::fresh()?;
    tally.count(Name::Fresh, 0);
    let number = pair.load(image, arguments)?;
    tally.count(Name::Load, number);
    if number > 0 {
        return Ok(());
    }
    let count = |number| {
        tally.count(Name::Look, number);
        tally.count(Name::Look, number);
    };
    let shown = Twins::of(pair.library).look_at_all(reports, count)?;
    tally.twins.add(shown);
    Ok(())
}

/// The calls of a list, a line for each, and a line that leads to the one that differs; nothing for
/// a single call, which its difference shows.
impl Display for Input {
    fn fmt(&self, formatter: &mut Formatter) -> fmt::Result {
        match self {
            Self::Walk(steps) => {
                writeln!(formatter, "srom_fresh")?;
                for (step, times) in steps {
                    match step {
                        Step::Load(image, arguments) => {
                            write!(formatter, "srom_load {arguments:?} [{}]", hex(image))?;
                        }
                        Step::Look(report) => write!(formatter, "srom_look [{}]", hex(report))?,
                        Step::Clear => write!(formatter, "srom_clear")?,
                    }
                    match times {
                        1 => writeln!(formatter)?,
                        _ => writeln!(formatter, ", {times} times")?,
                    }
                }
                writeln!(formatter, "the call that differs:")
            }
            Self::Levels {
                image,
                arguments,
                level,
                list,
            } => {
                writeln!(formatter, "level {level} against {arguments:?}")?;
                writeln!(formatter, "image   {}", hex(image))?;
                writeln!(formatter, "srom_read at both levels, srom_fresh")?;
                for call in list {
                    writeln!(formatter, "{call}")?;
                }
                writeln!(formatter, "the call that differs:")
            }
            Self::Twins {
                image,
                arguments,
                reports,
            } => {
                writeln!(formatter, "srom_fresh")?;
                writeln!(formatter, "srom_load {arguments:?} [{}]", hex(image))?;
                writeln!(formatter, "under 0xffff and under 0x8800")?;
                for report in reports {
                    writeln!(formatter, "srom_look [{}]", hex(report))?;
                }
                writeln!(formatter, "the call that differs:")
            }
            _ => Ok(()),
        }
    }
}
