//! What was called and answered, as tables.

use library::Form;
use library::editions::Editions;
use library::twins::Shown;
use second::layout::{LAYOUTS, Layout, SIZES};
use second::reader::NEWEST_LEVEL;
use second::sheet::FORMS;

const HIGHEST_REFUSAL: usize = 38;

/// Each refusal of version 1 is answered at least once in so many readings, writings and sheet makings;
/// fewer than so many of all do not tell.
const EDITION_RARITY: u64 = 600;
const TELLING_CALLS: u64 = 10_000;

/// The exported calls.
#[derive(Debug, Clone, Copy)]
pub enum Name {
    SromCrc,
    IdCrc,
    MagicCrc,
    Read,
    View,
    ReadMagic,
    WriteMagic,
    Fresh,
    Load,
    Look,
    Clear,
    Write,
    MakeSheet,
    Widen,
    Narrow,
}

/// Their names without `srom_`, in the same order.
const NAMES: [&str; 15] = [
    "crc",
    "id_crc",
    "magic_crc",
    "read",
    "view",
    "read_magic",
    "write_magic",
    "fresh",
    "load",
    "look",
    "clear",
    "write",
    "make_sheet",
    "widen",
    "narrow",
];

/// The refusals of sheets that are told at the end: all that the converters give, and 33 of the writer.
const TOLD: [(Name, &[usize]); 3] = [
    (Name::Widen, &[24, 12]),
    (Name::Narrow, &[24, 33, 12]),
    (Name::Write, &[33]),
];

/// The layouts that calls are counted under, behind them all whose size no ROM has, and then those that
/// state no layout.
const LAYOUT_CLASSES: usize = LAYOUTS.len() + 2;

/// How often each call answered each number, and how often in each layout, those with sheets in each
/// form too, what demand 3's lists showed, and what looks under an empty connection word showed.
pub struct Tally {
    numbers: [[u64; HIGHEST_REFUSAL + 1]; NAMES.len()],
    /// The calls in each layout, and the one that the next calls count under.
    layouts: [u64; LAYOUT_CLASSES],
    layout: usize,
    /// The calls with sheets of each form, in each layout; a conversion's form is the one that is read.
    forms: [[u64; LAYOUT_CLASSES]; FORMS.len()],
    /// Views that handed back an empty part; they have no number.
    empty_views: u64,
    pub levels: [Level; NEWEST_LEVEL as usize],
    pub fixed: Fixed,
    pub twins: Shown,
    /// What reading, loading, writing and sheet making answered to version 1.
    pub editions: Editions,
}

/// What the lists at one older level showed.
#[derive(Debug, Clone, Copy, Default)]
pub struct Level {
    pub lists: u64,
    /// Lists under the conditions, and those of them with a removed entry.
    pub under_conditions: u64,
    pub with_removed: u64,
    /// The looks that the newest walk accepted under the conditions, and those of them that left a
    /// block selected.
    pub looks: u64,
    pub selections: u64,
}

/// What the lists under a fixed connection type showed, at all older levels together.
#[derive(Debug, Clone, Copy, Default)]
pub struct Fixed {
    pub lists: u64,
    /// Lists under the condition: with a choice that the older level lists, and without a choice.
    pub with_choice: u64,
    pub without_choice: u64,
    /// The looks that the newest walk accepted under the condition.
    pub looks: u64,
}

impl Default for Tally {
    fn default() -> Self {
        Self {
            numbers: [[0; HIGHEST_REFUSAL + 1]; NAMES.len()],
            layouts: [0; LAYOUT_CLASSES],
            layout: 0,
            forms: [[0; LAYOUT_CLASSES]; FORMS.len()],
            empty_views: 0,
            levels: Default::default(),
            fixed: Fixed::default(),
            twins: Shown::default(),
            editions: Editions::default(),
        }
    }
}

impl Tally {
    /// The layout that the next calls count under, if they state one.
    pub fn count_under(&mut self, layout: Option<Layout>) {
        self.layout = match layout {
            Some(layout) => layout.index().unwrap_or(LAYOUTS.len()),
            None => LAYOUTS.len() + 1,
        };
    }

    pub fn count(&mut self, name: Name, number: u8) {
        self.numbers[name as usize][usize::from(number)] += 1;
        self.layouts[self.layout] += 1;
    }

    /// Counts a call with a sheet of this form.
    pub fn count_sheet(&mut self, form: Form, name: Name, number: u8) {
        self.count(name, number);
        self.forms[form as usize][self.layout] += 1;
    }

    pub fn count_view(&mut self, is_empty: bool) {
        match is_empty {
            true => {
                self.empty_views += 1;
                self.layouts[self.layout] += 1;
            }
            false => self.count(Name::View, 0),
        }
    }

    /// The sizes that less than a third of the calls state.
    pub fn rare_sizes(&self) -> Vec<u16> {
        let is_rare = |&size: &u16| {
            let of_size = LAYOUTS
                .iter()
                .zip(self.layouts)
                .filter(|(it, _)| it.size == size);
            3 * of_size.map(|(_, calls)| calls).sum::<u64>() < self.calls()
        };
        SIZES.into_iter().filter(is_rare).collect()
    }

    /// The forms that less than a third of the calls with sheets have.
    pub fn rare_forms(&self) -> Vec<Form> {
        let of_form = |form: Form| self.forms[form as usize].iter().sum::<u64>();
        let all: u64 = FORMS.map(of_form).iter().sum();
        let is_rare = |&form: &Form| 3 * of_form(form) < all;
        FORMS.into_iter().filter(is_rare).collect()
    }

    /// The refusals of version 1 that come too seldom: 11 for each of the codes of the other edition, 14
    /// and 38.
    pub fn rare_editions(&self) -> Vec<String> {
        let calls = [Name::Read, Name::Write, Name::MakeSheet];
        let calls = calls.map(|name| self.numbers[name as usize].iter().sum::<u64>());
        let calls = calls.iter().sum::<u64>();
        if calls < TELLING_CALLS {
            return Vec::new();
        }
        let least = (calls / EDITION_RARITY) as usize;
        let titles = Editions::titles();
        let causes = self.editions.causes();
        let titled = titles[titles.len() - causes.len()..].iter().zip(causes);
        let rare = titled.filter(|(_, often)| **often < least);
        rare.map(|(title, _)| title.clone()).collect()
    }

    /// How often the refusals came that sheets of two forms bring, a line for each call, and what calls
    /// answered to version 1 in its editions.
    pub fn told(&self) -> String {
        let line = |(name, numbers): (Name, &[usize])| {
            let often = |number: &usize| {
                let often = self.numbers[name as usize][*number];
                format!("{number} {often} times")
            };
            let often: Vec<_> = numbers.iter().map(often).collect();
            format!(
                "{} refused with {}\n",
                NAMES[name as usize],
                often.join(", ")
            )
        };
        let editions = Editions::titles().into_iter().zip(self.editions.counts());
        let editions: Vec<_> = editions
            .map(|(title, often)| format!("{title} {often}"))
            .collect();
        TOLD.map(line).concat() + &format!("of version 1: {}\n", editions.join(", "))
    }

    pub fn calls(&self) -> u64 {
        self.numbers.iter().flatten().sum::<u64>() + self.empty_views
    }

    /// The numbers that were answered, a row for each, with a column for each call; then the calls in
    /// each layout, and those with sheets of each form; then the lists of demand 3, a row for each older
    /// level; then those of them under a fixed type; then the looks under 0xFFFF.
    pub fn table(&self) -> String {
        let mut table = row("number", NAMES.map(String::from));
        for number in 0..=HIGHEST_REFUSAL {
            let often = self.numbers.map(|numbers| numbers[number]);
            if often.iter().any(|&often| often > 0) {
                table += &row(&number.to_string(), often.map(cell));
            }
        }
        let mut empty = [0; NAMES.len()];
        empty[Name::View as usize] = self.empty_views;
        table += &row("empty", empty.map(cell));
        let mut calls = self.numbers.map(|numbers| numbers.iter().sum::<u64>());
        calls[Name::View as usize] += self.empty_views;
        table += &row("calls", calls.map(cell));
        let titles = LAYOUTS.map(|Layout { size, magic }| match magic {
            true => format!("{size} magic"),
            false => size.to_string(),
        });
        let [first, second, third, fourth] = titles;
        let titles = [first, second, third, fourth, "other".into(), "none".into()];
        table += &row("\nlayout", titles);
        table += &row("calls", self.layouts.map(cell));
        for (form, calls) in ["narrow", "wide"].into_iter().zip(self.forms) {
            table += &row(form, calls.map(cell));
        }
        let titles = ["lists", "conditions", "removed", "looks", "selected"];
        table += &row("\nolder", titles.map(String::from));
        for (level, seen) in self.levels.iter().enumerate() {
            let cells = [
                seen.lists,
                seen.under_conditions,
                seen.with_removed,
                seen.looks,
                seen.selections,
            ];
            table += &row(&level.to_string(), cells.map(cell));
        }
        let titles = ["lists", "with choice", "without", "looks"];
        table += &row("\ntype", titles.map(String::from));
        let Fixed {
            lists,
            with_choice,
            without_choice,
            looks,
        } = self.fixed;
        table += &row(
            "fixed",
            [lists, with_choice, without_choice, looks].map(cell),
        );
        let titles = ["lists", "looks", "selected", "kept"];
        table += &row("\ntype", titles.map(String::from));
        let Shown {
            lists,
            looks,
            selections,
            kept,
        } = self.twins;
        let cells = [lists, looks, selections, kept].map(|often| cell(often as u64));
        table += &row("0xffff", cells);
        table
    }
}

/// A number that is 0 leaves its cell empty.
fn cell(often: u64) -> String {
    match often {
        0 => String::new(),
        _ => often.to_string(),
    }
}

fn row<const CELLS: usize>(first: &str, cells: [String; CELLS]) -> String {
    let cells = cells.map(|cell| format!("{cell:>12}")).concat();
    format!("{first:<7}{cells}").trim_end().to_owned() + "\n"
}
