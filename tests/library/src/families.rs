//! Families of inputs, each compared in a thread of its own, and the tables of what they counted.

use second::layout::SIZES;
use std::io::{self, Write as _};
use std::thread;

/// Each number that a call can answer is met so often, at each size, and each thing that is counted
/// beside them.
const LEAST_OFTEN: usize = 1_000;

/// The sizes that calls are counted under: the two of ROMs, and any other.
pub const CLASSES: usize = SIZES.len() + 1;

/// The highest number that a call answers.
const HIGHEST_REFUSAL: usize = 38;

/// How often a call answered each number, up to the highest.
#[derive(Clone, Copy)]
pub struct Answered([usize; HIGHEST_REFUSAL + 1]);

impl Default for Answered {
    fn default() -> Self {
        Self([0; HIGHEST_REFUSAL + 1])
    }
}

impl Answered {
    pub fn count(&mut self, number: u8) {
        self.0[usize::from(number)] += 1;
    }

    pub fn calls(&self) -> usize {
        self.0.iter().sum()
    }
}

/// The same at each size.
#[derive(Clone, Copy, Default)]
pub struct Numbers([Answered; CLASSES]);

impl Numbers {
    /// Counts a call of which a size was stated of an image: under that, or, where no ROM has it, under
    /// the image's length.
    pub fn count(&mut self, image: &[u8], stated: u16, number: u8) {
        let of_stated = SIZES.iter().position(|&size| size == stated);
        let of_length = || {
            SIZES
                .iter()
                .position(|&size| usize::from(size) == image.len())
        };
        let class = of_stated.or_else(of_length).unwrap_or(SIZES.len());
        self.0[class].count(number);
    }

    pub fn calls(&self) -> usize {
        self.0.iter().map(Answered::calls).sum()
    }
}

/// A family's name, and what compares its inputs and counts them.
pub type Family<T> = (&'static str, fn() -> T);

/// What the families counted, in their order.
pub fn tallies<T: Send, const COUNT: usize>(families: [Family<T>; COUNT]) -> [T; COUNT] {
    thread::scope(|scope| {
        families
            .map(|(_, family)| scope.spawn(family))
            .map(|thread| thread.join().expect("compares equal"))
    })
}

/// The tables of what a call answered in each family, one for each size.
pub fn numbers_table<const COUNT: usize>(
    call: &str,
    names: &[&str; COUNT],
    answered: [&Numbers; COUNT],
    can_answer: [&[usize]; CLASSES],
    wrong: &mut Vec<String>,
) -> String {
    let sizes = SIZES.iter().map(u16::to_string).chain(["other".into()]);
    let classes = sizes.zip(can_answer).enumerate();
    let tables = classes.map(|(class, (size, can_answer))| {
        let answered = answered.map(|numbers| &numbers.0[class]);
        let title = format!("{call} {size}");
        answered_table(&title, names, answered, can_answer, wrong)
    });
    tables.collect()
}

/// The table of what a call answered in each family, a row for each number that it can answer. Adds
/// what is wrong with it: one of those that was met too seldom, another that was met at all.
pub fn answered_table<const COUNT: usize>(
    call: &str,
    names: &[&str; COUNT],
    answered: [&Answered; COUNT],
    can_answer: &[usize],
    wrong: &mut Vec<String>,
) -> String {
    let mut table = row(call, names, "total");
    for number in 0..answered[0].0.len() {
        let cells = answered.map(|it| it.0[number]);
        let total: usize = cells.iter().sum();
        let is_answer = can_answer.contains(&number);
        if is_answer {
            table += &row(&number.to_string(), &cells, &total.to_string());
        }
        let is_right = match is_answer {
            true => total >= LEAST_OFTEN,
            false => total == 0,
        };
        if !is_right {
            wrong.push(format!("{call} answered {number} {total} times"));
        }
    }
    table
}

/// Rows of what was counted beside numbers, in each family under these titles. Adds what was met too
/// seldom.
pub fn seen_rows<const COUNT: usize>(
    titles: &[impl AsRef<str>],
    seen: [&[usize]; COUNT],
    wrong: &mut Vec<String>,
) -> String {
    let mut rows = String::new();
    for (place, title) in titles.iter().enumerate() {
        let cells = seen.map(|seen| seen[place]);
        rows += &total_row(title.as_ref(), &cells);
        let total: usize = cells.iter().sum();
        if total < LEAST_OFTEN {
            wrong.push(format!("{}: only {total}", title.as_ref()));
        }
    }
    rows
}

/// A row of counts, with their sum.
pub fn total_row(first: &str, cells: &[usize]) -> String {
    row(first, cells, &cells.iter().sum::<usize>().to_string())
}

/// A row of a table.
pub fn row(first: &str, cells: &[impl ToString], last: &str) -> String {
    let cells = cells.iter().map(|cell| format!("{:>9}", cell.to_string()));
    format!("{first:<28}{}{last:>10}\n", cells.collect::<String>())
}

/// Writes a table to the standard error stream itself, so that a run that passes shows it too.
pub fn show(table: &str) {
    io::stderr()
        .write_all(table.as_bytes())
        .expect("standard error is open");
}
