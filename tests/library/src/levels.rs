//! Demand 3 on real runs: the newest level against one below it, over one image and one list of
//! calls. Its two conditions are those of an autosensed type; "Under a fixed type one condition
//! replaces demand 3's two" (document 02, request 5).

use crate::compare::{self, Difference, Pair};
use crate::lent::hex;
use crate::{Answer, Arguments, Walk};
use second::calls::Call;
use second::reader::{COMPACT, HIGHEST_COUNT, NEWEST_LEVEL, NO_DEFAULT, RESET, read_all};
use second::walk::{Autosense, NONE, Way};

/// "arrays no shorter than the block count".
const LENGTHS: (usize, usize) = (HIGHEST_COUNT, HIGHEST_COUNT);

/// An older level against the newest, for one image.
pub struct Older<'a> {
    image: &'a [u8],
    newest: Arguments,
    older: Arguments,
    /// The block numbers of the removed entries.
    pub removed: Vec<usize>,
    /// Demand 3's first condition is that it is not.
    pub is_default_removed: bool,
    /// The newest choice under a fixed connection type; none under an autosensed one.
    pub choice: Option<Choice>,
}

/// What the newest walk selects under a fixed connection type.
#[derive(Debug, Clone, Copy, PartialEq, Eq)]
pub enum Choice {
    /// An entry that the older level lists.
    Listed,
    /// No listed block has the medium.
    Missing,
    /// A removed entry, so that the condition is not met; and whether the older level lists another
    /// block with the medium.
    Removed { has_other: bool },
}

/// What a list showed.
#[derive(Default)]
pub struct Shown {
    /// The first call after which the walks were not alike.
    pub difference: Option<Difference>,
    /// Demand 3's second condition is that there was none in the looks that the newest walk
    /// accepted.
    pub had_removed_up: bool,
    /// The looks that were accepted, and those of them that left a block selected.
    pub looks: usize,
    pub selections: usize,
    /// The looks at a loaded walk, and those of them that the newest and the older level refused
    /// with 32.
    pub loaded_looks: usize,
    pub without_medium: [usize; 2],
}

impl<'a> Older<'a> {
    /// Sets a level against the newest; none where the newest reader does not accept the image.
    pub fn new(image: &'a [u8], arguments: Arguments, level: u8) -> Option<Self> {
        let newest = Arguments {
            level: NEWEST_LEVEL,
            ..arguments
        };
        let (answer, entries) = read_all(image, newest);
        if answer.number > 0 {
            return None;
        }
        let older = Arguments { level, ..newest };
        let loaded = |arguments| {
            let mut walk = Autosense::default();
            walk.load(image, arguments);
            walk.walk()
        };
        let walk = loaded(newest);
        let numbers = block_numbers(&walk);
        assert_eq!(numbers.len(), entries.len(), "the walk lists the table");
        let removed: Vec<_> = numbers
            .into_iter()
            .zip(entries)
            .filter(|&(_, (kind, _))| is_removed(kind, level))
            .map(|(number, _)| number)
            .collect();
        let is_default_removed = removed.contains(&answer.default_number.into());
        let is_fixed = Way::of(answer.connection) == Way::Fixed;
        let choice = is_fixed.then(|| match walk.fixed_choice() {
            None => Choice::Missing,
            Some(block) if removed.contains(&block) => Choice::Removed {
                has_other: loaded(older).fixed_choice().is_some(),
            },
            Some(_) => Choice::Listed,
        });
        Some(Self {
            image,
            newest,
            older,
            removed,
            is_default_removed,
            choice,
        })
    }

    /// Whether both walks must have been alike after each call of a list that showed this: "a walk
    /// below the newest level matches whenever the newest choice is an entry that it lists, or
    /// there is none"; under an autosensed type "the default medium must be none of the removed
    /// entries, and no accepted look may have a removed entry up".
    pub fn is_promised(&self, shown: &Shown) -> bool {
        match self.choice {
            Some(choice) => !matches!(choice, Choice::Removed { .. }),
            None => !self.is_default_removed && !shown.had_removed_up,
        }
    }

    /// What demand 3 says of the two answers and tables.
    pub fn compare_tables(&self) -> Result<(), Difference> {
        let newest = compare::read(self.image, self.newest, LENGTHS)?;
        let older = compare::read(self.image, self.older, LENGTHS)?;
        let level = self.older.level;
        let answer = newest.answer;
        let removed = self.removed.len() as u8;
        let lost_resets = if RESET < level.into() {
            0
        } else {
            answer.resets
        };
        // Power blocks are of a type that only the newest knows.
        let expected_answer = Answer {
            listed: answer.listed - removed,
            resets: answer.resets - lost_resets,
            skipped: answer.skipped + removed + lost_resets + answer.power,
            power: 0,
            default_number: if self.is_default_removed {
                NO_DEFAULT
            } else {
                answer.default_number
            },
            ..answer
        };
        let mut expected_table = newest.table();
        expected_table.retain(|&(kind, _)| !is_removed(kind, level));
        let expected = (expected_answer, expected_table);
        let read = (older.answer, older.table());
        match read == expected {
            true => Ok(()),
            false => Err(Difference {
                call: self.text("srom_read"),
                answers: vec![
                    ("older", format!("{read:?}")),
                    ("demand", format!("{expected:?}")),
                ],
                faults: Vec::new(),
            }),
        }
    }

    /// The list with the removed entries down in the looks that the newest walk accepts, and in no
    /// others: demand 3's second condition. Under a fixed type, which has no such condition, the list
    /// as it is.
    pub fn keep_down(&self, mut list: Vec<Call>) -> Vec<Call> {
        if self.choice.is_some() {
            return list;
        }
        let mut walk = Autosense::default();
        for call in &mut list {
            match call {
                Call::Load => walk.load(self.image, self.newest),
                Call::Clear => walk.clear(),
                Call::Look(report) => {
                    let number = walk.look(report);
                    if number == 0 {
                        self.removed.iter().for_each(|&block| report[block] = 0);
                    }
                    number
                }
            };
        }
        list
    }

    /// Runs a list on two fresh walks, one for each level; `count` is told of each call and its
    /// number.
    pub fn run(
        &self,
        list: &[Call],
        mut count: impl FnMut(&Call, u8),
    ) -> Result<Shown, Difference> {
        let (mut newest, mut older) = (Pair::fresh()?, Pair::fresh()?);
        let mut shown = Shown::default();
        for call in list {
            let was_loaded = newest.library.loaded;
            let newest_number = newest.call(call, self.image, self.newest)?;
            let older_number = older.call(call, self.image, self.older)?;
            count(call, newest_number);
            count(call, older_number);
            let newest_seen = compared(newest_number, &newest.library);
            let older_seen = compared(older_number, &older.library);
            if newest_seen != older_seen && shown.difference.is_none() {
                shown.difference = Some(Difference {
                    call: self.text(&call.to_string()),
                    answers: vec![
                        ("newest", format!("{newest_seen:?}")),
                        ("older", format!("{older_seen:?}")),
                    ],
                    faults: Vec::new(),
                });
            }
            let Call::Look(report) = call else {
                continue;
            };
            shown.loaded_looks += usize::from(was_loaded);
            shown.without_medium[0] += usize::from(newest_number == 32);
            shown.without_medium[1] += usize::from(older_number == 32);
            if newest_number == 0 {
                shown.had_removed_up |= self.removed.iter().any(|&block| report[block] == 1);
                shown.looks += 1;
                shown.selections += usize::from(newest.library.selected != NONE);
            }
        }
        Ok(shown)
    }

    fn text(&self, call: &str) -> String {
        let (arguments, level) = (self.newest, self.older.level);
        let image = hex(self.image);
        format!("{call} at level {level} against {arguments:?}\nimage   {image}")
    }
}

/// "A removed entry is one of the newest table whose kind is a type not below the older level (256
/// and 257 are no types)."
fn is_removed(kind: u16, level: u8) -> bool {
    kind < COMPACT && kind >= level.into()
}

/// "Compared after each call of the list are acceptance or refusal number, then fresh or loaded,
/// and if loaded, settled, selected block number or none, looks and switches."
fn compared(number: u8, walk: &Walk) -> (u8, Option<(bool, u8, u16, u16)>) {
    let state = (walk.settled, walk.selected, walk.looks, walk.switches);
    (number, walk.loaded.then_some(state))
}

/// The block numbers of the entries that a walk lists, in table order.
fn block_numbers(walk: &Walk) -> Vec<usize> {
    let numbers = (0..walk.rows.listed.len()).rev();
    numbers
        .filter(|&number| walk.rows.listed[number] == 1)
        .collect()
}
