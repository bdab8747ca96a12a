//! Document 02, request 4, on real runs: "Such a card walks as 0x8800 does."

use crate::compare::{Difference, walk_text, walked_text};
use crate::lent::hex;
use crate::{Walk, Walked};
use second::walk::{AUTOSENSE, AUTOSENSE_ONCE, EMPTY_CONNECTION, NONE};

/// Two walks that are equal but for the connection type: 0xFFFF in one and 0x8800 in the other.
pub struct Twins {
    empty: Walk,
    once: Walk,
}

/// What lists of looks showed.
#[derive(Debug, Clone, Copy, Default)]
pub struct Shown {
    pub lists: usize,
    /// The looks that were accepted, those of them that left a block selected, and those that would
    /// have left a walk under 0x0800 elsewhere.
    pub looks: usize,
    pub selections: usize,
    pub kept: usize,
}

impl Shown {
    pub fn add(&mut self, other: Self) {
        self.lists += other.lists;
        self.looks += other.looks;
        self.selections += other.selections;
        self.kept += other.kept;
    }
}

impl Twins {
    /// With the other fields of a walk.
    pub fn of(walk: Walk) -> Self {
        Self {
            empty: under(EMPTY_CONNECTION, walk),
            once: under(AUTOSENSE_ONCE, walk),
        }
    }

    /// Takes a look at both for each report; `count` is told of its number.
    pub fn look_at_all(
        &mut self,
        reports: &[Vec<u8>],
        mut count: impl FnMut(u8),
    ) -> Result<Shown, Difference> {
        let mut shown = Shown {
            lists: 1,
            ..Shown::default()
        };
        for report in reports {
            let every_look = crate::look(under(AUTOSENSE, self.empty), report);
            let number = self.look(report)?;
            count(number);
            if number == 0 {
                let selected = self.empty.selected;
                shown.looks += 1;
                shown.selections += usize::from(selected != NONE);
                shown.kept += usize::from(selected != every_look.walk.selected);
            }
        }
        Ok(shown)
    }

    /// The number that a look at both answers, which must leave them equal but for the type.
    fn look(&mut self, report: &[u8]) -> Result<u8, Difference> {
        let [empty, once] = [self.empty, self.once].map(|walk| crate::look(walk, report));
        let is_typed = empty.walk.connection == EMPTY_CONNECTION;
        let expected = Walked {
            number: empty.number,
            walk: under(AUTOSENSE_ONCE, empty.walk),
        };
        if !is_typed || once != expected {
            let (report, before) = (hex(report), walk_text(&self.empty));
            return Err(Difference {
                call: format!("srom_look\nreport  {report}\nbefore  {before}"),
                answers: [("0xffff", empty), ("0x8800", once)]
                    .map(|(whose, walked)| (whose, walked_text(&walked)))
                    .to_vec(),
                faults: Vec::new(),
            });
        }
        (self.empty, self.once) = (empty.walk, once.walk);
        Ok(empty.number)
    }
}

/// The same walk under another connection type.
fn under(connection: u16, walk: Walk) -> Walk {
    Walk { connection, ..walk }
}
