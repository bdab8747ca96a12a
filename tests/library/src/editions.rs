//! What calls answer to images and sheets of version 1, by the edition (document 02, request 12).

use crate::Arguments;
use second::edition::{CODES, EDITIONS, FIRST_VERSION, Rules};
use second::layout::{LAYOUTS, Layout};
use second::reader::controller_offset;
use second::sheet::{CONNECTION, Form, KINDS, VERSION};

/// What is counted: calls and acceptances in each edition, 1.01 first; 11 for each of the codes that the
/// other edition would read; 14, which no block of version 1 gets but an extended one; 38.
const CALLS: usize = 0;
const ACCEPTED: usize = CALLS + EDITIONS.len();
const OTHER_CODE: usize = ACCEPTED + EDITIONS.len();
const EXTENDED: usize = OTHER_CODE + CODES.len();
const OTHER_CHIP: usize = EXTENDED + 1;
const COUNTED: usize = OTHER_CHIP + 1;

/// How often each of these was met.
#[derive(Debug, Clone, Copy, Default)]
pub struct Editions([usize; COUNTED]);

impl Editions {
    /// The names of what is counted, in its order.
    pub fn titles() -> [String; COUNTED] {
        let [a, b, c, d] = CODES.map(|code| format!("11 {code:#06x}"));
        let [later, first, read_later, read_first, extended, chip] = [
            "1.01 calls",
            "1.00 calls",
            "1.01 accepted",
            "1.00 accepted",
            "14 version 1",
            "38",
        ]
        .map(String::from);
        [
            later, first, read_later, read_first, a, b, c, d, extended, chip,
        ]
    }

    pub fn counts(&self) -> &[usize] {
        &self.0
    }

    /// The causes of refusals, without calls and acceptances.
    pub fn causes(&self) -> &[usize] {
        &self.0[OTHER_CODE..]
    }

    /// The acceptances in each edition, 1.01 first.
    pub fn accepted(&self) -> &[usize] {
        &self.0[ACCEPTED..OTHER_CODE]
    }

    pub fn add(&mut self, other: &Self) {
        let sums = self.0.iter_mut().zip(other.0);
        sums.for_each(|(sum, often)| *sum += often);
    }

    /// Counts a call that answered a number to an image, where it is of version 1.
    pub fn count_image(&mut self, image: &[u8], arguments: Arguments, number: u8) {
        // Nothing of an image of another size is read.
        if number != 1 {
            let rules = Rules::of(image, arguments);
            self.count(rules, || connection_of(image, arguments), number);
        }
    }

    /// Counts a sheet making, which is of controller 0, in the same way.
    pub fn count_made(&mut self, image: &[u8], arguments: Arguments, number: u8) {
        let first = Arguments {
            controller: 0,
            ..arguments
        };
        self.count_image(image, first, number);
    }

    /// Counts a writing that answered a number to a sheet, where it is of version 1.
    pub fn count_sheet(&mut self, sheet: &[u8], form: Form, first_edition: bool, number: u8) {
        if sheet.len() < form.place(KINDS) {
            return;
        }
        let rules = Rules {
            chip: form.chip(sheet),
            version: sheet[form.place(VERSION)],
            first_edition,
        };
        self.count(rules, || word(sheet, form.place(CONNECTION)), number);
    }

    fn count(&mut self, rules: Rules, connection: impl FnOnce() -> u16, number: u8) {
        if rules.version != FIRST_VERSION {
            return;
        }
        let edition = usize::from(rules.first_edition);
        self.0[CALLS + edition] += 1;
        let cause = match number {
            0 => Some(ACCEPTED + edition),
            11 => other_code(rules, connection()).map(|code| OTHER_CODE + code),
            14 => Some(EXTENDED),
            38 => Some(OTHER_CHIP),
            _ => None,
        };
        if let Some(cause) = cause {
            self.0[cause] += 1;
        }
    }
}

/// The place among the codes of one that the other edition would read.
fn other_code(rules: Rules, connection: u16) -> Option<usize> {
    let other = Rules {
        first_edition: !rules.first_edition,
        ..rules
    };
    let is_read = other.permit(connection);
    CODES.iter().position(|&code| is_read && code == connection)
}

/// The connection type of the leaf that the arguments name, of an image that is not refused before it.
fn connection_of(image: &[u8], arguments: Arguments) -> u16 {
    let leaf = word(image, controller_offset(arguments.controller.into()) + 1);
    word(image, leaf.into())
}

fn word(bytes: &[u8], place: usize) -> u16 {
    u16::from_le_bytes([bytes[place], bytes[place + 1]])
}

/// The counts of each layout, under titles with its name.
pub fn by_layout(counted: &[Editions; LAYOUTS.len()]) -> Vec<usize> {
    let counts = counted.iter().flat_map(|editions| editions.0);
    counts.collect()
}

pub fn titles_by_layout() -> Vec<String> {
    let of_layout = |layout| Editions::titles().map(|title| titled(layout, &title));
    LAYOUTS.into_iter().flat_map(of_layout).collect()
}

/// A title with a layout's name.
pub fn titled(Layout { size, magic }: Layout, title: &str) -> String {
    let magic = if magic { " magic" } else { "" };
    format!("{size}{magic} {title}")
}

#[cfg(test)]
mod tests {
    use super::*;
    use second::images::Card;

    /// Each cause is counted under its own title, and no version but 1.
    #[test]
    fn counted() {
        let titles = Editions::titles();
        let met = |version, chip, code, first_edition, number| {
            let mut card = Card::tidy(chip, code, vec![]);
            card.version = version;
            let arguments = Arguments::newest(chip).in_edition(first_edition);
            let mut editions = Editions::default();
            editions.count_image(&card.image(), arguments, number);
            let met = editions.0.iter().zip(&titles);
            let met: Vec<_> = met.filter(|(often, _)| **often > 0).collect();
            met.iter()
                .map(|(_, it)| it.as_str())
                .collect::<Vec<_>>()
                .join(", ")
        };
        assert_eq!(met(1, 21140, 0x0200, true, 0), "1.00 calls, 1.00 accepted");
        assert_eq!(met(1, 21140, 0x0205, false, 0), "1.01 calls, 1.01 accepted");
        assert_eq!(met(1, 21140, 0x0203, false, 11), "1.01 calls, 11 0x0203");
        assert_eq!(met(1, 21041, 0x0204, true, 11), "1.00 calls, 11 0x0204");
        assert_eq!(met(1, 21041, 0x0203, false, 11), "1.01 calls");
        assert_eq!(met(1, 21140, 0x0800, true, 14), "1.00 calls, 14 version 1");
        assert_eq!(met(1, 21143, 0x0800, false, 38), "1.01 calls, 38");
        assert_eq!(met(1, 21140, 0x0800, false, 16), "1.01 calls");
        assert_eq!(met(4, 21140, 0x0200, false, 11), "");
        assert_eq!(met(3, 21140, 0x0800, false, 0), "");
    }
}
