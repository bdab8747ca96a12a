//! Buffers to lend to a call, between guards that it must not touch.

use std::fmt::LowerHex;

/// The elements of a guard: an odd number, so that lent bytes stand at odd addresses.
const GUARD: usize = 33;

/// Elements to lend, with a guard before them and one after.
pub struct Lent<A> {
    cells: Vec<A>,
}

impl<A: Copy + PartialEq + From<u8> + LowerHex> Lent<A> {
    pub fn new(elements: &[A]) -> Self {
        let mut cells = Vec::with_capacity(elements.len() + 2 * GUARD);
        cells.extend(pattern::<A>(GUARD));
        cells.extend(elements);
        cells.extend(pattern::<A>(GUARD));
        Self { cells }
    }

    /// So many elements that a call may write to.
    pub fn pattern(length: usize) -> Self {
        Self::new(&pattern(length).collect::<Vec<_>>())
    }

    pub fn elements(&self) -> &[A] {
        &self.cells[GUARD..self.cells.len() - GUARD]
    }

    pub fn elements_mut(&mut self) -> &mut [A] {
        let end = self.cells.len() - GUARD;
        &mut self.cells[GUARD..end]
    }

    /// What is wrong after a call that had to leave these elements and the guards; none where all
    /// is right.
    pub fn fault(&self, name: &str, expected: &[A]) -> Option<String> {
        let (before, rest) = self.cells.split_at(GUARD);
        let (elements, after) = rest.split_at(rest.len() - GUARD);
        let mut faults = Vec::new();
        if elements != expected {
            faults.push(format!("{name} {}, not {}", hex(elements), hex(expected)));
        }
        for (place, guard) in [("before", before), ("after", after)] {
            if !guard.iter().copied().eq(pattern(GUARD)) {
                faults.push(format!("the guard {place} {name} {}", hex(guard)));
            }
        }
        (!faults.is_empty()).then(|| faults.join(", "))
    }
}

/// Elements that differ from their neighbours, and from every kind and offset of a table.
fn pattern<A: From<u8>>(length: usize) -> impl Iterator<Item = A> {
    (0..length).map(|index| A::from(0x80 + (index * 37 % 127) as u8))
}

pub fn hex<A: LowerHex>(elements: &[A]) -> String {
    let width = 2 * size_of::<A>();
    let digits = |element| format!("{element:0width$x}");
    elements.iter().map(digits).collect()
}

#[cfg(test)]
mod tests {
    use super::*;

    /// Elements that are as expected between whole guards have no fault.
    #[test]
    fn whole() {
        let mut lent = Lent::<u16>::pattern(3);
        assert_eq!(lent.fault("kinds", &[0x80, 0xA5, 0xCA]), None);
        lent.elements_mut()[2] = 257;
        assert_eq!(lent.fault("kinds", &[0x80, 0xA5, 257]), None);
        assert_eq!(
            lent.fault("kinds", &[0x80, 0xA5, 0xCA]).as_deref(),
            Some("kinds 008000a50101, not 008000a500ca")
        );
    }

    /// A change of any element of a guard is a fault.
    #[test]
    fn touched_guards() {
        for length in [0, 5] {
            let right = Lent::<u8>::pattern(length);
            for touched in (0..GUARD).chain(GUARD + length..2 * GUARD + length) {
                let mut lent = Lent::<u8>::pattern(length);
                lent.cells[touched] ^= 1;
                assert!(lent.fault("buffer", right.elements()).is_some());
            }
        }
    }
}
