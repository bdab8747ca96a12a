//! The cases a to j that document 01 gives for reading ("Blocks to prove"), as whole images with
//! the leaf at 30, case k, which walks over one of them, and what the document says of each.

use crate::images::{Card, Image, block};
use crate::reader::Arguments;
use crate::walk::NONE;

/// A case and the answer to it.
pub struct Case {
    /// The letter, and a word more for the second of two.
    pub name: &'static str,
    /// What the leaf holds.
    pub shows: &'static str,
    pub image: Image,
    pub arguments: Arguments,
    pub expected: Expected,
}

/// What document 01 says of a case.
pub enum Expected {
    /// Kind and byte offset of each entry, and how many blocks are skipped.
    Accepted(&'static [(u16, u16)], u8),
    Refused(u8),
}

/// Case k under a connection type.
pub struct CaseK {
    pub connection: u16,
    /// The selected block after each of the reports.
    pub selected: [u8; 3],
    pub switches: u16,
}

/// The reports of case k.
pub const REPORTS_K: [[u8; 3]; 3] = [[0, 0, 0], [1, 0, 1], [1, 0, 0]];

/// "k b, reports 000, 101, 100: none, block 2, block 0, 2 switches; under 0x8800: none, 2, 2, 1
/// switch"; under 0xFFFF, by document 02, request 4, "as 0x8800 does".
pub const CASES_K: [CaseK; 3] = [
    CaseK {
        connection: 0x0800,
        selected: [NONE, 2, 0],
        switches: 2,
    },
    CaseK {
        connection: 0x8800,
        selected: [NONE, 2, 2],
        switches: 1,
    },
    CaseK {
        connection: 0xFFFF,
        selected: [NONE, 2, 2],
        switches: 1,
    },
];

/// The card of case b under a connection type.
pub fn card_b(connection: u16) -> Card {
    Card::tidy(21143, connection, around_unknown())
}

fn around_unknown() -> Vec<Vec<u8>> {
    vec![sia(0), vec![0x81, 0x09], sia(1)]
}

fn sia(code: u8) -> Vec<u8> {
    vec![0x86, 0x02, code, 0x01, 0x00, 0x02, 0x00]
}

pub fn cases() -> Vec<Case> {
    use Expected::{Accepted, Refused};
    let newest = Arguments::newest;
    let level_2 = Arguments::at_level(21143, 2);
    let case = |name, shows, arguments: Arguments, blocks: Vec<Vec<u8>>, expected| Case {
        name,
        shows,
        image: Card::tidy(arguments.chip, 0x0800, blocks).image(),
        arguments,
        expected,
    };
    let phy = |advertisement| {
        let fields = block::Phy {
            capabilities: 0x7800,
            advertisement,
            ..block::Phy::default()
        };
        vec![block::phy(1, &fields)]
    };
    let reset = vec![0x82, 0x05, 0x00];
    let long = |first| {
        let mut block = vec![0x55; 1 + usize::from(first & 0x7F)];
        block[..2].copy_from_slice(&[first, 0x09]);
        vec![block]
    };
    vec![
        case(
            "a",
            "one block of type 2",
            newest(21143),
            vec![sia(0)],
            Accepted(&[(2, 33)], 0),
        ),
        case(
            "b",
            "an unknown type between two blocks of type 2",
            newest(21143),
            around_unknown(),
            Accepted(&[(2, 42), (2, 33)], 1),
        ),
        case(
            "c",
            "the image of case b, for a reader of level 2: it lists none and skips 3",
            level_2,
            around_unknown(),
            Accepted(&[], 3),
        ),
        case(
            "d",
            "an extended block of length 0",
            newest(21143),
            vec![vec![0x80]],
            Refused(14),
        ),
        case(
            "e",
            "type 2 with length 5",
            newest(21143),
            vec![vec![0x85, 0x02, 0x00, 0x01, 0x00, 0x02]],
            Refused(15),
        ),
        case(
            "f",
            "type 2 with EXT and length 6",
            newest(21143),
            vec![sia(0x40)],
            Refused(15),
        ),
        case(
            "g",
            "a compact block, which this chip does not have",
            newest(21143),
            vec![vec![0x00; 4]],
            Refused(14),
        ),
        case(
            "h",
            "a PHY that advertises what it is capable of",
            newest(21140),
            phy(0x01E0),
            Accepted(&[(1, 34)], 0),
        ),
        case(
            "h-refused",
            "a PHY that advertises one medium more",
            newest(21140),
            phy(0x03E0),
            Refused(17),
        ),
        case(
            "i",
            "two blocks of type 5",
            newest(21143),
            vec![reset.clone(), reset],
            Refused(18),
        ),
        case(
            "j",
            "an unknown type whose last byte stands at 123",
            newest(21143),
            long(0xDA),
            Accepted(&[], 1),
        ),
        case(
            "j-refused",
            "an unknown type whose last byte would stand at 124",
            newest(21143),
            long(0xDB),
            Refused(13),
        ),
    ]
}
