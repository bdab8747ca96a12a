//! Blocks for a leaf: one maker for each kind, and random blocks that may stand together.

use crate::edition::Rules;
use crate::random::Random;
use crate::reader::{
    ACTIVE_INVALID, COMMAND_RESERVED, COMPACT, DEFAULT, EXT, EXTENDED, MEDIA_21041, NEWEST_LEVEL,
    POWER, RESET,
};
use crate::sheet::LONGEST_BODY;

/// The first extended type that no level knows.
pub const FIRST_UNKNOWN: u8 = NEWEST_LEVEL;

/// A 21041 block, with the values of three registers or without.
pub fn media(code: u8, registers: Option<[u8; 6]>) -> Vec<u8> {
    match registers {
        None => vec![code],
        Some(registers) => [&[EXT | code], registers.as_slice()].concat(),
    }
}

pub fn compact(code: u8, port_data: u8, command: u16) -> Vec<u8> {
    let [low, high] = command.to_le_bytes();
    vec![code, port_data, low, high]
}

/// An extended block of any type: its length, the type and the rest.
pub fn extended(kind: u8, body: &[u8]) -> Vec<u8> {
    let length = 1 + body.len() as u8;
    [&[EXTENDED | length, kind], body].concat()
}

/// Type 0, the compact form in an extended block.
pub fn non_mii(code: u8, port_data: u8, command: u16) -> Vec<u8> {
    extended(0, &compact(code, port_data, command))
}

/// Type 2, with the values of three registers or without.
pub fn sia(code: u8, registers: Option<[u8; 6]>, control: u16, data: u16) -> Vec<u8> {
    let body = [media(code, registers), words(&[control, data])].concat();
    extended(2, &body)
}

/// Type 4.
pub fn symbol(code: u8, control: u16, data: u16, command: u16) -> Vec<u8> {
    let body = [vec![code], words(&[control, data, command])].concat();
    extended(4, &body)
}

/// Type 5.
pub fn reset(sequence: &[u16]) -> Vec<u8> {
    let body = [vec![sequence.len() as u8], words(sequence)].concat();
    extended(5, &body)
}

/// Type 6.
pub fn power(mode: u8, sequence: &[u16]) -> Vec<u8> {
    let body = [vec![mode, sequence.len() as u8], words(sequence)].concat();
    extended(6, &body)
}

/// The fields of a PHY block. A word of a sequence is two bytes, so type 3 needs even lengths.
#[derive(Debug, Clone, Default)]
pub struct Phy {
    pub number: u8,
    pub select: Vec<u8>,
    pub reset: Vec<u8>,
    pub capabilities: u16,
    pub advertisement: u16,
    pub full_duplex: u16,
    pub threshold: u16,
    /// The last byte, in type 3 only.
    pub removal: u8,
}

/// Type 1 or type 3.
pub fn phy(kind: u8, phy: &Phy) -> Vec<u8> {
    let unit = phy_unit(kind.into());
    let mut body = vec![phy.number, (phy.select.len() / unit) as u8];
    body.extend(&phy.select);
    body.push((phy.reset.len() / unit) as u8);
    body.extend(&phy.reset);
    body.extend(words(&[
        phy.capabilities,
        phy.advertisement,
        phy.full_duplex,
        phy.threshold,
    ]));
    if kind == 3 {
        body.push(phy.removal);
    }
    extended(kind, &body)
}

/// How many bytes one step of a PHY block's sequences has: type 3 counts words.
pub fn phy_unit(kind: u16) -> usize {
    if kind == 3 { 2 } else { 1 }
}

/// A block of a type that no level knows, mostly short.
pub fn unknown(random: &mut Random) -> Vec<u8> {
    let kind = match random.below(3) {
        0 => FIRST_UNKNOWN + random.below(4) as u8,
        _ => unknown_type(random),
    };
    let most = if random.one_in(8) { LONGEST_BODY } else { 10 };
    let length = random.below(most);
    extended(kind, &random.row(length))
}

/// A type that no level knows.
fn unknown_type(random: &mut Random) -> u8 {
    let types = usize::from(u8::MAX - FIRST_UNKNOWN) + 1;
    FIRST_UNKNOWN + random.below(types) as u8
}

/// Blocks for the last places of a leaf, so many as are left, or none where no block is so small or
/// one alone would be too long.
pub fn filling(random: &mut Random, rules: Rules, left: usize) -> Vec<Vec<u8>> {
    match rules.chip {
        21041 => (0..left).map(|_| media(1, None)).collect(),
        _ if rules.have_extended_blocks() && (2..=2 + LONGEST_BODY).contains(&left) => {
            let body = random.row(left - 2);
            vec![extended(unknown_type(random), &body)]
        }
        _ => vec![],
    }
}

/// As many blocks as have room, of the smallest size that the rules have: of one byte, of unknown types
/// without body, or compact and never the default.
pub fn smallest(random: &mut Random, rules: Rules, room: usize) -> impl Iterator<Item = Vec<u8>> {
    let is_21041 = rules.chip == 21041;
    let mut block = move || match is_21041 {
        true => media(random.pick(&[0, 1, 2, 4]), None),
        false if rules.have_extended_blocks() => extended(unknown_type(random), &[]),
        false => compact(random.pick(&[4, 5, 8]), random.byte(), 0),
    };
    let count = room / block().len();
    (0..count).map(move |_| block())
}

/// Draws blocks for one leaf: at most one default and one type 5, and either that or PHYs with
/// reset sequences; and each bit of the mode byte in at most one power block.
pub struct Deck {
    rules: Rules,
    resets_phys: bool,
    has_reset: bool,
    has_default: bool,
    /// The mode bits of the power blocks that were drawn.
    modes: u8,
}

impl Deck {
    pub fn new(random: &mut Random, rules: Rules) -> Self {
        Self {
            rules,
            resets_phys: random.one_in(2),
            has_reset: false,
            has_default: false,
            modes: 0,
        }
    }

    /// A block of a kind that the rules permit or of an unknown type. A leaf that has a power block
    /// often gets another.
    pub fn draw(&mut self, random: &mut Random) -> Vec<u8> {
        let has_types = self.rules.chip != 21041 && self.rules.have_extended_blocks();
        if has_types && random.one_in(4) {
            return unknown(random);
        }
        if self.modes != 0 && random.one_in(2) {
            return self.power(random);
        }
        match random.pick(&self.rules.kinds()) {
            MEDIA_21041 => media(random.pick(&[0, 1, 2, 4]), registers(random)),
            COMPACT => {
                let (code, command) = self.medium(random, &[0, 1, 3, 4, 5, 6, 7, 8]);
                compact(code, random.byte(), command & !COMMAND_RESERVED)
            }
            0 => {
                let (code, command) = self.medium(random, &[0, 1, 3, 4, 5, 6, 7, 8]);
                non_mii(code, random.byte(), command & !COMMAND_RESERVED)
            }
            2 => sia(
                random.pick(&[0, 1, 2, 4]),
                registers(random),
                random.word(),
                random.word(),
            ),
            4 => {
                let (code, command) = self.medium(random, &[3, 5, 6, 7, 8]);
                symbol(code, random.word(), random.word(), command)
            }
            RESET if self.resets_phys || self.has_reset => self.draw(random),
            RESET => {
                self.has_reset = true;
                reset(&sequence(random))
            }
            POWER => self.power(random),
            kind => self.phy(random, kind),
        }
    }

    /// A code and a command, which sets the default bit where it counts only once.
    fn medium(&mut self, random: &mut Random, codes: &[u8]) -> (u8, u16) {
        let code = random.pick(codes);
        let top_bits = random.pick(&[0, DEFAULT, DEFAULT, ACTIVE_INVALID | DEFAULT]);
        let mut command = random.word() >> 2 | top_bits;
        let counts = command & (ACTIVE_INVALID | DEFAULT) == DEFAULT && ![4, 5, 8].contains(&code);
        if counts && self.has_default {
            command |= ACTIVE_INVALID;
        }
        self.has_default |= counts;
        (code, command)
    }

    /// A power block whose mode has no bit that was drawn before, and once in a while none at all.
    fn power(&mut self, random: &mut Random) -> Vec<u8> {
        let mode = random.byte() & random.byte() & !self.modes;
        self.modes |= mode;
        power(mode, &sequence(random))
    }

    fn phy(&self, random: &mut Random, kind: u16) -> Vec<u8> {
        let unit = phy_unit(kind);
        let mut sequence = |is_there: bool| {
            let most = if random.one_in(8) { 20 } else { 4 };
            let steps = if is_there { random.below(most) } else { 0 };
            random.row(unit * steps)
        };
        let (select, reset) = (sequence(true), sequence(self.resets_phys));
        let capabilities = random.word() | random.word();
        let advertisement = random.word();
        let advertisable = capabilities >> 6 & 0x03E0;
        let fields = Phy {
            number: random.byte(),
            select,
            reset,
            capabilities,
            advertisement: advertisement & !(0x03E0 & !advertisable),
            full_duplex: random.word(),
            threshold: random.word(),
            removal: random.byte(),
        };
        phy(kind as u8, &fields)
    }
}

/// A few words for the General Purpose Register.
fn sequence(random: &mut Random) -> Vec<u16> {
    let length = random.below(4);
    (0..length).map(|_| random.word()).collect()
}

fn registers(random: &mut Random) -> Option<[u8; 6]> {
    random.one_in(2).then(|| random.bytes())
}

fn words(words: &[u16]) -> Vec<u8> {
    words.iter().flat_map(|word| word.to_le_bytes()).collect()
}
