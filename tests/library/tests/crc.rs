//! The CRC calls of the library against the second implementation.

use library::compare::{self, agreed};
use library::families::{Family, Numbers, numbers_table, show, tallies, total_row};
use library::lent::hex;
use second::crc::{self, ID_CRC_OFFSET, ID_LAST_OFFSET, lay_crcs};
use second::images::{Image, WRONG_SIZES};
use second::layout::{LAYOUTS, Layout, SIZES, magic_block, magic_offset};
use second::magic::CRC_OFFSET;
use second::random::Random;

/// How often each call answered each number.
#[derive(Default)]
struct Tally {
    srom: Numbers,
    id: Numbers,
    magic: Numbers,
}

impl Tally {
    /// The calls answer as the second implementation does where this size is stated of an image.
    fn compare(&mut self, image: &[u8], size: u16) {
        for magic in [false, true] {
            let number = agreed(compare::srom_crc(image, Layout::new(size, magic)));
            self.srom.count(image, size, number);
        }
        let number = agreed(compare::id_crc(image, size));
        self.id.count(image, size, number);
        let number = agreed(compare::magic_crc(image, size));
        self.magic.count(image, size, number);
    }
}

fn valid(random: &mut Random, layout: Layout) -> Image {
    let mut image = random.row(layout.size.into());
    lay_crcs(&mut image, layout);
    image
}

fn flip(image: &mut Image, bit: usize) {
    image[bit / 8] ^= 1 << (bit % 8);
}

fn stored_srom_crc(image: &Image, layout: Layout) -> u16 {
    let offset = layout.srom_crc_offset();
    u16::from_le_bytes([image[offset], image[offset + 1]])
}

fn stored_id_crc(image: &Image) -> u16 {
    image[ID_CRC_OFFSET].into()
}

fn stored_magic_crc(image: &Image) -> u16 {
    magic_block(image)[CRC_OFFSET].into()
}

/// "SROM CRC", "ID CRC" and the Magic Packet block's, on any bytes of either size.
fn random_images() -> Tally {
    let (mut tally, mut random) = (Tally::default(), Random::new(1));
    for round in 0..30_000 {
        let size = SIZES[round % 2];
        tally.compare(&random.row(size.into()), size);
    }
    tally
}

/// The same, where few data bits are 1 and the register runs almost alone.
fn sparse_images() -> Tally {
    let (mut tally, mut random) = (Tally::default(), Random::new(2));
    for round in 0..20_000 {
        let size = SIZES[round % 2];
        let mut image = vec![0; size.into()];
        for _ in 0..random.below(5) {
            flip(&mut image, random.below(8 * usize::from(size)));
        }
        tally.compare(&image, size);
    }
    tally
}

/// "126 and 127 are the SROM CRC", or "the SROM CRC at 94", "byte 16 its CRC" and "Byte 126 is a
/// CRC8", or 384 later: a valid image stores what the calls answer.
fn valid_images() -> Tally {
    let (mut tally, mut random) = (Tally::default(), Random::new(3));
    for round in 0..16_000 {
        let layout = LAYOUTS[round % LAYOUTS.len()];
        let image = valid(&mut random, layout);
        tally.compare(&image, layout.size);
        let srom = library::srom_crc(&image, layout);
        assert_eq!(
            srom.value,
            stored_srom_crc(&image, layout),
            "{}",
            hex(&image)
        );
        let id = library::id_crc(&image, layout.size);
        assert_eq!(id.value, stored_id_crc(&image), "{}", hex(&image));
        if layout.magic {
            let magic = library::magic_crc(&image, layout.size);
            assert_eq!(magic.value, stored_magic_crc(&image), "{}", hex(&image));
        }
    }
    tally
}

/// "3 SROM CRC; 4 ID CRC; 29 Magic CRC differs": one flipped bit anywhere in a valid image parts the
/// CRC that covers it from the stored one: the SROM CRC before the board's end and the Magic Packet
/// block's behind it, and in bytes 0 to 17 the ID CRC too.
fn damaged_images() -> Tally {
    let (mut tally, mut random) = (Tally::default(), Random::new(4));
    for round in 0..16 {
        let layout = LAYOUTS[round % LAYOUTS.len()];
        let size = layout.size;
        let image = valid(&mut random, layout);
        for bit in 0..8 * image.len() {
            let mut damaged = image.clone();
            flip(&mut damaged, bit);
            tally.compare(&damaged, size);
            let srom = library::srom_crc(&damaged, layout).value;
            let srom_differs = srom != stored_srom_crc(&damaged, layout);
            let is_board = bit / 8 < layout.board_end();
            assert_eq!(srom_differs, is_board, "{}", hex(&damaged));
            let id_differs = library::id_crc(&damaged, size).value != stored_id_crc(&damaged);
            assert_eq!(id_differs, bit / 8 <= ID_LAST_OFFSET, "{}", hex(&damaged));
            if layout.magic {
                let magic = library::magic_crc(&damaged, size).value;
                let magic_differs = magic != stored_magic_crc(&damaged);
                let is_block = bit / 8 >= magic_offset(size);
                assert_eq!(magic_differs, is_block, "{}", hex(&damaged));
            }
        }
    }
    tally
}

/// "a length other than the stated size, or a stated size other than those two", for all calls; "a
/// refusal's other answer fields are 0": every length up to 600, twice, and two that are a size in
/// their low bits, each stated as it is and as sizes that it has not.
fn every_length() -> Tally {
    let (mut tally, mut random) = (Tally::default(), Random::new(5));
    let bytes = random.row((1 << 16) + 1_000);
    let far = [128, 512].map(|size| size + (1 << 16));
    for length in (0..=600).chain(0..=600).chain(far) {
        let image = &bytes[random.below(256)..][..length];
        let stated = WRONG_SIZES.into_iter().chain(SIZES).chain([length as u16]);
        for stated in stated {
            tally.compare(image, stated);
            let [plain, magic] = [false, true].map(|it| Layout::new(stated, it));
            let is_right = length == stated.into() && (length == 128 || length == 512);
            for answer in [
                library::srom_crc(image, plain),
                library::srom_crc(image, magic),
                library::id_crc(image, stated),
                library::magic_crc(image, stated),
            ] {
                let refused = (answer.number, answer.value) == (1, 0);
                assert_eq!(refused, !is_right, "{length} as {stated}: {answer:?}");
            }
        }
    }
    tally
}

/// "CRC calls: 1 only": both numbers are met a thousand times at each size, and no other. The table of
/// them is shown.
#[test]
fn library_answers_as_second() {
    let families: [Family<Tally>; 5] = [
        ("random", random_images),
        ("sparse", sparse_images),
        ("valid", valid_images),
        ("damaged", damaged_images),
        ("lengths", every_length),
    ];
    let tallies = tallies(families);
    let names = families.map(|(name, _)| name);
    let mut wrong = Vec::new();
    let mut total = [0; 5];
    let calls: [(&str, fn(&Tally) -> &Numbers); 3] = [
        ("crc", |tally| &tally.srom),
        ("id_crc", |tally| &tally.id),
        ("magic", |tally| &tally.magic),
    ];
    for (call, numbers) in calls {
        let answered = tallies.each_ref().map(numbers);
        let can_answer = [&[0, 1][..], &[0, 1], &[1]];
        show(&numbers_table(
            call, &names, answered, can_answer, &mut wrong,
        ));
        total
            .iter_mut()
            .zip(answered)
            .for_each(|(total, it)| *total += it.calls());
    }
    show(&total_row("calls", &total));
    assert!(wrong.is_empty(), "{wrong:?}");
}

/// The CRCs of three images of either size, worked out apart from both implementations: the whole
/// CRC-32 of bytes 0 to 125 and of bytes 0 to 93, or 0 to 509 and 0 to 477, as zlib gives it, and the
/// ID CRC and the Magic Packet block's as remainders of a polynomial division.
#[test]
fn known_values() {
    type Known = ([u32; 2], [u16; 2]);
    let known: [[Known; 3]; 2] = [
        [
            ([0x0AD4_6523, 0x82EB_309C], [0xE1, 0x27]),
            ([0x3A1E_6A15, 0x17D2_10EA], [0xFA, 0xDB]),
            ([0x7075_1FB5, 0x7A64_49EE], [0x22, 0x53]),
        ],
        [
            ([0xAC0D_98F1, 0x810D_DAF8], [0xE1, 0x27]),
            ([0x58B9_DFAA, 0xDEF8_AE42], [0xFA, 0xDB]),
            ([0x5C9D_F21B, 0xE5D6_4631], [0x22, 0x13]),
        ],
    ];
    let accepted = |value| library::Checksum { number: 0, value };
    for (size, known) in SIZES.into_iter().zip(known) {
        let counting: Image = (0..size).map(|offset| offset as u8).collect();
        let images = [vec![0x00; size.into()], vec![0xFF; size.into()], counting];
        for (image, (crc32, [id, magic])) in images.into_iter().zip(known) {
            for (is_magic, crc32) in [false, true].into_iter().zip(crc32) {
                let layout = Layout::new(size, is_magic);
                let covered = &image[..layout.srom_crc_offset()];
                assert_eq!(crc::crc32(covered), crc32, "{}", hex(&image));
                let srom = library::srom_crc(&image, layout);
                assert_eq!(srom, accepted(crc32 as u16), "{}", hex(&image));
            }
            assert_eq!(library::id_crc(&image, size), accepted(id));
            assert_eq!(library::magic_crc(&image, size), accepted(magic));
        }
    }
}
