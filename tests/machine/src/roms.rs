//! The emulator's own ROMs: "`dump` in the guest gives QEMU's ROM, by memory and again after the driver was bound and
//! unbound; both CRCs, which QEMU seals itself, are accepted for a dozen random station addresses; `./card read` accepts it,
//! and refuses it with 3 in the Magic layout".

use crate::checks::{About, Checks};
use crate::dumped;
use crate::emulator::{Machine, slot, station};
use card::{Run, root, shell};
use second::crc::lay_crcs;
use second::layout::{Layout, SMALL};
use second::random::Random;
use std::fs;
use std::path::Path;

const CARDS: usize = 12;

/// How `dump` ends where it fails.
fn failed(lines: &[&str]) -> Run {
    let lines = lines.iter().map(|line| format!("{line}\n"));
    Run {
        written: lines.collect(),
        status: 2,
    }
}

pub fn check(checks: &mut Checks) {
    let mut random = Random::new(21143);
    let addresses = [(); CARDS].map(|()| {
        let mut address = random.bytes::<6>();
        // The lowest bit of the first byte is for groups of stations.
        address[0] &= 0xFE;
        address
    });
    let mut machine = Machine::boot("dozen", &addresses);
    print!("{}", machine.run("uname -srv").written);
    readme(checks);
    complaints(checks, &mut machine);
    let roms: Vec<_> = (0..CARDS)
        .map(|card| first_dump(checks, &mut machine, card, addresses[card]))
        .collect();
    let state = machine.state();
    machine.run("insmod /tulip.ko");
    for (card, rom) in roms.iter().enumerate() {
        let name = station(addresses[card]);
        let mut about = checks.about(&name);
        // The emulator keeps words with the high byte first.
        let words = rom.chunks(2).flat_map(|word| [word[1], word[0]]);
        let kept: Vec<_> = words.collect();
        let places = state.windows(usize::from(SMALL)).filter(|it| *it == kept);
        about.same("what the emulator holds", places.count(), 1);
        dump_again(&mut about, &mut machine, card, rom);
    }
}

/// More than one card, and someone who is not root.
fn complaints(checks: &mut Checks, machine: &mut Machine) {
    let mut about = checks.about("a dozen cards");
    let cards = (0..CARDS).map(|card| format!("      {}, a 21142 or 21143", slot(card)));
    let cards: Vec<_> = cards.collect();
    let mut lines = vec!["card: more than one card is found; --pci ADDRESS says which is meant"];
    lines.extend(cards.iter().map(String::as_str));
    about.same("each listed", machine.run("dump rom"), failed(&lines));
    let found = machine.run("su nobody -c 'dump --pci 00:03.0 rom'");
    let alone = "card: root alone can reach the registers of the card at 0000:00:03.0";
    about.same("not root", found, failed(&[alone]));
}

/// README.md shows what `dump` prints of a card in slot 4, as it prints it here.
fn readme(checks: &mut Checks) {
    let readme = fs::read_to_string(root().join("README.md")).unwrap();
    let lines = dumped("0000:00:04.0").written;
    let shown: String = lines.lines().map(|line| format!("    {line}\n")).collect();
    let mut about = checks.about("README.md");
    about.same("what dump prints", readme.contains(&shown), true);
}

/// A card as it comes, or asleep and without memory space: it is dumped, and is as it was.
fn first_dump(
    checks: &mut Checks,
    machine: &mut Machine,
    card: usize,
    address: [u8; 6],
) -> Vec<u8> {
    let (slot, name) = (slot(card), station(address));
    let mut about = checks.about(&name);
    let config = format!("/sys/bus/pci/devices/{slot}/config");
    if card % 2 == 1 {
        let dd = format!("dd of={config} bs=1 conv=notrunc 2>/dev/null");
        machine.run(&format!("printf '\\0\\0' | {dd} seek=4"));
        machine.run(&format!("printf '\\0\\0\\0\\200' | {dd} seek=64"));
        let asleep = machine.file(&config);
        let is_asleep = asleep[4..6] == [0, 0] && asleep[64..68] == [0, 0, 0, 0x80];
        about.same("asleep", is_asleep, true);
    }
    let before = machine.file(&config);
    let found = machine.run(&format!("dump --pci {slot} rom-{card}"));
    about.same("dumped", found, dumped(&slot));
    about.same("configured as before", machine.file(&config), before);
    let rom = machine.file(&format!("rom-{card}"));
    let mut sealed = rom.clone();
    sealed.resize(SMALL.into(), 0);
    sealed[20..26].copy_from_slice(&address);
    lay_crcs(&mut sealed, Layout::PLAIN);
    about.same("its address and both CRCs", rom.as_slice(), &sealed);
    verdicts(&mut about, &name, &rom);
    rom
}

/// What `./card read` says of it in either layout.
fn verdicts(about: &mut About, address: &str, rom: &[u8]) {
    let file = "target/machine/dumped.rom";
    fs::write(root().join(file), rom).unwrap();
    let read = |option| {
        let line = format!("./card read {file} 21143{option}");
        shell(&line, Path::new("/nowhere"))
    };
    let accepted = read("");
    about.same("./card read accepts it", accepted.status, 0);
    let shown = format!("station address  {address}\n");
    about.same("with its address", accepted.written.contains(&shown), true);
    let Run { written, status } = read(" --magic");
    let number = written.split(':').next();
    let refused = (Some("REFUSED 3"), 1);
    about.same("and refuses it with --magic", (number, status), refused);
}

/// A card that the driver has is not dumped; the line that `dump` gives takes it away, and then it is.
fn dump_again(about: &mut About, machine: &mut Machine, card: usize, rom: &[u8]) {
    let slot = slot(card);
    let dump = format!("dump --pci {slot} again-{card}");
    let found = machine.run(&dump);
    let unbind = format!("      echo {slot} > /sys/bus/pci/drivers/tulip/unbind");
    let bound = format!("card: the driver 'tulip' has the card at {slot}; to take it away:");
    about.same("the driver has it", found, failed(&[&bound, &unbind]));
    machine.run(&unbind);
    let found = machine.run(&dump);
    about.same("dumped behind the driver", found, dumped(&slot));
    let again = machine.file(&format!("again-{card}"));
    about.same("the same bytes", again.as_slice(), rom);
}
