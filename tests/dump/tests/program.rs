//! `dump` over a folder that stands for /sys/bus/pci/devices, with plain files in it: the words that it takes, which card it
//! chooses, and what keeps it from reading one. The registers are a file, so that no part answers.

use dump::{Folder, compile, complaint, failed, text};
use std::fs;
use std::os::unix::fs::{MetadataExt, symlink};
use std::os::unix::process::CommandExt;
use std::process::{Command, Output};

/// The registers stand here in their page.
const START: usize = 0x480;

/// What the registers' file and the configuration hold.
const FILL: u8 = 0xA5;

/// The program, and slots beside it.
struct Machine {
    folder: Folder,
}

impl Machine {
    fn new(test: &str) -> Self {
        let folder = Folder::new(test);
        compile(
            "bench/dump.c",
            &["-DDEVICES=\"devices\""],
            &folder.join("dump"),
        );
        Self { folder }
    }

    fn write(&self, address: &str, name: &str, bytes: impl AsRef<[u8]>) {
        fs::write(self.folder.join(format!("devices/{address}/{name}")), bytes).unwrap();
    }

    fn read(&self, address: &str, name: &str) -> Vec<u8> {
        fs::read(self.folder.join(format!("devices/{address}/{name}"))).unwrap()
    }

    /// Puts a device into a slot.
    fn insert(&self, address: &str, vendor: u16, device: u16) {
        fs::create_dir_all(self.folder.join(format!("devices/{address}"))).unwrap();
        self.write(address, "vendor", format!("0x{vendor:04x}\n"));
        self.write(address, "device", format!("0x{device:04x}\n"));
        self.write(address, "enable", "-\n");
        self.write(address, "config", [FILL; 256]);
        self.write(address, "resource1", [FILL; 4096]);
        let line = |first: usize| {
            format!(
                "0x{first:016x} 0x{:016x} 0x0000000000040200\n",
                first + 0x7f
            )
        };
        let resource = line(0xc000) + &line(0xfebf_1000 + START) + &line(0);
        self.write(address, "resource", resource);
    }

    fn command(&self, words: &[&str]) -> Command {
        let mut command = Command::new(self.folder.join("dump"));
        command.args(words).current_dir(&self.folder.path);
        command
    }

    fn run(&self, words: &[&str]) -> Output {
        let output = self.command(words).output().unwrap();
        assert!(!self.folder.join("out").exists());
        assert_eq!(text(&output.stdout), "");
        output
    }

    fn complaint(&self, words: &[&str]) -> (String, Option<i32>) {
        complaint(&self.run(words))
    }

    fn is_root(&self) -> bool {
        fs::metadata(&self.folder.path).unwrap().uid() == 0
    }
}

const NO_CARD: [&str; 2] = [
    "card: no card is found in this machine",
    "      it would be a 21041, 21140, 21142, 21143 or 21145 on the PCI bus",
];

/// The words are judged first, as those of the other commands are.
#[test]
fn words() {
    let machine = Machine::new("words");
    let help = "      ./card help says which words each takes";
    let once = "      each is given at most once";
    let options = "      dump takes --pci ADDRESS and --force";
    let cases: [(&[&str], [&str; 2]); 9] = [
        (&[], ["card: the command takes more words: 'dump'", help]),
        (
            &["--force"],
            ["card: the command takes more words: 'dump'", help],
        ),
        (&["out", "in"], ["card: a word too many: 'in'", help]),
        (
            &["out", "--level"],
            ["card: the command takes no such option: '--level'", options],
        ),
        (
            &["--force", "out", "--force"],
            ["card: the option is given twice: '--force'", once],
        ),
        (
            &["--pci", "1", "--pci", "1"],
            ["card: the option is given twice: '--pci'", once],
        ),
        (
            &["out", "--pci"],
            [
                "card: no address behind the option: '--pci'",
                "      --pci ADDRESS is as 0000:00:04.0, or 00:04.0",
            ],
        ),
        (&["out"], NO_CARD),
        (&["--pci", "00:04.0", "out", "--force"], NO_CARD),
    ];
    for (words, expected) in cases {
        assert_eq!(machine.complaint(words), failed(&expected), "{words:?}");
    }
}

/// "vendor 0x1011; 0x0014 21041, 0x0009 21140, 0x0019 21142 and 21143, 0x0039 21145": no other device is a card.
#[test]
fn no_card() {
    let machine = Machine::new("none");
    assert_eq!(machine.complaint(&["out"]), failed(&NO_CARD));
    machine.insert("0000:00:01.0", 0x8086, 0x0019);
    machine.insert("0000:00:02.0", 0x1011, 0x0002);
    machine.insert("0000:00:03.0", 0x1011, 0x0024);
    assert_eq!(machine.complaint(&["out"]), failed(&NO_CARD));
    fs::create_dir_all(machine.folder.join("devices/0000:00:04.0")).unwrap();
    assert_eq!(machine.complaint(&["out"]), failed(&NO_CARD));
}

const FOUR: [(&str, u16, &str); 4] = [
    ("0000:00:0a.0", 0x0039, "      0000:00:0a.0, a 21145"),
    ("0000:02:04.0", 0x0014, "      0000:02:04.0, a 21041"),
    ("0000:02:05.0", 0x0009, "      0000:02:05.0, a 21140"),
    (
        "0001:00:03.0",
        0x0019,
        "      0001:00:03.0, a 21142 or 21143",
    ),
];

/// "more than one (each listed with its address)", in the order of the addresses; and --pci says which.
#[test]
fn more_than_one() {
    let machine = Machine::new("more");
    for (address, device, _) in FOUR.iter().rev() {
        machine.insert(address, 0x1011, *device);
    }
    fn more(first: &str) -> (String, Option<i32>) {
        let [a, b, c, d] = FOUR.map(|(_, _, line)| line);
        failed(&[first, a, b, c, d])
    }
    let expected = more("card: more than one card is found; --pci ADDRESS says which is meant");
    assert_eq!(machine.complaint(&["out"]), expected);
    for address in ["02:06.0", "00:03.0", "0000", ""] {
        let first = format!("card: no card is at this address: '{address}'; there are");
        assert_eq!(machine.complaint(&["--pci", address, "out"]), more(&first));
    }
    for (word, address) in [
        ("0000:02:05.0", "0000:02:05.0"),
        ("02:04.0", "0000:02:04.0"),
        ("00:0A.0", "0000:00:0a.0"),
        ("0000:00:0A.0", "0000:00:0a.0"),
        ("0001:00:03.0", "0001:00:03.0"),
    ] {
        let (said, status) = machine.complaint(&["--pci", word, "out"]);
        assert!(said.contains(&format!(" {address}")), "{word}: {said}");
        assert!(!said.contains("no card"), "{word}: {said}");
        assert_eq!(status, Some(2));
    }
}

/// The only card is not meant where another address is given.
#[test]
fn elsewhere() {
    let machine = Machine::new("elsewhere");
    machine.insert("0000:00:04.0", 0x1011, 0x0019);
    let expected = [
        "card: no card is at this address: '00:05.0'; there is",
        "      0000:00:04.0, a 21142 or 21143",
    ];
    let found = machine.complaint(&["--pci", "00:05.0", "out"]);
    assert_eq!(found, failed(&expected));
}

/// "not root", who can see the cards and no more.
#[test]
fn not_root() {
    let machine = Machine::new("root");
    machine.insert("0000:00:04.0", 0x1011, 0x0019);
    let mut command = machine.command(&["out"]);
    if machine.is_root() {
        command.uid(65534);
    }
    let output = command.output().unwrap();
    let expected = "card: root alone can reach the registers of the card at 0000:00:04.0";
    assert_eq!(complaint(&output), failed(&[expected]));
}

/// One card, for a test that only root can run.
fn as_root(test: &str) -> Option<Machine> {
    let machine = Machine::new(test);
    machine.insert("0000:00:04.0", 0x1011, 0x0019);
    let is_root = machine.is_root();
    if !is_root {
        println!("not run: only root gets so far");
    }
    is_root.then_some(machine)
}

/// "a driver still bound (its name, and the line that unbinds it)": nothing of the card is touched.
#[test]
fn driver() {
    let Some(machine) = as_root("driver") else {
        return;
    };
    let driver = machine.folder.join("devices/0000:00:04.0/driver");
    symlink("../../../bus/pci/drivers/tulip", driver).unwrap();
    let expected = [
        "card: the driver 'tulip' has the card at 0000:00:04.0; to take it away:",
        "      echo 0000:00:04.0 > /sys/bus/pci/drivers/tulip/unbind",
    ];
    assert_eq!(machine.complaint(&["out"]), failed(&expected));
    assert_eq!(machine.read("0000:00:04.0", "enable"), b"-\n");
}

/// The file that is missing, or too short, or no memory space.
#[test]
fn missing() {
    for name in ["config", "enable", "resource1"] {
        let Some(machine) = as_root(&format!("missing-{name}")) else {
            return;
        };
        let path = format!("devices/0000:00:04.0/{name}");
        fs::remove_file(machine.folder.join(&path)).unwrap();
        let expected = format!("{path}: No such file or directory");
        assert_eq!(machine.complaint(&["out"]), failed(&[&expected]));
    }
    let Some(machine) = as_root("missing-bytes") else {
        return;
    };
    machine.write("0000:00:04.0", "config", [FILL; 64]);
    let expected = "devices/0000:00:04.0/config: Input/output error";
    assert_eq!(machine.complaint(&["out"]), failed(&[expected]));
    assert_eq!(machine.read("0000:00:04.0", "enable"), b"-\n");
    let Some(machine) = as_root("missing-memory") else {
        return;
    };
    let expected = "card: the card at 0000:00:04.0 has been given no memory space";
    for resource in [
        "0xc000 0xc07f 0x40101\n0 0 0\n",
        "0xc000 0xc07f 0x40101\n",
        "",
    ] {
        machine.write("0000:00:04.0", "resource", resource);
        assert_eq!(machine.complaint(&["out"]), failed(&[expected]));
    }
}

/// Registers that hold what is written to them: no part drives its pin. Of them CSR9 alone is written, and is left at 0; and
/// the configuration is as it was, with the device no longer enabled.
#[test]
fn nothing_is_left_changed() {
    let Some(machine) = as_root("changed") else {
        return;
    };
    let address = "0000:00:04.0";
    let (said, status) = machine.complaint(&["out"]);
    let expected = "card: the ROM of 0000:00:04.0 answers nothing: its data pin stays at 0\n";
    assert!(said.starts_with(expected), "{said}");
    assert_eq!(status, Some(2));
    let mut registers = [FILL; 4096];
    registers[START + 0x48..][..4].fill(0);
    assert_eq!(machine.read(address, "resource1"), registers);
    assert_eq!(machine.read(address, "config"), [FILL; 256]);
    assert_eq!(machine.read(address, "enable"), b"0\n");
}
