//! An emulated machine: QEMU with 21143 cards, a kernel, and the guest's shell over a serial port.

use card::Run;
use std::fmt::Write as _;
use std::fs::{self, File};
use std::io::{BufRead, BufReader, Write};
use std::os::unix::net::UnixStream;
use std::process::{Child, Command, Stdio};
use std::thread::sleep;
use std::time::{Duration, Instant};

pub const EMULATOR: &str = "qemu-system-x86_64";

/// A guest that says nothing for so long says nothing more.
const PATIENCE: Duration = Duration::from_secs(180);

/// Cards stand in slots from this one on.
const FIRST_SLOT: usize = 3;

/// The PCI address of a card by its number.
pub fn slot(card: usize) -> String {
    format!("0000:00:{:02x}.0", FIRST_SLOT + card)
}

/// Six bytes as xx:xx:xx:xx:xx:xx.
pub fn station(address: [u8; 6]) -> String {
    address.map(|byte| format!("{byte:02x}")).join(":")
}

/// A machine that runs, in the folder that has its kernel and its first files; it ends with the value.
pub struct Machine {
    emulator: Child,
    shell: BufReader<UnixStream>,
    monitor: BufReader<UnixStream>,
}

impl Drop for Machine {
    fn drop(&mut self) {
        let _ = self.emulator.kill();
        let _ = self.emulator.wait();
    }
}

/// A socket that the emulator is about to open.
fn connect(socket: &str) -> BufReader<UnixStream> {
    let began = Instant::now();
    loop {
        match UnixStream::connect(socket) {
            Ok(stream) => {
                stream.set_read_timeout(Some(PATIENCE)).unwrap();
                return BufReader::new(stream);
            }
            Err(error) => assert!(
                began.elapsed() < Duration::from_secs(10),
                "{socket}: {error}"
            ),
        }
        sleep(Duration::from_millis(20));
    }
}

impl Machine {
    /// Boots a machine with a card for each station address. What its kernel says goes to a file, and so does what the
    /// emulator complains of.
    pub fn boot(name: &str, addresses: &[[u8; 6]]) -> Self {
        let [shell, monitor] = ["shell", "monitor"].map(|it| format!("{name}.{it}"));
        for socket in [&shell, &monitor] {
            let _ = fs::remove_file(socket);
        }
        let mut command = Command::new(EMULATOR);
        command.args(["-accel", "tcg", "-m", "256"]);
        command.args(["-nodefaults", "-display", "none"]);
        command.args(["-kernel", "vmlinuz", "-initrd", "initramfs"]);
        command.args(["-append", "console=ttyS0"]);
        command.args(["-serial", &format!("file:{name}.log")]);
        command.args(["-serial", &format!("unix:{shell},server=on,wait=off")]);
        command.args(["-qmp", &format!("unix:{monitor},server=on,wait=off")]);
        for (card, &address) in addresses.iter().enumerate() {
            let (mac, slot) = (station(address), FIRST_SLOT + card);
            command.args(["-device", &format!("tulip,mac={mac},addr={slot:x}")]);
        }
        let complaints = File::create(format!("{name}.complaints")).unwrap();
        let emulator = command.stdin(Stdio::null()).stderr(complaints).spawn();
        let emulator = emulator.unwrap_or_else(|error| panic!("{EMULATOR}: {error}"));
        let mut machine = Self {
            emulator,
            shell: connect(&shell),
            monitor: connect(&monitor),
        };
        machine.shell_until(|line| line == "= ready");
        machine.answer_of_monitor("QMP");
        machine.command(r#"{"execute": "qmp_capabilities"}"#);
        machine
    }

    /// Resets the machine and boots it again. What its cards' ROMs hold stays.
    pub fn reset(&mut self) {
        self.command(r#"{"execute": "system_reset"}"#);
        self.shell_until(|line| line == "= ready");
    }

    /// All that the emulator holds of the machine, as it would hand it on to another; the machine goes on.
    pub fn state(&mut self) -> Vec<u8> {
        self.command(r#"{"execute": "migrate", "arguments": {"uri": "exec:cat > state"}}"#);
        loop {
            let answer = self.command(r#"{"execute": "query-migrate"}"#);
            assert!(!answer.contains(r#""failed""#), "{answer}");
            if answer.contains(r#""completed""#) {
                break;
            }
            sleep(Duration::from_millis(100));
        }
        self.command(r#"{"execute": "cont"}"#);
        fs::read("state").unwrap()
    }

    /// A line of shell in the guest.
    pub fn run(&mut self, line: &str) -> Run {
        assert!(!line.contains('\n'), "{line}");
        writeln!(self.shell.get_mut(), "{line}").unwrap();
        let mut written = String::new();
        let mut status = None;
        self.shell_until(|line| {
            status = line.strip_prefix("= ").and_then(|it| it.parse().ok());
            if status.is_none() {
                writeln!(written, "{line}").unwrap();
            }
            status.is_some()
        });
        Run {
            written,
            status: status.unwrap(),
        }
    }

    /// A file of the guest; no bytes where there is none.
    pub fn file(&mut self, path: &str) -> Vec<u8> {
        let Run { written, .. } = self.run(&format!("od -A n -v -t x1 {path}"));
        let byte = |digits| u8::from_str_radix(digits, 16).ok();
        let bytes: Option<_> = written.split_whitespace().map(byte).collect();
        bytes.unwrap_or_default()
    }

    /// Reads lines of the guest's shell, up to the last that is wanted.
    fn shell_until(&mut self, mut is_last: impl FnMut(&str) -> bool) {
        loop {
            let line = next_line(&mut self.shell);
            if is_last(line.trim_end()) {
                return;
            }
        }
    }

    /// The monitor's next line that has a key; others tell of events.
    fn answer_of_monitor(&mut self, key: &str) -> String {
        loop {
            let line = next_line(&mut self.monitor);
            assert!(!line.contains(r#""error""#), "{line}");
            if line.contains(&format!("\"{key}\"")) {
                return line;
            }
        }
    }

    fn command(&mut self, command: &str) -> String {
        writeln!(self.monitor.get_mut(), "{command}").unwrap();
        self.answer_of_monitor("return")
    }
}

fn next_line(stream: &mut BufReader<UnixStream>) -> String {
    let mut line = Vec::new();
    let length = stream.read_until(b'\n', &mut line);
    match length {
        Ok(0) => panic!("the machine has ended"),
        Ok(_) => String::from_utf8_lossy(&line).into_owned(),
        Err(error) => panic!("the machine says nothing: {error}"),
    }
}
