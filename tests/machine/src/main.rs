//! `tests/machine/run` starts it. A line for each check, and `N passed, M failed` at the end.

mod checks;
mod driver;
mod emulator;
mod roms;
mod samples;

use card::Run;
use checks::Checks;
use std::process::{Command, ExitCode};
use std::time::Instant;

/// What `dump` prints of a card in a slot.
fn dumped(slot: &str) -> Run {
    let read = format!("{slot}, a 21142 or 21143: 64 words, each read twice alike");
    Run {
        written: read + "\n128 bytes are written\n",
        status: 0,
    }
}

fn main() -> ExitCode {
    std::env::set_current_dir(card::root().join("target/machine")).unwrap();
    let version = Command::new(emulator::EMULATOR).arg("--version").output();
    let version = String::from_utf8(version.unwrap().stdout).unwrap();
    println!("{}", version.lines().next().unwrap());
    let began = Instant::now();
    let mut checks = Checks::default();
    roms::check(&mut checks);
    samples::check(&mut checks);
    println!("{} s", began.elapsed().as_secs());
    println!("{} passed, {} failed", checks.passed, checks.failed);
    ExitCode::from(u8::from(checks.failed > 0))
}
