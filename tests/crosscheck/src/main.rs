//! Drives every call of the library against the second implementation, and looks under 0xFFFF against
//! looks under 0x8800, with random, damaged and sequenced inputs:
//! `cargo run --release -p crosscheck -- SECONDS SEED [ROUNDS]`. Where ROUNDS is given, it decides
//! instead of the clock. The status is 0, 1 at a difference, which is shown with the smallest input
//! found for it, or where either size has less than a third of the calls, or either form of the calls
//! with sheets, or a refusal of version 1 comes too seldom, and 2 for wrong arguments.

mod input;
mod rounds;
mod shrink;
mod tally;

use input::Input;
use library::compare::Difference;
use rounds::Rounds;
use shrink::shrink;
use std::env;
use std::process::ExitCode;
use std::time::{Duration, Instant};
use tally::Tally;

/// The clock is asked once in so many rounds.
const ROUNDS_A_LOOK: u64 = 16;

/// What the command line asks for.
#[derive(Debug, PartialEq, Eq)]
struct Options {
    seconds: u64,
    seed: u64,
    rounds: Option<u64>,
}

impl Options {
    /// None for arguments that are not two or three numbers.
    fn parse(arguments: &[String]) -> Option<Self> {
        let numbers = arguments.iter().map(|argument| argument.parse().ok());
        let numbers: Vec<u64> = numbers.collect::<Option<_>>()?;
        let (seconds, seed, rounds) = match numbers[..] {
            [seconds, seed] => (seconds, seed, None),
            [seconds, seed, rounds] => (seconds, seed, Some(rounds)),
            _ => return None,
        };
        Some(Self {
            seconds,
            seed,
            rounds,
        })
    }

    /// Whether so many rounds are enough.
    fn is_over(&self, rounds: u64, start: Instant) -> bool {
        match self.rounds {
            Some(most) => rounds >= most,
            None => {
                let is_asked = rounds.is_multiple_of(ROUNDS_A_LOOK);
                is_asked && start.elapsed() >= Duration::from_secs(self.seconds)
            }
        }
    }
}

fn main() -> ExitCode {
    let arguments: Vec<_> = env::args().skip(1).collect();
    let Some(options) = Options::parse(&arguments) else {
        eprintln!("usage: crosscheck SECONDS SEED [ROUNDS]");
        return ExitCode::from(2);
    };
    let start = Instant::now();
    let mut tally = Tally::default();
    let mut drawn = Rounds::new(options.seed);
    let mut rounds = 0;
    let mut differing = None;
    while differing.is_none() && !options.is_over(rounds, start) {
        let mut inputs = drawn.next().into_iter().flatten();
        differing = inputs.find(|input| input.compare(&mut tally).is_err());
        rounds += 1;
    }
    print!("{}\n{}", tally.table(), tally.told());
    println!(
        "\nseed {}, rounds {rounds}, calls {}, differences {}",
        options.seed,
        tally.calls(),
        usize::from(differing.is_some()),
    );
    let Some(input) = differing else {
        let (sizes, forms) = (tally.rare_sizes(), tally.rare_forms());
        let editions = tally.rare_editions();
        if !sizes.is_empty() {
            println!("less than a third of the calls state a size of {sizes:?}");
        }
        if !forms.is_empty() {
            println!("less than a third of the calls with sheets are {forms:?}");
        }
        if !editions.is_empty() {
            println!("too few calls are answered {editions:?}");
        }
        let is_complete = sizes.is_empty() && forms.is_empty() && editions.is_empty();
        return ExitCode::from(u8::from(!is_complete));
    };
    println!("\nround {rounds} differs; the smallest input found:");
    let (input, difference) = smallest(input);
    print!("{input}{difference}");
    ExitCode::from(1)
}

/// The smallest input by one that differs, and its difference.
fn smallest(input: Input) -> (Input, Difference) {
    let difference = |input: &Input| input.compare(&mut Tally::default()).err();
    let input = shrink(input, |smaller| difference(smaller).is_some());
    let difference = difference(&input).expect("the smallest input differs");
    (input, difference)
}

#[cfg(test)]
mod tests {
    use super::*;

    fn parse(line: &str) -> Option<Options> {
        let arguments: Vec<_> = line.split(' ').map(String::from).collect();
        Options::parse(&arguments)
    }

    #[test]
    fn right_usage() {
        let by_clock = Options {
            seconds: 20,
            seed: 1,
            rounds: None,
        };
        assert_eq!(parse("20 1"), Some(by_clock));
        let by_rounds = Options {
            seconds: 0,
            seed: 18_446_744_073_709_551_615,
            rounds: Some(5),
        };
        assert_eq!(parse("0 18446744073709551615 5"), Some(by_rounds));
    }

    #[test]
    fn bad_usage() {
        for line in ["", "20", "20 x", "-1 1", "20 1 2 3", "20 1 x", "20 1.5"] {
            assert_eq!(parse(line), None, "{line}");
        }
    }
}
