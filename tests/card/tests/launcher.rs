//! The launcher `./card` in a folder of its own, with a stand-in for `rt` that sleeps and writes as `rt run` does:
//! what it says while the tool is built, and that nothing is left running. Needs `bash` and `script`.

use card::root;
use std::env;
use std::fs;
use std::os::unix::fs::PermissionsExt;
use std::os::unix::process::ExitStatusExt;
use std::path::{Path, PathBuf};
use std::process::{self, Child, Command, Output, Stdio};
use std::thread::{self, sleep};
use std::time::{Duration, Instant};

/// Tests each shell, side by side: `sh` is often dash.
fn each_shell(test: impl Fn(&'static str) + Sync) {
    thread::scope(|scope| {
        for shell in ["sh", "bash"] {
            let test = &test;
            scope.spawn(move || test(shell));
        }
    });
}

const FIRST: &str = "card: proving and building the tool first, which takes some minutes";
const LAST: &str = "card: it could not be built; target/card.log says why";

/// Four crates in three layers, one that `card` does not stand on, and a library of the kit.
const CRATES: &str = "# name: others
base:
left: base   # and nothing else
right: base
other: base
card: left right base io
";

/// The crates are proved one after another, as the real one does: each is named as it is begun, and one that has not changed is
/// passed over. The file `unchanged` names such crates, `fails` one that cannot be proved, and `slow` says how long the third takes.
const RT: &str = r#"#!/bin/sh
[ "$* in ${PWD##*/}" = "run -- help in card" ] || exit 2
cd ../..
prove() {
    sleep "$2" & echo "$!" >>pids
    wait
    case " $(cat fails) " in *" $1 "*) echo "logic=not-proved"; exit 1 ;; esac
    echo "logic=proved functions=1"
}
echo "$$" >>pids
for crate in base left right card; do
    case " $(cat unchanged) " in *" $crate "*) continue ;; esac
    time=0.1
    [ "$crate" != right ] || time=$(cat slow)
    echo "rt: chose --jobs 2 for $crate"
    prove "$crate" "$time" &
    echo "$!" >>pids
    if ! wait "$!"; then
        echo "rt: the library $crate did not build, so nothing above it was checked"
        exit 1
    fi
done
mkdir -p crates/card/out
cp program crates/card/out/card
echo "rt: running out/card; to give it other input, run that file yourself"
crates/card/out/card help 3>/dev/null
"#;

/// Says its words, and reports status 1.
const PROGRAM: &str = "#!/bin/sh\necho \"said $*\"\nprintf 1 >&3\n";

/// A repository with the launcher, and nothing built. It stands outside this one, where `rt` would find files of Rattle that
/// no crate has, and goes with the test.
struct Bench {
    folder: PathBuf,
    shell: &'static str,
}

impl Drop for Bench {
    fn drop(&mut self) {
        let _ = fs::remove_dir_all(&self.folder);
    }
}

impl Bench {
    fn new(test: &str, shell: &'static str) -> Self {
        let name = format!("card-launcher-{test}-{shell}-{}", process::id());
        let folder = env::temp_dir().join(name);
        fs::create_dir_all(&folder).unwrap();
        let folder = folder.canonicalize().unwrap();
        for name in ["bin", "crates/base/src", "crates/card/src"] {
            fs::create_dir_all(folder.join(name)).unwrap();
        }
        for (name, text) in [
            ("crates.txt", CRATES),
            ("crates/base/src/lib.rt", ""),
            ("bin/rt", RT),
            ("program", PROGRAM),
            ("unchanged", ""),
            ("fails", ""),
            ("slow", "0.2"),
        ] {
            fs::write(folder.join(name), text).unwrap();
        }
        for name in ["bin/rt", "program"] {
            fs::set_permissions(folder.join(name), fs::Permissions::from_mode(0o755)).unwrap();
        }
        fs::copy(root().join("card"), folder.join("card")).unwrap();
        Self { folder, shell }
    }

    /// One whose build takes long enough to be watched.
    fn slow(test: &str, shell: &'static str) -> Self {
        let bench = Self::new(test, shell);
        bench.write("slow", "2");
        bench
    }

    fn write(&self, name: &str, text: &str) {
        fs::write(self.folder.join(name), text).unwrap();
    }

    /// A command that finds the stand-in first.
    fn command(&self, program: &str) -> Command {
        let path = std::env::var("PATH").unwrap();
        let bin = self.folder.join("bin");
        let mut command = Command::new(program);
        // From elsewhere: the launcher finds its repository by itself.
        command
            .current_dir("/")
            .env("PATH", format!("{}:{path}", bin.display()));
        command
    }

    /// The launcher in its shell. No signal is ignored, as some are where the tests run in the background.
    fn launcher(&self) -> Command {
        let mut command = self.command("env");
        command
            .args(["--default-signal=HUP,INT,TERM", self.shell])
            .arg(self.folder.join("card"))
            .args(["read", "it"]);
        command
    }

    /// What the launcher writes to a terminal, and its exit status.
    fn on_a_terminal(&self) -> (String, Option<i32>) {
        let card = self.folder.join("card");
        let line = format!("{} {} read it", self.shell, card.display());
        let mut script = self.command("script");
        let script = script.args(["-qec", &line, "/dev/null"]);
        let output = script.stdin(Stdio::null()).output().unwrap();
        let written = text(&output.stdout).replace("\r\n", "\n");
        (written, output.status.code())
    }

    fn run(&self) -> Output {
        self.launcher().output().unwrap()
    }

    /// The processes that the stand-in has started, and itself.
    fn processes(&self) -> Vec<String> {
        let pids = fs::read_to_string(self.folder.join("pids")).unwrap_or_default();
        pids.lines().map(str::to_owned).collect()
    }
}

fn text(bytes: &[u8]) -> String {
    String::from_utf8(bytes.to_vec()).unwrap()
}

/// What was said on standard error, without the seconds.
fn said(output: &Output) -> Vec<String> {
    let written = text(&output.stderr);
    let is_plain = |it: char| it == '\n' || !it.is_control();
    assert!(written.chars().all(is_plain), "{written:?}");
    let without_seconds = |line: &str| match line.rsplit_once(", ") {
        Some((begin, seconds)) if seconds.ends_with(" s") => begin.to_owned(),
        _ => line.to_owned(),
    };
    written.lines().map(without_seconds).collect()
}

/// Each crate that is proved has a line, one that has not changed only counts, and a tool that is built says nothing.
#[test]
fn plain_lines() {
    each_shell(|shell| {
        let bench = Bench::new("plain", shell);
        let output = bench.run();
        let expected = [
            FIRST,
            "card: base proved, 1 of 4 crates",
            "card: left proved, 2 of 4 crates",
            "card: right proved, 3 of 4 crates",
            "card: card proved, 4 of 4 crates",
        ];
        assert_eq!(said(&output), expected, "{shell}");
        assert_eq!(text(&output.stdout), "said read it\n", "{shell}");
        assert_eq!(output.status.code(), Some(1), "{shell}");
        let again = bench.run();
        assert_eq!((again.stdout, again.stderr), (output.stdout, vec![]));
        assert_eq!(again.status.code(), Some(1), "{shell}");

        bench.write("unchanged", "base right");
        sleep(Duration::from_millis(20));
        bench.write("crates/base/src/lib.rt", "// newer\n");
        let output = bench.run();
        let expected = [
            FIRST,
            "card: left proved, 2 of 4 crates",
            "card: card proved, 4 of 4 crates",
        ];
        assert_eq!(said(&output), expected, "{shell}");
        assert_eq!(output.status.code(), Some(1), "{shell}");
    });
}

/// A build that fails ends with 2 and says where the log is, after what was proved.
#[test]
fn failing_build() {
    each_shell(|shell| {
        let bench = Bench::new("failing", shell);
        bench.write("fails", "right");
        let output = bench.run();
        let expected = [
            FIRST,
            "card: base proved, 1 of 4 crates",
            "card: left proved, 2 of 4 crates",
            LAST,
        ];
        assert_eq!(said(&output), expected, "{shell}");
        assert!(output.stdout.is_empty(), "{shell}");
        assert_eq!(output.status.code(), Some(2), "{shell}");
        let log = fs::read_to_string(bench.folder.join("target/card.log")).unwrap();
        assert!(log.contains("rt: the library right did not build"), "{log}");
    });
}

/// Where there is no `rt`, the launcher says the same.
#[test]
fn no_toolchain() {
    each_shell(|shell| {
        let bench = Bench::new("none", shell);
        fs::remove_file(bench.folder.join("bin/rt")).unwrap();
        let output = bench.launcher().env("PATH", "/usr/bin:/bin").output();
        let output = output.unwrap();
        assert_eq!(said(&output), [FIRST, LAST], "{shell}");
        assert_eq!(output.status.code(), Some(2), "{shell}");
    });
}

/// Says its words, and ends with their count.
const DUMP: &str = r#"#include <stdio.h>
int main(int argc, char **argv)
{
    for (int i = 1; i < argc; i++)
        puts(argv[i]);
    return argc - 1;
}
"#;

/// `dump` is compiled and run, with its words and its status, where there is no `rt`; it leaves nothing behind.
#[test]
fn dump_is_compiled() {
    each_shell(|shell| {
        let bench = Bench::new("dump", shell);
        fs::remove_file(bench.folder.join("bin/rt")).unwrap();
        for name in ["bench", "temporary"] {
            fs::create_dir(bench.folder.join(name)).unwrap();
        }
        let run = |source| {
            bench.write("bench/dump.c", source);
            let mut launcher = bench.command(shell);
            launcher.arg(bench.folder.join("card"));
            launcher.args(["dump", "--pci", "a b", "out"]);
            launcher.env("TMPDIR", bench.folder.join("temporary"));
            let output = launcher.output().unwrap();
            let left = fs::read_dir(bench.folder.join("temporary")).unwrap();
            assert_eq!(left.count(), 0, "{shell}");
            assert!(!bench.folder.join("target").exists(), "{shell}");
            output
        };
        let output = run(DUMP);
        assert_eq!(text(&output.stdout), "--pci\na b\nout\n", "{shell}");
        assert_eq!(
            (text(&output.stderr), output.status.code()),
            (String::new(), Some(3))
        );
        let output = run("none");
        let said = text(&output.stderr);
        assert!(
            said.ends_with("card: bench/dump.c could not be compiled\n"),
            "{said}"
        );
        assert_eq!(output.status.code(), Some(2), "{shell}");
    });
}

/// Waits for something that must come about within seconds.
fn within_seconds(what: &str, mut is_so: impl FnMut() -> bool) {
    let began = Instant::now();
    while !is_so() {
        assert!(began.elapsed() < Duration::from_secs(20), "{what}");
        sleep(Duration::from_millis(10));
    }
}

fn is_running(process: &str) -> bool {
    // One that has ended and is not yet waited for is a zombie.
    let stat = fs::read_to_string(Path::new("/proc").join(process).join("stat"));
    stat.is_ok_and(|stat| !stat.contains(") Z "))
}

fn signal(name: &str, child: &Child) {
    let process = child.id().to_string();
    let status = Command::new("kill").args(["-s", name, &process]).status();
    assert!(status.unwrap().success());
}

/// A signal ends the launcher as it would any program, and with it all that `rt` has started.
#[test]
fn nothing_is_left_running() {
    each_shell(|shell| {
        for (name, number) in [("HUP", 1), ("INT", 2), ("TERM", 15)] {
            let bench = Bench::slow(&format!("interrupted-{name}"), shell);
            let mut command = bench.launcher();
            command.stdout(Stdio::null()).stderr(Stdio::null());
            let mut child = command.spawn().unwrap();
            // Itself, and three crates with their sleeps.
            within_seconds("three crates are begun", || bench.processes().len() >= 7);
            signal(name, &child);
            let status = child.wait().unwrap();
            assert_eq!(status.signal(), Some(number), "{shell} {name}");
            for process in bench.processes() {
                within_seconds("it has ended", || !is_running(&process));
            }
            assert!(!bench.folder.join("crates/card/out/card").exists());
            let mut left: Vec<_> = fs::read_dir(bench.folder.join("target"))
                .unwrap()
                .map(|entry| entry.unwrap().file_name())
                .collect();
            left.sort();
            assert_eq!(left, ["card.log"], "{shell} {name}");
        }
    });
}

/// The states of the line that is written over, each of which is cleared to its end.
fn states(line: &str) -> Vec<&str> {
    let mut pieces = line.split('\r');
    assert_eq!(pieces.next(), Some(""), "{line:?}");
    let states: Option<Vec<_>> = pieces.map(|state| state.strip_suffix("\x1b[K")).collect();
    states.unwrap_or_else(|| panic!("{line:?}"))
}

/// On a terminal one line is written over, with the crates that are at hand, and ends with all of them proved.
#[test]
fn one_line_on_a_terminal() {
    each_shell(|shell| {
        let (written, status) = Bench::slow("terminal", shell).on_a_terminal();
        assert_eq!(status, Some(1), "{shell}");
        let [first, line, last] = *written.lines().collect::<Vec<_>>() else {
            panic!("{shell}: {written:?}");
        };
        assert_eq!((first, last), (FIRST, "said read it"), "{shell}");
        let states = states(line);
        let is_at_hand = |state: &str| {
            state.starts_with("card: 2 of 4 crates proved, ")
                && state.ends_with(" s; at hand: right")
        };
        assert!(states.iter().any(|state| is_at_hand(state)), "{states:?}");
        let end = states.last().unwrap();
        assert!(
            end.starts_with("card: 4 of 4 crates proved, ") && end.ends_with(" s"),
            "{end}"
        );
    });
}

/// The line has at most 79 columns: it is cut where the names are too long for it.
#[test]
fn seventy_nine_columns() {
    each_shell(|shell| {
        let bench = Bench::slow("columns", shell);
        let long = "crate_with_a_name_that_has_many_letters_in_it_and_then_a_few_more";
        for name in ["crates.txt", "bin/rt"] {
            let text = fs::read_to_string(bench.folder.join(name)).unwrap();
            bench.write(name, &text.replace("right", long));
        }
        let (written, _) = bench.on_a_terminal();
        let states = states(written.lines().nth(1).unwrap());
        let is_cut = |state: &str| state.contains("at hand: crate_with") && state.len() == 79;
        assert!(states.iter().any(|state| is_cut(state)), "{states:?}");
        assert!(states.iter().all(|state| state.len() <= 79), "{states:?}");
    });
}
