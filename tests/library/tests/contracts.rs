//! "Every call that others can reach ... has a contract", and "refused inputs are no exception":
//! each public function of a library has an `ensures`, and none a `requires`. docs/DECISIONS.md
//! names the functions that are excepted, and each of them prints.

use std::collections::BTreeSet;
use std::fs;
use std::path::{Path, PathBuf};

/// The point of docs/DECISIONS.md whose decision begins with the excepted functions.
const EXCEPTED: &str = "public functions without a contract";

/// Fewer public functions than the libraries have.
const LEAST_FUNCTIONS: usize = 90;

/// What prints, reads the input, or says why a file cannot be had.
const PRINTS: [&str; 5] = [
    "io::write_all",
    "io::print_hex",
    "io::print_decimal",
    "io::read_full",
    "rt.arg",
];

/// A function: its name with crate and module, what stands before its body, and the body.
#[derive(Debug)]
struct Function {
    name: String,
    is_public: bool,
    head: String,
    body: String,
}

impl Function {
    fn has(&self, clause: &str) -> bool {
        let is_word = |it: char| it.is_alphanumeric() || it == '_';
        let mut words = self.head.split(|it| !is_word(it));
        words.any(|word| word == clause)
    }

    fn last_name(&self) -> &str {
        self.name.rsplit(':').next().unwrap()
    }

    fn crate_name(&self) -> &str {
        self.name.split(':').next().unwrap()
    }

    /// Whether it prints, or calls one of those that do: of its own crate, or a public one of another
    /// where its own has none of that name.
    fn prints(&self, functions: &[Function], printing: &BTreeSet<&str>) -> bool {
        let is_own = |it: &Function| it.crate_name() == self.crate_name();
        let can_mean = |it: &Function| {
            let hidden = functions
                .iter()
                .filter(|own| is_own(own) && own.is_method() == it.is_method())
                .any(|own| own.last_name() == it.last_name());
            is_own(it) || it.is_public && !hidden
        };
        let calls_one = functions
            .iter()
            .filter(|it| printing.contains(&*it.name))
            .any(|it| self.calls(it.last_name(), it.is_method()) && can_mean(it));
        calls_one || PRINTS.iter().any(|name| self.calls(name, false))
    }

    fn is_method(&self) -> bool {
        ["(self", "(mut self"]
            .iter()
            .any(|it| self.head.contains(it))
    }

    /// Whether its body calls a function of this name, or a method.
    fn calls(&self, name: &str, is_method: bool) -> bool {
        let is_word = |it: char| it.is_alphanumeric() || it == '_';
        self.body
            .match_indices(&format!("{name}("))
            .map(|(at, _)| &self.body[..at])
            .any(|before| !before.ends_with(is_word) && before.ends_with('.') == is_method)
    }
}

fn root() -> PathBuf {
    Path::new(env!("CARGO_MANIFEST_DIR")).join("../..")
}

fn read(path: &Path) -> String {
    fs::read_to_string(path).unwrap_or_else(|error| panic!("{}: {error}", path.display()))
}

/// The functions that docs/DECISIONS.md excepts: the words in backquotes up to the semicolon.
fn excepted() -> BTreeSet<String> {
    let decisions = read(&root().join("docs/DECISIONS.md"));
    let mut rows = decisions
        .lines()
        .map(|line| line.split(" | ").collect::<Vec<_>>())
        .filter(|cells| cells.get(1) == Some(&EXCEPTED));
    let row = rows.next().expect("docs/DECISIONS.md has the row");
    assert!(rows.next().is_none(), "docs/DECISIONS.md has the row twice");
    let (names, _) = row[2].split_once(';').expect("the names end with ;");
    names
        .split('`')
        .skip(1)
        .step_by(2)
        .map(str::to_owned)
        .collect()
}

/// The crates by their folders.
fn crates() -> BTreeSet<String> {
    let folders = fs::read_dir(root().join("crates")).unwrap();
    let name = |folder: fs::DirEntry| folder.file_name().into_string().unwrap();
    folders.map(|folder| name(folder.unwrap())).collect()
}

/// Whether a brace behind this text opens a clause: `ensures` or `requires` stands before it, or before the clause's name.
fn opens_clause(before: &str) -> bool {
    let is_name = |word: &&str| {
        word.chars()
            .all(|it| it.is_alphanumeric() || "_*".contains(it))
    };
    let mut words = before.split_whitespace().rev().take(3).take_while(is_name);
    words.any(|word| ["ensures", "requires"].contains(&word))
}

/// What stands before the body, and the body: a brace opens it unless it opens a clause.
fn head_and_body(text: &str) -> (&str, &str) {
    let mut depth = 0;
    let mut head = None;
    for (at, letter) in text.char_indices() {
        let before = text[..at].trim_end();
        match letter {
            '{' => {
                if depth == 0 && !opens_clause(before) {
                    head.get_or_insert((before, at));
                }
                depth += 1;
            }
            '}' => {
                depth -= 1;
                if let (0, Some((head, start))) = (depth, head) {
                    return (head, &text[start..at]);
                }
            }
            _ => {}
        }
    }
    panic!("a function without a body: {text}");
}

/// Adds the functions of a crate or module and of the modules in it. Those are public that others
/// can reach: of a module that is public, or of which something is used publicly.
fn collect(path: &str, file: &Path, is_reached: bool, functions: &mut Vec<Function>) {
    let text = read(file);
    let is_code = |line: &&str| !line.trim_start().starts_with("//");
    let code: String = text
        .lines()
        .filter(is_code)
        .flat_map(|line| [line, "\n"])
        .collect();
    let is_used = |module: &str| code.contains(&format!("pub use {module}::"));
    let mut at = 0;
    for line in code.lines() {
        let (is_public, item) = match line.trim().strip_prefix("pub ") {
            Some(item) => (true, item),
            None => (false, line.trim()),
        };
        if let Some(module) = item.strip_prefix("mod ") {
            let module = module.trim_end_matches(';');
            let is_reached = is_reached && (is_public || is_used(module));
            let file = file.with_file_name(format!("{module}.rt"));
            collect(&format!("{path}::{module}"), &file, is_reached, functions);
        } else if let Some(name) = function_name(item) {
            let (head, body) = head_and_body(&code[at..]);
            functions.push(Function {
                name: format!("{path}::{name}"),
                is_public: is_reached && is_public,
                head: head.to_owned(),
                body: body.to_owned(),
            });
        }
        at += line.len() + 1;
    }
}

/// The name of a function, be it `extern "C"` or not; none for another item.
fn function_name(item: &str) -> Option<&str> {
    let (before, _) = item.split_once('(')?;
    let (_, name) = before.rsplit_once("fn ")?;
    Some(name)
}

/// The functions of all libraries.
fn functions() -> Vec<Function> {
    let mut functions = Vec::new();
    for name in crates() {
        let file = root().join("crates").join(&name).join("src/lib.rt");
        if file.exists() {
            collect(&name, &file, true, &mut functions);
        }
    }
    functions
}

#[test]
fn public_functions_have_contracts() {
    let (functions, excepted) = (functions(), excepted());
    let public: Vec<_> = functions.iter().filter(|it| it.is_public).collect();
    let names: BTreeSet<_> = public.iter().map(|it| it.name.clone()).collect();
    let missing: Vec<_> = excepted.difference(&names).collect();
    assert!(missing.is_empty(), "docs/DECISIONS.md names {missing:?}");
    assert!(public.len() >= LEAST_FUNCTIONS, "only {names:?}");
    // Of a crate's first file, in an `impl`, in a module, and exported to C.
    for known in [
        "reader::view",
        "rom::low_byte",
        "block::chip::row_of",
        "srom::srom_read",
        "hexadecimal::decode",
    ] {
        assert!(names.contains(known), "{known} is not among {names:?}");
    }
    for function in public {
        let name = &function.name;
        assert!(!function.has("requires"), "{name} has a `requires`");
        let has_contract = function.has("ensures");
        let is_excepted = excepted.contains(name);
        assert!(
            has_contract != is_excepted,
            "{name} has no `ensures`, or has one and is excepted"
        );
    }
}

/// "No contract can say what is printed or read": that is why they are excepted, so each of them
/// prints or reads, or calls what does.
#[test]
fn excepted_functions_print() {
    let functions = functions();
    let mut printing: BTreeSet<&str> = BTreeSet::new();
    loop {
        let before = printing.len();
        for function in &functions {
            if function.prints(&functions, &printing) {
                printing.insert(&function.name);
            }
        }
        if printing.len() == before {
            break;
        }
    }
    for name in excepted() {
        assert!(printing.contains(&*name), "{name} prints nothing");
    }
    // What only computes is not taken for printing.
    for name in [
        "hexadecimal::decode",
        "text::first_line",
        "console::option::role_of",
        "report::words::medium_words",
        "block::judge_block",
    ] {
        assert!(functions.iter().any(|it| it.name == name), "{name}");
        assert!(!printing.contains(name), "{name} counts as printing");
    }
}
