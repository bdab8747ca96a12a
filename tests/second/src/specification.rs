//! The cases that the checker computes, as the specification files have them: text, taken apart so that tests hold each
//! case to this implementation.

use std::fs;
use std::iter;
use std::path::Path;

/// The lists of cards of crates/worked_first.
pub const EDITION_LISTS: [&str; 2] = ["edition_cards", "version_cards"];

/// A specification file of a crate.
pub fn text(file: &str) -> String {
    let crates = Path::new(env!("CARGO_MANIFEST_DIR")).join("../../crates");
    fs::read_to_string(crates.join(file)).unwrap()
}

/// The elements of the list that is defined under a name, one a line: what each is made by, and its arguments.
pub fn cases<'a>(text: &'a str, name: &str) -> Vec<(&'a str, Vec<&'a str>)> {
    let (_, list) = text.split_once(&format!("\n{name} =\n")).unwrap();
    let (list, _) = list.split_once("    ∷ []").unwrap();
    let lines = list.lines().map(str::trim_start);
    let elements = lines.filter(|line| !line.starts_with("--"));
    elements
        .map(|line| {
            let words = arguments(line.strip_prefix("∷ ").unwrap_or(line));
            (words[0], words[1..].to_vec())
        })
        .collect()
}

/// The elements of the list that is defined under a name, wherever its lines break: what each is made by, and its arguments.
pub fn elements(text: &str, name: &str) -> Vec<Vec<String>> {
    let (_, body) = definition(text, name);
    let code = body
        .lines()
        .filter(|line| !line.trim_start().starts_with("--"));
    let words = code
        .flat_map(str::split_whitespace)
        .collect::<Vec<_>>()
        .join(" ");
    let (mut open, mut elements) = (0, vec![String::new()]);
    for letter in words.chars() {
        match letter {
            '(' => open += 1,
            ')' => open -= 1,
            '∷' if open == 0 => {
                elements.push(String::new());
                continue;
            }
            _ => {}
        }
        elements.last_mut().unwrap().push(letter);
    }
    assert_eq!(
        elements.pop().as_deref().map(str::trim),
        Some("[]"),
        "{name}"
    );
    let element = |text: String| {
        arguments(&text)
            .into_iter()
            .map(|it| it.trim().to_owned())
            .collect()
    };
    elements.into_iter().map(element).collect()
}

/// Words, or what stands between outer parentheses.
pub fn arguments(line: &str) -> Vec<&str> {
    let mut found = Vec::new();
    let mut rest = line.trim();
    while !rest.is_empty() {
        let (word, behind) = match rest.strip_prefix('(') {
            Some(inner) => closed(inner),
            None => rest.split_once(' ').unwrap_or((rest, "")),
        };
        found.push(word);
        rest = behind.trim_start();
    }
    found
}

/// What stands before the parenthesis that closes an open one, and what stands behind it.
fn closed(inner: &str) -> (&str, &str) {
    let mut open = 1;
    let end = inner.find(|letter| {
        match letter {
            '(' => open += 1,
            ')' => open -= 1,
            _ => {}
        }
        open == 0
    });
    let end = end.expect("the parenthesis is closed");
    (&inner[..end], &inner[end + 1..])
}

/// A number, in decimal or hexadecimal, or `none`.
pub fn number(word: &str) -> usize {
    match word.strip_prefix("0x") {
        Some(digits) => usize::from_str_radix(digits, 16).unwrap(),
        None if word == "none" => crate::walk::NONE.into(),
        None => word
            .parse()
            .unwrap_or_else(|_| panic!("{word} is no number")),
    }
}

/// The bytes of a list, as [`numbers`] has them.
pub fn bytes(list: &str) -> Vec<u8> {
    let byte = |number: usize| number.try_into().unwrap();
    numbers(list).into_iter().map(byte).collect()
}

/// The numbers of a list: numbers with `∷` between them, `replicate n x` and `++`; a number may be a sum or a difference, and `n
/// / 256` and `n % 256` are the bytes of a word.
pub fn numbers(list: &str) -> Vec<usize> {
    let mut numbers = Vec::new();
    let words = list.replace(['(', ')', ';'], " ");
    let mut words = words.split_whitespace().peekable();
    while let Some(word) = words.next() {
        let mut next = || number(words.next().unwrap());
        match word {
            "∷" | "[]" | "++" => {}
            "replicate" => {
                let mut count = next();
                if words.next_if_eq(&"-").is_some() {
                    count -= number(words.next().unwrap());
                }
                let value = number(words.next().unwrap());
                numbers.extend(vec![value; count]);
            }
            "/" => *numbers.last_mut().unwrap() /= next(),
            "%" => *numbers.last_mut().unwrap() %= next(),
            "+" => *numbers.last_mut().unwrap() += next(),
            _ => numbers.push(number(word)),
        }
    }
    numbers
}

/// A list, with each of these names in it, and the arguments behind it, replaced by what the text defines under it.
pub fn opened(list: &str, text: &str, names: &[&str]) -> String {
    names.iter().fold(list.to_string(), |list, name| {
        let (parameters, body) = definition(text, name);
        let spaced = |text: &str| text.replace('(', " ( ").replace(')', " ) ");
        let (list, body) = (spaced(&list), spaced(body));
        let mut words = list.split_whitespace();
        let mut opened = Vec::new();
        while let Some(word) = words.next() {
            if word != *name {
                opened.push(word);
                continue;
            }
            let given: Vec<_> = words.by_ref().take(parameters.len()).collect();
            let place = |word: &str| parameters.iter().position(|it| *it == word);
            opened.extend(
                body.split_whitespace()
                    .map(|it| place(it).map_or(it, |at| given[at])),
            );
        }
        opened.join(" ")
    })
}

/// The parameters of a name that the text defines, and what stands behind them up to an empty line.
fn definition<'a>(text: &'a str, name: &str) -> (Vec<&'a str>, &'a str) {
    let of_lines = |lines: &'a str| {
        let (head, body) = lines.split_once(" =")?;
        let mut words = head.split(' ');
        (words.next() == Some(name)).then(|| (words.collect(), body))
    };
    // Behind the line that has its type.
    let definitions = text.split("\n\n").filter_map(|it| it.split_once('\n'));
    let lines = definitions.flat_map(|(first, rest)| [first, rest]);
    let lines =
        lines.flat_map(|lines| iter::successors(Some(lines), |it| Some(it.split_once('\n')?.1)));
    let mut found = lines.filter_map(of_lines);
    found
        .next()
        .unwrap_or_else(|| panic!("{name} is not defined"))
}
