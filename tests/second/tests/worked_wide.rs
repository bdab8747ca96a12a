//! What crates/worked_wide and crates/worked_first compute with is the second implementation's: each
//! equation of their specs/Claims.antt is worked out here too, with their sheets and those of
//! crates/worked; but for the lists of cards, which tests/worked.rs reads.

use second::images::Card;
use second::layout::{LARGE, Layout, SMALL};
use second::random::Random;
use second::sheet::{self, Form};
use second::specification::{self, bytes, opened};

/// What an expression is worth.
#[derive(Debug, Clone, PartialEq)]
enum Value {
    Number(usize),
    List(Vec<Value>),
    Form(Form),
    Layout(Layout),
    /// Whether it is 1.00.
    Edition(bool),
    /// A function and its first arguments.
    Call(String, Vec<Value>),
    /// A parameter, and the words of a body.
    Lambda(String, Vec<String>),
}

use Value::{Call, Lambda, List, Number};

impl Value {
    fn of_bytes(bytes: &[u8]) -> Self {
        List(bytes.iter().map(|&byte| Number(byte.into())).collect())
    }

    fn number(self) -> usize {
        match self {
            Number(number) => number,
            other => panic!("{other:?} is no number"),
        }
    }

    fn list(self) -> Vec<Value> {
        match self {
            List(elements) => elements,
            other => panic!("{other:?} is no list"),
        }
    }

    fn bytes(self) -> Vec<u8> {
        let byte = |element: Value| element.number().try_into().unwrap();
        self.list().into_iter().map(byte).collect()
    }

    fn form(self) -> Form {
        match self {
            Self::Form(form) => form,
            other => panic!("{other:?} is no form"),
        }
    }

    fn edition(self) -> bool {
        match self {
            Self::Edition(is_first) => is_first,
            other => panic!("{other:?} is no edition"),
        }
    }

    fn layout(self) -> Layout {
        match self {
            Self::Layout(layout) => layout,
            other => panic!("{other:?} is no layout"),
        }
    }
}

/// A field of a case of crates/worked: the sheet or the image of one chip's, or the one with a Magic
/// Packet block.
fn case(name: &str, field: &str) -> Value {
    let text = specification::text("worked/specs/Sheets.antt");
    let (_, case) = text.split_once(&format!("\n{name} = record {{\n")).unwrap();
    let (_, list) = case.split_once(&format!("\n  {field} =\n")).unwrap();
    let (list, _) = list.split_once(';').unwrap();
    let blocks = specification::text("packet/specs/Cases.antt");
    Value::of_bytes(&bytes(&opened(list, &blocks, &["whole_block", "fields"])))
}

/// The words of an expression, with each parenthesis one.
fn words(text: &str) -> Vec<String> {
    let spaced = text.replace('(', " ( ").replace(')', " ) ");
    spaced.split_whitespace().map(str::to_owned).collect()
}

/// What the two crates define under a name: its parameters, and the words of its body.
fn definition(name: &str) -> (Vec<String>, Vec<String>) {
    let files = [
        "worked_wide/specs/Sheets.antt",
        "worked_first/specs/Cases.antt",
    ];
    let text = files.map(specification::text).join("\n\n");
    let start = format!("\n{name} ");
    let mut found = text.split(&start).skip(1);
    let found = found.find_map(|behind| {
        let (behind, _) = behind.split_once("\n\n").unwrap_or((behind, ""));
        let (parameters, body) = behind.split_once('=')?;
        Some((words(parameters), words(body)))
    });
    found.unwrap_or_else(|| panic!("{name} is not defined"))
}

/// Works an expression out, word by word.
struct Reader {
    words: Vec<String>,
    at: usize,
    /// The values of parameters.
    names: Vec<(String, Value)>,
}

impl Reader {
    fn value(words: &[String], names: Vec<(String, Value)>) -> Value {
        let words = words.to_vec();
        let mut reader = Self {
            words,
            at: 0,
            names,
        };
        let value = reader.expression();
        assert_eq!(reader.at, reader.words.len(), "{:?}", reader.words);
        value
    }

    fn peek(&self) -> &str {
        self.words.get(self.at).map_or("", String::as_str)
    }

    fn next(&mut self) -> String {
        self.at += 1;
        self.words[self.at - 1].clone()
    }

    fn is_next(&mut self, word: &str) -> bool {
        let is_it = self.peek() == word;
        self.at += usize::from(is_it);
        is_it
    }

    /// A list of `∷` and `++`, or a sum.
    fn expression(&mut self) -> Value {
        let first = self.sum();
        if self.is_next("∷") {
            let rest = self.expression().list();
            return List([vec![first], rest].concat());
        }
        if self.is_next("++") {
            let rest = self.expression().list();
            return List([first.list(), rest].concat());
        }
        first
    }

    fn sum(&mut self) -> Value {
        let first = self.product();
        match self.is_next("+") {
            true => Number(first.number() + self.sum().number()),
            false => first,
        }
    }

    fn product(&mut self) -> Value {
        let first = self.application();
        for (word, with) in OPERATIONS {
            if self.is_next(word) {
                return Number(with(first.number(), self.product().number()));
            }
        }
        first
    }

    /// A function with as many arguments as follow.
    fn application(&mut self) -> Value {
        let mut value = self.atom();
        while !["", ")", "∷", "++", "+", "*", "/", "%", "≡"].contains(&self.peek()) {
            let argument = self.atom();
            value = apply(value, argument);
        }
        value
    }

    fn atom(&mut self) -> Value {
        let word = self.next();
        if word == "(" {
            if self.is_next("λ") {
                return self.lambda();
            }
            let value = self.expression();
            assert!(self.is_next(")"), "{:?}", self.words);
            return value;
        }
        if let Some((name, field)) = word.split_once('.') {
            return case(name, field);
        }
        if let Some((_, value)) = self.names.iter().find(|(name, _)| *name == word) {
            return value.clone();
        }
        named(&word)
    }

    /// Up to the parenthesis that closes it.
    fn lambda(&mut self) -> Value {
        let parameter = self.next().trim_end_matches('.').to_owned();
        let (mut open, start) = (1, self.at);
        while open > 0 {
            match self.next().as_str() {
                "(" => open += 1,
                ")" => open -= 1,
                _ => {}
            }
        }
        Lambda(parameter, self.words[start..self.at - 1].to_vec())
    }
}

/// What a name or a number stands for.
fn named(word: &str) -> Value {
    match word {
        "[]" => List(vec![]),
        "Narrow" => Value::Form(Form::Narrow),
        "Wide" => Value::Form(Form::Wide),
        "without_magic" => Value::Layout(Layout::PLAIN),
        "with_magic" => Value::Layout(Layout::MAGIC),
        "the_later_edition" => Value::Edition(false),
        "the_first_edition" => Value::Edition(true),
        "small_size" => Number(SMALL.into()),
        "large_size" => Number(LARGE.into()),
        "all_ones" => List(vec![Number(1); SMALL.into()]),
        "wide21143" => Reader::value(&definition(word).1, vec![]),
        _ if word.starts_with(|first: char| first.is_ascii_digit()) => {
            Number(specification::number(word))
        }
        _ => Call(word.to_owned(), vec![]),
    }
}

/// What stands between the numbers of a product.
type Operation = fn(usize, usize) -> usize;
const OPERATIONS: [(&str, Operation); 3] = [
    ("*", |one, other| one * other),
    ("/", |one, other| one / other),
    ("%", |one, other| one % other),
];

/// How many arguments a function takes.
fn arity(name: &str) -> usize {
    match name {
        "length" | "word_bytes" | "large" | "whole_card" | "with_ext" | "sheet_under" => 1,
        "replicate" | "take" | "drop" | "over" | "map" | "wide_long" | "longest_sheet" => 2,
        "converted" => 2,
        "set" | "convert_number" | "converted_in" => 3,
        "write_number" | "written" => 5,
        "make_number" | "made" => 6,
        _ => panic!("{name} is not known"),
    }
}

fn apply(function: Value, argument: Value) -> Value {
    match function {
        Lambda(parameter, body) => Reader::value(&body, vec![(parameter, argument)]),
        Call(name, mut arguments) => {
            arguments.push(argument);
            match arguments.len() == arity(&name) {
                true => call(&name, arguments),
                false => Call(name, arguments),
            }
        }
        other => panic!("{other:?} is no function"),
    }
}

/// What a function answers to all its arguments.
fn call(name: &str, arguments: Vec<Value>) -> Value {
    let mut arguments = arguments.into_iter();
    let mut next = || arguments.next().unwrap();
    match name {
        "length" => Number(next().list().len()),
        "word_bytes" => {
            let number = next().number();
            List(vec![Number(number % 256), Number(number / 256)])
        }
        "large" => Value::Layout(Layout {
            size: LARGE,
            ..next().layout()
        }),
        "whole_card" => {
            let card = Card::tidy(21143, 0x0800, vec![]);
            let card = card.laid_out(&mut Random::new(1), next().layout());
            Value::of_bytes(&card.image())
        }
        "replicate" => {
            let count = next().number();
            List(vec![next(); count])
        }
        "take" => {
            let count = next().number();
            List(next().list().into_iter().take(count).collect())
        }
        "drop" => {
            let count = next().number();
            List(next().list().into_iter().skip(count).collect())
        }
        "over" => {
            let (buffer, laid) = (next().list(), next().list());
            let behind = buffer.into_iter().skip(laid.len()).collect();
            List([laid, behind].concat())
        }
        "set" => {
            let (mut list, place) = (next().list(), next().number());
            list[place] = next();
            List(list)
        }
        "map" => {
            let (function, list) = (next(), next().list());
            let elements = list.into_iter();
            List(elements.map(|it| apply(function.clone(), it)).collect())
        }
        "with_ext" => {
            let (_, body) = definition("with_ext (suc n)");
            let block = &body[..body.len() - 2].join(" ");
            List(vec![Value::of_bytes(&bytes(block)).list(); next().number()].concat())
        }
        "wide_long" | "sheet_under" => {
            let (parameters, body) = definition(name);
            let names = parameters.into_iter().map(|parameter| (parameter, next()));
            Reader::value(&body, names.collect())
        }
        "longest_sheet" => {
            let (form, size) = (next().form(), next().number());
            Number(form.longest(Layout::new(size as u16, false)))
        }
        _ => call_of_sheets(name, next),
    }
}

/// The calls of the second implementation: what each answers, and what it leaves.
fn call_of_sheets(name: &str, mut next: impl FnMut() -> Value) -> Value {
    let form = next().form();
    match name {
        "write_number" | "written" => {
            let (layout, edition) = (next().layout(), next().edition());
            let (sheet, mut image) = (next().bytes(), next().bytes());
            let number = sheet::write(&sheet, form, layout, edition, &mut image);
            match name {
                "written" => Value::of_bytes(&image),
                _ => Number(number.into()),
            }
        }
        "make_number" | "made" => {
            let (layout, edition) = (next().layout(), next().edition());
            let (image, chip) = (next().bytes(), next().number());
            lay_sheet(next(), |buffer| {
                sheet::make(&image, chip as u16, form, layout, edition, buffer)
            })
        }
        "converted" => {
            let sheet = next().bytes();
            let mut buffer = vec![0; sheet.len() + 2];
            let made = sheet::convert(&sheet, form, &mut buffer);
            assert_eq!(made.number, 0);
            Value::of_bytes(&buffer[..made.length])
        }
        _ => {
            let sheet = next().bytes();
            lay_sheet(next(), |buffer| sheet::convert(&sheet, form, buffer))
        }
    }
}

/// The number where the buffer is said by its length, and else the buffer after the call.
fn lay_sheet(buffer: Value, lay: impl FnOnce(&mut [u8]) -> sheet::Made) -> Value {
    match buffer {
        Number(length) => Number(lay(&mut vec![0; length]).number.into()),
        buffer => {
            let mut buffer = buffer.bytes();
            lay(&mut buffer);
            Value::of_bytes(&buffer)
        }
    }
}

/// The two sides of each equation of a file of claims, as words.
fn equations(file: &str) -> Vec<[Vec<String>; 2]> {
    let claims = specification::text(file);
    let code = claims.lines().filter(|line| !line.starts_with("--"));
    let code: Vec<_> = code.collect();
    let code = code.join("\n");
    let mut equations = Vec::new();
    for claim in code.split("abbrev pub ").skip(1) {
        let (_, body) = claim.split_once(" =").unwrap();
        let is_one = !body.contains('×');
        for equation in body.split('×') {
            let words = words(equation);
            let inner = match words.as_slice() {
                all if is_one => all,
                [open, inner @ .., close] if open == "(" && close == ")" => inner,
                _ => panic!("{equation}"),
            };
            let mut sides = inner.split(|word| word == "≡").map(<[String]>::to_vec);
            let [left, right] = [(); 2].map(|()| sides.next().unwrap());
            assert_eq!(sides.next(), None, "{equation}");
            equations.push([left, right]);
        }
    }
    equations
}

fn holds([left, right]: &[Vec<String>; 2]) {
    let sides = [left, right].map(|side| Reader::value(side, vec![]));
    assert_eq!(sides[0], sides[1], "{left:?} {right:?}");
}

#[test]
fn claims_are_as_second_works_them_out() {
    let equations = equations("worked_wide/specs/Claims.antt");
    assert!(equations.len() >= 24, "only {}", equations.len());
    equations.iter().for_each(holds);
}

/// Document 02, request 12. What is claimed of a list of cards must be of one that tests/worked.rs reads.
#[test]
fn claims_of_version_1_are_as_second_works_them_out() {
    let equations = equations("worked_first/specs/Claims.antt");
    let (of_cards, of_sheets): (Vec<_>, Vec<_>) = equations
        .into_iter()
        .partition(|[left, _]| left[..2] == ["map", "in_its_edition"]);
    let lists: Vec<_> = of_cards.iter().map(|[left, _]| left[2].as_str()).collect();
    assert_eq!(lists, specification::EDITION_LISTS);
    for [left, right] in &of_cards {
        assert_eq!(left[2..], right[..]);
    }
    assert!(of_sheets.len() >= 7, "only {}", of_sheets.len());
    of_sheets.iter().for_each(holds);
}
