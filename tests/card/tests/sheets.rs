//! Sheets of both forms, made, written and converted by the bench tool, held to the second implementation: the same bytes, or no
//! file and the same number, and what is said of it.

use card::{
    Run, card, edition, edition_option, options, reasons, sample_sheets, samples, size_by_length,
    temporary, words,
};
use second::edition::EDITIONS;
use second::images::{Card, MagicBlock};
use second::layout::{LARGE, LAYOUTS, Layout, SMALL};
use second::random::Random;
use second::reader::{Arguments, read_all};
use second::sheet::{self, FORMS, Form, LONGEST_WIDE_SHEET, Made, served, served_editions};
use second::sheets::converted::convert_damages;
use second::sheets::{Sheet, output, sheet_damages};
use std::collections::{BTreeMap, BTreeSet};
use std::fs;
use std::path::Path;

/// The most bytes of a sheet that the tool reads.
const ROOM: usize = 2048;

/// The option that names a form, behind other words.
fn wide(form: Form) -> &'static str {
    if form.is_wide() { " --wide" } else { "" }
}

/// The sheet of every sample in every form, layout and edition, and the image of that sheet, with the sample's own block where
/// it has one.
#[test]
fn sheets_of_samples() {
    let folder = temporary("sheets");
    let mut counts = BTreeMap::new();
    for (name, own, image) in samples() {
        let in_layouts = |form| LAYOUTS.map(|layout| (form, own.laid_out(layout)));
        for (form, arguments) in FORMS.into_iter().flat_map(in_layouts) {
            let layout = arguments.layout;
            let made = folder.join(&name).with_extension("sheet");
            let written = folder.join(&name);
            for first_edition in EDITIONS {
                let arguments = arguments.in_edition(first_edition);
                if is_sheet_made(&name, &image, arguments, form, [&made, &written]) {
                    let kind = (form.is_wide(), layout.size, layout.magic);
                    *counts.entry(kind).or_insert(0) += 1;
                }
            }
        }
    }
    println!("{counts:?}");
    for form in [false, true] {
        assert!(counts[&(form, SMALL, false)] >= 20, "{counts:?}");
        assert!(counts[&(form, SMALL, true)] >= 1, "{counts:?}");
    }
    assert!(counts[&(true, LARGE, false)] >= 1, "{counts:?}");
    assert!(!counts.contains_key(&(false, LARGE, false)), "{counts:?}");
}

/// Whether a sample has a sheet; it is written, and so is its image, over what was there.
fn is_sheet_made(
    name: &str,
    image: &[u8],
    arguments: Arguments,
    form: Form,
    [made, written]: [&Path; 2],
) -> bool {
    let Arguments {
        chip,
        layout,
        first_edition,
        ..
    } = arguments;
    let _ = fs::remove_file(made);
    let wide = format!("{}{}", wide(form), edition_option(first_edition));
    let options = options(layout, image);
    let words = format!("samples/{name} {chip} {}{options}", made.display());
    let run = card(&format!("sheet {words}{wide}"));
    let mut buffer = [0; LONGEST_WIDE_SHEET];
    let answer = sheet::make(image, chip, form, layout, first_edition, &mut buffer);
    if answer.number != 0 {
        run.assert_refused(answer.number, made);
        let is_told = run.written.contains(&keeps_to(image));
        let is_narrow = form == Form::Narrow;
        assert_eq!(is_told, is_narrow && answer.number == 1, "{}", run.written);
        return false;
    }
    let bytes = &buffer[..answer.length];
    run.assert_written(made, bytes);
    let options = match (layout.magic, layout.size) {
        (true, _) => format!(" --magic samples/{name}"),
        (false, SMALL) => String::new(),
        (false, size) => format!(" --size {size}"),
    };
    let (made, out) = (made.display(), written.display());
    let run = card(&format!("write {made} {out} --force{options}{wide}"));
    let mut output = match layout.magic {
        true => image.to_vec(),
        false => vec![0; layout.size.into()],
    };
    let number = sheet::write(bytes, form, layout, first_edition, &mut output);
    assert_eq!(number, 0, "{name}");
    run.assert_written(written, &output);
    true
}

/// What is shown of an image that has no narrow sheet for its length or its stated size.
fn keeps_to(image: &[u8]) -> String {
    let length = image.len();
    format!(
        "  the image has {length} bytes; narrow sheets keep to size {SMALL}, --wide serves {LARGE}\n"
    )
}

/// A byte behind the leaf that is not 0, the last before the maker's bytes: a sheet would lose it.
#[test]
fn untidy_images() {
    let folder = temporary("untidy_images");
    let (file, out) = (folder.join("card.rom"), folder.join("card.sheet"));
    for (form, layout) in served() {
        let mut made = Card::tidy(21143, 0x0800, vec![]).sized(layout.size);
        made.magic = MagicBlock::of_layout(&mut Random::new(1), layout);
        let limit = layout.leaf_limit();
        made.private[limit - 1] = 1;
        let image = made.image();
        fs::write(&file, &image).unwrap();
        let (file, words) = (file.display(), out.display());
        let options = options(layout, &image);
        let run = card(&format!(
            "sheet {file} 21143 {words}{options}{}",
            wide(form)
        ));
        run.assert_refused(27, &out);
        let line = format!("  a byte behind the leaf's last, before byte {limit}, is not 0");
        assert_eq!(run.written.lines().nth(1), Some(&*line));
    }
}

/// A sheet written beside each sample's block: "the writer, told of the block, keeps bytes 96 to 127, judged with the rest",
/// or those of the larger ROM, also where they are refused, or the image has another length. The size is the sample's.
#[test]
fn kept_blocks() {
    let folder = temporary("kept_blocks");
    let file = folder.join("card.sheet");
    let image = fs::read(card::root().join("samples/magic-21143.rom")).unwrap();
    for form in FORMS {
        let mut buffer = [0; LONGEST_WIDE_SHEET];
        let made = sheet::make(&image, 21143, form, Layout::MAGIC, false, &mut buffer);
        let bytes = &buffer[..made.length];
        fs::write(&file, bytes).unwrap();
        let mut numbers = BTreeSet::new();
        for (name, _, mut image) in samples() {
            let out = folder.join(&name);
            let _ = fs::remove_file(&out);
            let (file, words) = (file.display(), out.display());
            let wide = wide(form);
            let run = card(&format!(
                "write {file} {words} --magic samples/{name}{wide}"
            ));
            let layout = Layout::new(size_by_length(&image), true);
            let number = sheet::write(bytes, form, layout, false, &mut image);
            numbers.insert((number, layout.size));
            if number == 0 {
                run.assert_written(&out, &image);
                continue;
            }
            run.assert_refused(number, &out);
            for reason in reasons(&image, layout, number) {
                assert!(run.written.contains(&reason), "{name}\n{}", run.written);
            }
            assert_widen_told(&run, form, layout.size);
        }
        let asked = [(0, SMALL), (1, SMALL), (29, SMALL), (30, SMALL)];
        assert!(
            numbers.is_superset(&BTreeSet::from(asked)) && numbers.contains(&large_number(form)),
            "{numbers:?}"
        );
    }
}

/// What the larger card's block gets: "the old form gets 1 for any but 128 bytes".
fn large_number(form: Form) -> (u8, u16) {
    (u8::from(form == Form::Narrow), LARGE)
}

/// A narrow sheet that is to be written to another size than 128 is told of the wide form.
fn assert_widen_told(run: &Run, form: Form, size: u16) {
    let line = format!(
        "  narrow sheets keep to size {SMALL}; for {LARGE} widen it, and write it with --wide\n"
    );
    let is_beyond = form == Form::Narrow && size != SMALL;
    let is_told = run.written.contains(&line);
    assert_eq!(is_told, is_beyond, "{}", run.written);
}

/// "serve both ROM sizes in the wide one; the old form gets 1 for any but 128 bytes": each size that `--size` can name, and none.
/// Where it names no ROM's size the image is as long as the smaller.
#[test]
fn sizes() {
    let folder = temporary("sheet_sizes");
    let (file, out) = (folder.join("card.sheet"), folder.join("card.rom"));
    let bytes = Sheet::new(21143, 0x0800, &[]);
    for form in FORMS {
        let bytes = bytes.bytes(form);
        fs::write(&file, &bytes).unwrap();
        for size in [
            None,
            Some(0),
            Some(127),
            Some(SMALL),
            Some(256),
            Some(LARGE),
            Some(65_535),
        ] {
            let _ = fs::remove_file(&out);
            let option = size.map_or(String::new(), |size| format!(" --size {size}"));
            let (file, words) = (file.display(), out.display());
            let run = card(&format!("write {file} {words}{option}{}", wide(form)));
            let stated = size.unwrap_or(SMALL);
            let length = if stated == LARGE { LARGE } else { SMALL };
            let mut image = vec![0; length.into()];
            let layout = Layout::new(stated, false);
            let number = sheet::write(&bytes, form, layout, false, &mut image);
            if number == 0 {
                run.assert_written(&out, &image);
                continue;
            }
            run.assert_refused(number, &out);
            assert!(run.written.contains(&format!("\n  size {stated}\n")));
            let line = format!("  a ROM has {SMALL} or {LARGE} bytes\n");
            assert_eq!(run.written.contains(&line), form.is_wide());
            assert_widen_told(&run, form, stated);
        }
    }
}

/// What is said of a sheet that is refused with 24 in a form: its bytes, how many N and T ask for, and whether it has "the right
/// length and sum in the other", with what a command then says.
fn lengths(bytes: &[u8], form: Form, otherwise: &str) -> Vec<String> {
    let mut front = bytes.to_vec();
    front.resize(bytes.len().max(4), 0);
    let (count, total) = form.sizes(&front);
    let (length, asked) = (bytes.len(), form.length(count, total));
    let mut lines = vec![format!(
        "  it has {length} bytes; {count} blocks with {total} bytes of bodies ask for {asked}"
    )];
    if length == asked {
        lines.push(format!("  the sum of its sizes is not {total}"));
    }
    if converted(bytes, form.other()).0.number != 24 {
        lines.push(otherwise.to_string());
    }
    lines
}

/// The sheet in the other form than the one in which it is read.
fn converted(bytes: &[u8], form: Form) -> (Made, Vec<u8>) {
    let mut buffer = vec![0; bytes.len() + 2];
    let made = sheet::convert(bytes, form, &mut buffer);
    buffer.truncate(made.length);
    (made, buffer)
}

fn told(run: &Run) -> Vec<String> {
    run.written.lines().skip(1).map(str::to_string).collect()
}

/// Whether the tool takes bytes as they are: no empty file, and not as hexadecimal text.
fn is_raw(bytes: &[u8]) -> bool {
    bytes.len() <= ROOM && bytes.iter().any(|&byte| byte < 9)
}

/// Sheets with a damaged field, in each form, layout and edition: each number of the writer's, from the sheet and from its image.
/// Those refused with 24 are often sheets of the other form, and those refused with 11 of the other edition.
#[test]
fn refused_sheets() {
    let folder = temporary("refused_sheets");
    let [file, from, out] = ["card.sheet", "old.rom", "card.rom"].map(|name| folder.join(name));
    let mut random = Random::new(21143);
    let mut hints = BTreeMap::new();
    for (form, layout, first_edition) in served_editions() {
        for number in sheet_damages(form) {
            for _ in 0..3 {
                let bytes = refused(&mut random, number, form, layout, first_edition);
                if !is_raw(&bytes) {
                    continue;
                }
                fs::write(&file, &bytes).unwrap();
                fs::write(&from, output(&mut random, layout)).unwrap();
                let option = match layout.magic {
                    true => format!(" --magic {}", from.display()),
                    false => format!(" --size {}", layout.size),
                };
                let option = option + edition_option(first_edition) + wide(form);
                let (file, words) = (file.display(), out.display());
                let run = card(&format!("write {file} {words}{option}"));
                run.assert_refused(number, &out);
                let lines = match number {
                    24 => lengths(&bytes, form, write_otherwise(form)),
                    33 => vec![format!(
                        "  {} blocks; a leaf has up to 255",
                        form.sizes(&bytes).0
                    )],
                    11 | 26 => {
                        let line = match number {
                            26 => fits_larger(&bytes, form, layout, first_edition),
                            _ => {
                                let over = fs::read(&from).unwrap();
                                is_of_other(&bytes, form, layout, first_edition, over)
                            }
                        };
                        let told = told(&run)
                            .into_iter()
                            .find(|it| it.starts_with("  accepted"));
                        assert_eq!(told, line, "{}", run.written);
                        *hints
                            .entry((number, form.is_wide(), line.is_some()))
                            .or_insert(0) += 1;
                        continue;
                    }
                    _ => continue,
                };
                assert_eq!(told(&run), lines);
                let is_hint = lines.contains(&write_otherwise(form).to_string());
                *hints.entry((number, form.is_wide(), is_hint)).or_insert(0) += 1;
            }
        }
    }
    println!("{hints:?}");
    for is_wide in [false, true] {
        for is_hint in [false, true] {
            assert!(hints.contains_key(&(24, is_wide, is_hint)), "{hints:?}");
        }
    }
    assert!(hints[&(33, true, false)] > 5, "{hints:?}");
    assert!(hints.contains_key(&(26, true, true)), "{hints:?}");
    for is_wide in [false, true] {
        for is_hint in [false, true] {
            assert!(hints.contains_key(&(11, is_wide, is_hint)), "{hints:?}");
        }
    }
}

/// A sheet that the writer refuses with a number in a form, a layout and an edition.
fn refused(
    random: &mut Random,
    number: u8,
    form: Form,
    layout: Layout,
    first_edition: bool,
) -> Vec<u8> {
    match number {
        24 if random.one_in(2) => Sheet::valid(random, layout, first_edition).bytes(form.other()),
        11 if random.one_in(2) => loop {
            let sheet = Sheet::first_version(random, layout, !first_edition);
            let bytes = sheet.bytes(form);
            let mut image = output(random, layout);
            if sheet::write(&bytes, form, layout, first_edition, &mut image) == 11 {
                return bytes;
            }
        },
        _ => Sheet::damaged(random, number, form, layout, first_edition),
    }
}

/// What is said of a sheet whose image is refused with 11 in the one edition and accepted in the other, over an image whose block is
/// kept.
fn is_of_other(
    bytes: &[u8],
    form: Form,
    layout: Layout,
    first_edition: bool,
    mut over: Vec<u8>,
) -> Option<String> {
    let number = sheet::write(bytes, form, layout, !first_edition, &mut over);
    (number == 0).then(|| format!("  accepted with --edition {}", edition(!first_edition)))
}

/// What is said of a sheet whose leaf has room in the larger ROM alone.
fn fits_larger(bytes: &[u8], form: Form, layout: Layout, first_edition: bool) -> Option<String> {
    let mut image = vec![0; LARGE.into()];
    let larger = Layout {
        size: LARGE,
        ..layout
    };
    let number = sheet::write(bytes, form, larger, first_edition, &mut image);
    (number == 0).then(|| format!("  accepted with --size {LARGE}"))
}

fn write_otherwise(form: Form) -> &'static str {
    match form {
        Form::Narrow => "  it is a wide sheet: write it with --wide",
        Form::Wide => "  it is a narrow sheet: write it without --wide",
    }
}

/// "Convert old sheets to wide ones and back": random sheets in each form, those that are refused, and the samples.
#[test]
fn conversions() {
    let folder = temporary("conversions");
    let (file, out) = (folder.join("card.sheet"), folder.join("other.sheet"));
    let mut random = Random::new(7);
    let mut counts = BTreeMap::new();
    for form in FORMS {
        let mut sheets: Vec<_> = (0..20)
            .map(|_| Sheet::convertible(&mut random).bytes(form))
            .collect();
        for &number in convert_damages(form) {
            sheets.extend((0..30).map(|_| Sheet::unconvertible(&mut random, number, form)));
        }
        sheets.extend(sample_sheets().into_iter().map(|(.., bytes)| bytes));
        for bytes in sheets.into_iter().filter(|bytes| is_raw(bytes)) {
            let _ = fs::remove_file(&out);
            fs::write(&file, &bytes).unwrap();
            let command = if form.is_wide() { "narrow" } else { "widen" };
            let (file, words) = (file.display(), out.display());
            let run = card(&format!("{command} {file} {words}"));
            let (Made { number, .. }, other) = converted(&bytes, form);
            let otherwise = match form {
                Form::Narrow => "  it is a wide sheet already",
                Form::Wide => "  it is a narrow sheet already",
            };
            let lines = match number {
                0 => vec![],
                24 => lengths(&bytes, form, otherwise),
                _ => vec![too_large(&bytes)],
            };
            if number == 0 {
                run.assert_written(&out, &other);
            } else {
                run.assert_refused(number, &out);
            }
            assert_eq!(told(&run), lines);
            let is_hint = lines.iter().any(|line| line == otherwise);
            *counts.entry((form.is_wide(), number, is_hint)).or_insert(0) += 1;
        }
    }
    println!("{counts:?}");
    for is_wide in [false, true] {
        for kind in [(0, false), (24, false), (24, true)] {
            let count = counts[&(is_wide, kind.0, kind.1)];
            assert!(count > 5, "{kind:?} {counts:?}");
        }
    }
    assert!(counts[&(true, 33, false)] > 10, "{counts:?}");
}

/// What is said of a wide sheet that is too large to be narrowed.
fn too_large(bytes: &[u8]) -> String {
    let (count, total) = Form::Wide.sizes(bytes);
    format!("  {count} blocks with {total} bytes of bodies; a narrow sheet has up to 255 of each")
}

/// The sample sheets, as samples/README.md lists them, are written in the layout that it names; and the image is a card's that
/// the newest reader accepts.
#[test]
fn sheets_that_are_stored() {
    let folder = temporary("stored_sheets");
    let out = folder.join("card.rom");
    let mut numbers = BTreeSet::new();
    for (name, form, layout, bytes) in sample_sheets() {
        let _ = fs::remove_file(&out);
        let (size, wide, words) = (layout.size, wide(form), out.display());
        let run = card(&format!("write samples/{name} {words} --size {size}{wide}"));
        let mut image = vec![0; size.into()];
        let number = sheet::write(&bytes, form, layout, false, &mut image);
        numbers.insert(number);
        if number != 0 {
            run.assert_refused(number, &out);
            continue;
        }
        run.assert_written(&out, &image);
        let arguments = Arguments::newest(form.chip(&bytes)).laid_out(layout);
        assert_eq!(read_all(&image, arguments).0.number, 0, "{name}");
        let words = words_of(&out, arguments, &image);
        assert_eq!(card(&format!("read {words}")).status, 0, "{name}");
    }
    assert_eq!(numbers, BTreeSet::from([0, 33]));
}

fn words_of(file: &Path, arguments: Arguments, image: &[u8]) -> String {
    format!("{} {}", file.display(), words(arguments, image))
}
