//! The media table of an image's first controller: `media IMAGE CHIP [magic]`, with the last word
//! where the image has a Magic Packet block. The file's length is the ROM's size.

use library::{Arguments, Layout, read, view};
use second::reader::HIGHEST_COUNT;
use std::{env, fs, process::exit};

fn main() {
    let words: Vec<_> = env::args().skip(1).collect();
    let words: Vec<_> = words.iter().map(String::as_str).collect();
    let (name, chip, magic) = match words[..] {
        [name, chip] => (name, chip, false),
        [name, chip, "magic"] => (name, chip, true),
        _ => {
            eprintln!("usage: media IMAGE CHIP [magic]");
            exit(2);
        }
    };
    let (Ok(image), Ok(chip)) = (fs::read(name), chip.parse()) else {
        eprintln!("media: {name} cannot be read, or {chip} is no chip");
        exit(2);
    };
    let size = image.len().try_into().unwrap_or(0);
    let arguments = Arguments::newest(chip).laid_out(Layout { size, magic });
    let (mut kinds, mut offsets) = ([0; HIGHEST_COUNT], [0; HIGHEST_COUNT]);
    let answer = read(&image, arguments, &mut kinds, &mut offsets);
    if answer.number != 0 {
        println!("refused {}", answer.number);
        exit(1);
    }
    for entry in 0..usize::from(answer.listed) {
        let (kind, offset) = (kinds[entry], offsets[entry]);
        println!(
            "kind {kind} at byte {offset}: {:02x?}",
            view(&image, arguments, entry)
        );
    }
}
