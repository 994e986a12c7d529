//! Images as text, as docs/FORMATS.md has them.

use crate::Part;
use ee_store::{Shape, Word};

/// The part of an image, `None` if the text is none.
pub fn read(text: &str) -> Option<Part> {
    let mut lines = text.strip_suffix('\n')?.split('\n');
    let (pages, words) = lines.next()?.strip_prefix("ee ")?.split_once(' ')?;
    let mut part = Part::blank(Shape::new(pages.parse().ok()?, words.parse().ok()?)?);
    for page in 0..part.pages.len() {
        let mut fields = lines.next()?.split(' ');
        part.wear[page] = fields.next()?.parse().ok()?;
        for word in &mut part.pages[page] {
            *word = read_word(fields.next()?)?;
        }
        if fields.next().is_some() {
            return None;
        }
    }
    match lines.next() {
        None => Some(part),
        Some(_) => None,
    }
}

fn read_word(field: &str) -> Option<Word> {
    match field {
        "-" => Some(Word::Erased),
        "?" => Some(Word::Torn),
        "ffffffffffffffff" => None,
        digits if digits.len() == 16 => u64::from_str_radix(digits, 16).ok().map(Word::Held),
        _ => None,
    }
}

/// The image of a part.
pub fn write(part: &Part) -> String {
    let mut text = format!("ee {} {}\n", part.shape.pages(), part.shape.words());
    for (words, wear) in part.pages.iter().zip(&part.wear) {
        text += &wear.to_string();
        for word in words {
            text += &match word {
                Word::Erased => " -".to_string(),
                Word::Torn => " ?".to_string(),
                Word::Held(number) => format!(" {number:016x}"),
            };
        }
        text.push('\n');
    }
    text
}
