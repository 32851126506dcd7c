//! A text of the new form, good or bad, in the two forms and with other lots.

use crate::damage_text::{damaged, with_lot};
use crate::forms::{with_lots, without_lots};
use crate::random::Random;

/// A name, and what makes it of the text.
pub type Variant = (&'static str, fn(&[u8], &mut Random) -> Vec<u8>);

pub const VARIANTS: [Variant; 5] = [
    ("as it is", |text, _| text.to_vec()),
    ("without lots", |text, _| without(text)),
    ("with one lot", with_one),
    ("in the old form", |text, _| without_lots(text)),
    ("damaged in the old form", |text, random| damaged(&without_lots(text), random)),
];

/// All lots 0.
pub fn without(text: &[u8]) -> Vec<u8> {
    with_lots(&without_lots(text))
}

/// All lots 0 but perhaps one, which may be out of range.
fn with_one(text: &[u8], random: &mut Random) -> Vec<u8> {
    let text = without(text);
    let mut lines: Vec<&[u8]> = text.split_inclusive(|&byte| byte == b'\n').collect();
    if lines.len() < 2 {
        return text;
    }
    let place = 1 + random.below(lines.len() - 1);
    let line = with_lot(lines[place], random);
    lines[place] = &line;
    lines.concat()
}
