//! The two forms of a text: the old one, six fields a segment, and the new one, in which the lot is the last field.

use crate::drawing::WIDTH;

/// How many fields a segment has in the old form.
pub const OLD_WIDTH: usize = WIDTH - 1;

/// A text of the old form in the new one: every segment gets the lot 0.
pub fn with_lots(text: &[u8]) -> Vec<u8> {
    by_segments(text, |line| [line, b",0"].concat())
}

/// A text of the new form in the old one: every segment loses its last field.
pub fn without_lots(text: &[u8]) -> Vec<u8> {
    by_segments(text, |line| {
        let end = line.iter().rposition(|&byte| byte == b',').unwrap_or(line.len());
        line[..end].to_vec()
    })
}

/// Changes every line but the first. What follows the last LF of a good text is empty, and no line.
fn by_segments(text: &[u8], change: fn(&[u8]) -> Vec<u8>) -> Vec<u8> {
    let lines = text.split(|&byte| byte == b'\n').enumerate();
    let changed = lines.map(|(place, line)| if place == 0 || line.is_empty() { line.to_vec() } else { change(line) });
    changed.collect::<Vec<_>>().join(&b'\n')
}
