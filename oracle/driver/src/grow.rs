//! Makes a text as long as wanted, by good lines.

use crate::drawing::commas;

/// How many bytes the shortest field has: a digit, with a comma or LF.
pub const SHORTEST: usize = 2;

/// A number can have so many bytes more than a digit: a minus and nine digits.
const MOST_MORE: usize = 9;

pub const LONGEST: usize = SHORTEST + MOST_MORE;

/// The lines added have so many fields, and so many bytes each but for the last ones. The text must become longer by a
/// line at least.
pub fn grown<const FIELDS: usize>(mut text: Vec<u8>, bytes: usize, each: usize) -> Vec<u8> {
    while text.len() < bytes {
        let rest = bytes - text.len();
        let length = if rest <= FIELDS * LONGEST { rest } else { each.min(rest - FIELDS * SHORTEST) };
        text.extend(line::<FIELDS>(length).into_bytes());
    }
    text
}

/// A line of so many bytes.
fn line<const FIELDS: usize>(bytes: usize) -> String {
    let mut more = bytes - FIELDS * SHORTEST;
    let fields = [(); FIELDS].map(|()| {
        let here = more.min(MOST_MORE);
        more -= here;
        number(1 + here)
    });
    commas(&fields) + "\n"
}

/// A number of so many bytes.
fn number(bytes: usize) -> String {
    let ones = "1".repeat(bytes.min(MOST_MORE));
    if bytes > MOST_MORE {
        format!("-{ones}")
    } else {
        ones
    }
}
