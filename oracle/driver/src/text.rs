//! The comma text, read by the prose of documents 01 and 02.

use crate::choices::Choices;
use crate::drawing::WIDTH;

pub const MOST_BYTES: usize = 65_536;

/// Numbers are less than this, with a minus or without one: they have at most nine digits.
const TEN_DIGITS: u32 = 1_000_000_000;

/// The choices and the numbers of the segments; or the first bad line, 0 where the text is too long.
pub fn read(text: &[u8]) -> Result<(Choices, Vec<i32>), u64> {
    let (choices, rows) = rows::<WIDTH>(text)?;
    Ok((choices, rows.concat()))
}

/// The same where segments have so many fields: a row of numbers each.
pub fn rows<const FIELDS: usize>(text: &[u8]) -> Result<(Choices, Vec<[i32; FIELDS]>), u64> {
    if text.len() > MOST_BYTES {
        return Err(0);
    }
    let mut lines = (1..).zip(text.split_inclusive(|&byte| byte == b'\n'));
    let first = lines.next().and_then(|(_, line)| row(line)).ok_or(1u64)?;
    let rows: Result<Vec<_>, u64> = lines.map(|(place, line)| row(line).ok_or(place)).collect();
    Ok((Choices::from(first), rows?))
}

/// The numbers of a line, where it ends in LF and has so many.
fn row<const FIELDS: usize>(line: &[u8]) -> Option<[i32; FIELDS]> {
    let fields = line.strip_suffix(b"\n")?.split(|&byte| byte == b',');
    fields.map(number).collect::<Option<Vec<_>>>()?.try_into().ok()
}

/// Each number can be written in one way only.
fn number(field: &[u8]) -> Option<i32> {
    let field = str::from_utf8(field).ok()?;
    let number: i32 = field.parse().ok()?;
    (number.to_string() == field && number.unsigned_abs() < TEN_DIGITS).then_some(number)
}
