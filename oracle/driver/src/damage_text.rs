//! Damaged copies of texts.

use crate::damage::repeated;
use crate::random::Random;

/// The bytes of good texts.
pub const ALPHABET: &[u8; 13] = b"0123456789,-\n";

/// Bytes beside the digits, and others that some readers skip or take for an end.
const STRANGE: &[u8; 10] = b"\0\r \t+./:\x80\xff";

/// Fields that are no numbers.
const NO_NUMBERS: [&str; 14] = ["", "-", "-0", "+1", "00", "01", "-01", " 1", "1 ", "--1", "1-", "1.0", "1e1", "0x1"];

/// Fields of about nine digits, and of more than some integers hold.
const LONG: [&str; 8] = [
    "999999999",
    "-999999999",
    "1000000000",
    "-1000000000",
    "0000000001",
    "2147483648",
    "4294967297",
    "18446744073709551617",
];

/// Lots at their limits and past them.
const LOTS: [&str; 4] = ["-1", "0", "9999", "10000"];

/// What is put before a line and what ends it.
const AROUND: [(&str, &str); 12] = [
    ("", "\r\n"),
    ("", ",\n"),
    (",", "\n"),
    ("", ",0\n"),
    ("", ",0,0\n"),
    ("0,", "\n"),
    (" ", "\n"),
    ("", " \n"),
    ("", ""),
    ("", ","),
    ("", "\0\n"),
    ("\u{feff}", "\n"),
];

/// A copy damaged once to three times. Some are good all the same.
pub fn damaged(text: &[u8], random: &mut Random) -> Vec<u8> {
    repeated(text, random, |copy, random| match random.below(10) {
        0..=2 => with_byte(copy, random),
        3..=5 => with_field(copy, random),
        6..=8 => with_line(copy, random),
        _ => with_end(copy, random),
    })
}

/// One byte changed, inserted or removed.
fn with_byte(mut text: Vec<u8>, random: &mut Random) -> Vec<u8> {
    if text.is_empty() {
        return text;
    }
    let place = random.below(text.len());
    let byte = if random.chance(60) { random.pick(ALPHABET) } else { random.pick(STRANGE) };
    match random.below(3) {
        0 => text[place] = byte,
        1 => text.insert(place, byte),
        _ => drop(text.remove(place)),
    }
    text
}

/// One field replaced, or a byte more before or after it.
fn with_field(mut text: Vec<u8>, random: &mut Random) -> Vec<u8> {
    let place = random.below(text.len() + 1);
    let ends = |byte: &u8| b",\n".contains(byte);
    let from = text[..place].iter().rposition(ends).map_or(0, |before| before + 1);
    let to = text[place..].iter().position(ends).map_or(text.len(), |after| place + after);
    let field = &text[from..to];
    let other = match random.below(7) {
        0 => [b"0", field].concat(),
        1 => [b"-", field].concat(),
        2 => [field, b"0"].concat(),
        3 | 4 => random.pick(&LONG).into(),
        _ => random.pick(&NO_NUMBERS).into(),
    };
    text.splice(from..to, other);
    text
}

fn with_line(text: Vec<u8>, random: &mut Random) -> Vec<u8> {
    if text.is_empty() {
        return text;
    }
    let mut lines: Vec<&[u8]> = text.split_inclusive(|&byte| byte == b'\n').collect();
    let [one, other] = [(); 2].map(|()| random.below(lines.len()));
    let changed;
    match random.below(9) {
        0 => lines.insert(one, lines[one]),
        1 => drop(lines.remove(one)),
        2 => lines.swap(one, other),
        3 => lines.insert(one, b"\n"),
        kind => {
            let change = [with_around, with_around, with_comma, with_comma, with_lot][kind - 4];
            changed = change(lines[one], random);
            lines[one] = &changed;
        }
    }
    lines.concat()
}

/// Something before the line, or another end.
fn with_around(line: &[u8], random: &mut Random) -> Vec<u8> {
    let (before, end) = random.pick(&AROUND);
    let line = line.strip_suffix(b"\n").unwrap_or(line);
    [before.as_bytes(), line, end.as_bytes()].concat()
}

/// The line cut in two at a comma, ended there, or with two or none for it.
fn with_comma(line: &[u8], random: &mut Random) -> Vec<u8> {
    let commas: Vec<usize> = (0..line.len()).filter(|&place| line[place] == b',').collect();
    if commas.is_empty() {
        return line.to_vec();
    }
    let place = random.pick(&commas);
    let (before, after) = (&line[..place], &line[place + 1..]);
    match random.below(4) {
        0 => [before, b"\n", after].concat(),
        1 => [before, b"\n"].concat(),
        2 => [before, b",,", after].concat(),
        _ => [before, after].concat(),
    }
}

/// Another last field, which is a segment's lot.
pub fn with_lot(line: &[u8], random: &mut Random) -> Vec<u8> {
    let from = line.iter().rposition(|&byte| byte == b',').map_or(0, |comma| comma + 1);
    [&line[..from], random.pick(&LOTS).as_bytes(), b"\n"].concat()
}

/// The last LF missing, more at the end, a text cut anywhere, or all ends of lines others.
fn with_end(mut text: Vec<u8>, random: &mut Random) -> Vec<u8> {
    match random.below(6) {
        0 | 1 => drop(text.pop()),
        2 => text.extend(random.pick(&["\n", "\0", "0", "\r\n", ",\n"]).as_bytes()),
        3 => text.truncate(random.below(text.len() + 1)),
        4 => text.iter_mut().filter(|byte| **byte == b'\n').for_each(|byte| *byte = b'\r'),
        _ => text = text.split(|&byte| byte == b'\n').collect::<Vec<_>>().join(&b"\r\n"[..]),
    }
    text
}
