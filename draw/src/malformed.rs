//! The picture of a text that is no drawing: the bad line, and in grey what can be read of the others.

use crate::complaint::Complaint;
use crate::legend::{counted, Entry};
use crate::page::Page;
use crate::refused::{panels, title, told};
use crate::segment::segments;
use jumperclay::{read, Reason, Refusal, WIDTH};

/// Where lines are left out, places mean nothing.
const NOT_LABELLED: usize = 0;

/// How many numbers the first line has.
const CHOICES: usize = 3;

/// Of a longer line the beginning is shown.
const MOST_SHOWN: usize = 80;

pub fn page(text: &[u8], refusal: Refusal) -> Page {
    let lines: Vec<&[u8]> = text.split_inclusive(|&byte| byte == b'\n').collect();
    let mut legend = told(refusal);
    if refusal.reason == Reason::Line {
        legend.extend(about_line(&lines, refusal.place));
    }
    let numbers: Vec<i32> = lines.iter().skip(1).flat_map(|line| numbers(line)).collect();
    let segments = segments(&numbers);
    if !segments.is_empty() {
        legend.push(Entry::Words(format!(
            "In grey: {} of the lines that can be read.",
            counted(segments.len(), "segment")
        )));
    }
    Page { title: title(refusal), legend, panels: panels(&segments, &Complaint::default(), NOT_LABELLED) }
}

/// The numbers of a line, if the library reads them.
fn numbers(line: &[u8]) -> Vec<i32> {
    read(&[b"0,0,0\n", line].concat()).map(|text| text.segments).unwrap_or_default()
}

/// The line, and what is wrong with it.
fn about_line(lines: &[&[u8]], place: usize) -> Vec<Entry> {
    match place.checked_sub(1).and_then(|before| lines.get(before)) {
        None => vec![Entry::Words("The text is empty.".to_string())],
        Some(line) => {
            vec![Entry::Quoted(shown(line)), Entry::Words(fault(line, if place == 1 { CHOICES } else { WIDTH }))]
        }
    }
}

/// Bytes that do not print are escaped, and blanks made seen.
fn shown(line: &[u8]) -> String {
    let all = line.strip_suffix(b"\n").unwrap_or(line).escape_ascii().to_string().replace(' ', "␣");
    match all.char_indices().nth(MOST_SHOWN) {
        None => all,
        Some((end, _)) => format!("{} ... ({})", &all[..end], counted(line.len(), "byte")),
    }
}

fn fault(line: &[u8], due: usize) -> String {
    let Some(line) = line.strip_suffix(b"\n") else { return "It does not end in LF.".to_string() };
    let fields: Vec<&[u8]> = line.split(|&byte| byte == b',').collect();
    let bad = fields.iter().position(|field| !is_number(field));
    match bad {
        _ if line.is_empty() => "It is empty.".to_string(),
        _ if fields.len() != due => format!("It has {}, and {due} are due.", counted(fields.len(), "field")),
        Some(bad) => format!("Field {} is no number of at most nine digits: {}", bad + 1, shown(fields[bad])),
        None => String::new(),
    }
}

/// Whether the library takes the field for a number.
fn is_number(field: &[u8]) -> bool {
    read(&[field, b",0,0\n"].concat()).is_ok()
}

#[cfg(test)]
mod tests {
    use super::*;

    #[test]
    fn what_is_wrong_with_a_line() {
        assert_eq!(fault(b"0,0,1,0,0,1,0", WIDTH), "It does not end in LF.");
        assert_eq!(fault(b"\n", WIDTH), "It is empty.");
        assert_eq!(fault(b"1,0\n", CHOICES), "It has 2 fields, and 3 are due.");
        assert_eq!(fault(b"0,0,1,0,0,1\n", WIDTH), "It has 6 fields, and 7 are due.");
        assert_eq!(fault(b"0,0,1,0,-0,1,0\n", WIDTH), "Field 5 is no number of at most nine digits: -0");
        assert_eq!(fault(b"0,0,1\r\n", CHOICES), "Field 3 is no number of at most nine digits: 1\\r");
    }

    #[test]
    fn a_line_is_shown_escaped_and_cut() {
        assert_eq!(shown(b"a \x00\xff<\n"), r"a␣\x00\xff<");
        assert_eq!(shown(&[b'7'; 100]), "7".repeat(80) + " ... (100 bytes)");
    }

    #[test]
    fn lines_are_read_one_by_one() {
        assert_eq!(numbers(b"0,0,1,0,0,1,7\n"), [0, 0, 1, 0, 0, 1, 7]);
        assert!(numbers(b"0,0,1,0,0,1\n").is_empty());
    }
}
