//! The texts of the stored cases, each with its name.

use crate::choices::Choices;
use crate::drawing::{comma_text, commas, numbers, Segment, FARTHEST, MOST_SEGMENTS, WIDTH};
use crate::grow::grown;
use crate::text::MOST_BYTES;

pub fn all() -> Vec<(&'static str, Vec<u8>)> {
    let runs = RUNS.map(|(name, choices, segments)| (name, format!("{choices}\n{segments}").into_bytes()));
    let malformed = MALFORMED.map(|(name, text)| (name, text.to_vec()));
    runs.into_iter().chain(malformed).chain(long()).collect()
}

/// Document 01's case A.
const A: &str = "\
-5,5,0,5,0,1,0
0,0,0,5,-1,0,0
0,0,10,0,1,0,0
0,5,0,10,-1,0,0
0,5,10,5,0,1,0
0,10,10,10,-1,0,0
10,0,10,5,1,0,0
10,5,10,10,1,0,0
10,5,15,5,0,1,0
";

/// A square with lines along its outline.
const EDGES: &str = "\
0,0,0,2,-1,1,0
0,0,2,0,1,1,0
0,2,2,2,-1,2,0
2,0,2,2,1,3,0
";

/// A square wound twice, with a line across.
const TWICE: &str = "\
0,0,0,2,-2,0,0
0,0,2,0,2,0,0
0,0,2,2,0,3,0
0,2,2,2,-2,0,0
2,0,2,2,2,0,0
";

/// Case A with lots on its segments, lines and others.
const LOTS: &str = "\
-5,5,0,5,0,1,12
0,0,0,5,-1,0,3
0,0,10,0,1,0,0
0,5,0,10,-1,0,9999
0,5,10,5,0,1,7
0,10,10,10,-1,0,1
10,0,10,5,1,0,0
10,5,10,10,1,0,12
10,5,15,5,0,1,0
";

/// Name, choices and segments: accepted runs, then one for each refusal of a short text that is well formed, then some
/// for which several refusals fit.
const RUNS: [(&str, &str, &str); 44] = [
    ("a_inside", "1,0,1", A),
    ("a_outside", "1,1,1", A),
    ("a_inside_excluded", "1,0,0", A),
    ("a_outside_excluded", "1,1,0", A),
    ("edges_inside", "1,0,1", EDGES),
    ("edges_outside", "1,1,1", EDGES),
    ("edges_inside_excluded", "1,0,0", EDGES),
    ("edges_outside_excluded", "1,1,0", EDGES),
    ("even_odd", "0,0,1", TWICE),
    ("positive", "2,0,1", TWICE),
    ("negative", "3,0,1", TWICE),
    ("no_segments", "1,0,1", ""),
    ("both_ways", "1,1,1", "0,0,1,0,0,3,0\n"),
    ("backward", "1,1,1", "0,0,1,0,0,2,0\n1,0,2,0,0,2,0\n"),
    ("two_paths", "1,1,1", "0,0,2,-1,0,1,0\n0,0,2,1,0,2,0\n"),
    ("meets_at_end", "1,1,1", "0,0,2,0,0,1,0\n2,0,2,1,0,1,0\n"),
    ("farthest", "1,1,1", "-16777216,0,16777216,0,0,1,0\n"),
    ("lots_inside", "1,0,1", LOTS),
    ("lots_outside", "1,1,1", LOTS),
    ("lot_9999", "1,1,1", "0,0,1,0,0,1,9999\n"),
    ("rule_4", "4,0,1", A),
    ("rule_minus_1", "-1,0,1", A),
    ("invert_2", "1,2,1", A),
    ("boundary_2", "1,0,2", A),
    ("too_far", "1,1,1", "0,0,16777217,0,0,1,0\n"),
    ("too_far_back", "1,1,1", "0,0,1,0,0,1,0\n0,-16777217,1,0,0,1,0\n"),
    ("nine_digits", "1,1,1", "0,0,1,0,0,1,0\n0,0,999999999,-999999999,0,1,0\n"),
    ("not_less", "1,1,1", "0,0,1,0,0,1,0\n1,0,1,0,0,1,0\n"),
    ("winding_1001", "1,1,1", "0,0,1,0,1001,1,0\n"),
    ("bits_4", "1,1,1", "0,0,1,0,0,4,0\n"),
    ("lot_10000", "1,1,1", "0,0,1,0,0,1,10000\n"),
    ("lot_minus_1", "1,1,1", "0,0,1,0,0,1,7\n1,0,2,0,0,1,-1\n"),
    ("lot_nine_digits", "1,1,1", "0,0,1,0,0,1,0\n1,0,2,0,0,0,-999999999\n"),
    ("unordered", "1,1,1", "1,0,2,0,0,1,0\n0,0,1,0,0,1,0\n"),
    ("meets_between", "1,1,1", "0,0,2,0,0,1,0\n1,0,1,1,0,1,0\n"),
    ("unbalanced", "1,1,1", "0,0,1,0,0,1,0\n1,0,2,0,0,1,0\n2,0,3,0,1,1,0\n"),
    ("choice_before_coordinate", "4,0,1", "0,0,16777217,0,0,1,0\n"),
    ("choice_before_lot", "4,0,1", "0,0,1,0,0,1,10000\n"),
    ("bits_before_lot", "1,0,1", "0,0,1,0,0,4,10000\n"),
    ("lot_before_order", "1,0,1", "1,0,2,0,0,1,0\n0,0,1,0,0,1,10000\n"),
    ("order_before_later_lot", "1,0,1", "1,0,2,0,0,1,0\n0,0,1,0,0,1,0\n0,0,1,0,0,1,-1\n"),
    ("text_before_coordinate", "1,0,1", "0,0,16777217,0,0,1,0\n0,0,1,0,0,1,0\n0,0,1,0,0,1,0,\n"),
    ("text_before_choice", "4,0,1", "0,0,1,0,0,1\n"),
    ("two_bad_lines", "1,0,1", "0,0,1,0,0,1,0\n0,0,1,0,0,1\n0,0,1,0\n"),
];

/// Short texts that are malformed.
const MALFORMED: [(&str, &[u8]); 23] = [
    ("empty", b""),
    ("lone_lf", b"\n"),
    ("no_last_lf", b"1,0,1\n0,0,1,0,0,1,0"),
    ("first_line_no_lf", b"1,0,1"),
    ("first_line_two", b"1,0\n0,0,1,0,0,1,0\n"),
    ("first_line_four", b"1,0,1,0\n0,0,1,0,0,1,0\n"),
    ("first_line_seven", b"0,0,1,0,0,1,0\n"),
    ("six_fields", b"1,0,1\n0,0,1,0,0,1\n"),
    ("eight_fields", b"1,0,1\n0,0,1,0,0,1,0,0\n"),
    ("trailing_comma", b"1,0,1\n0,0,1,0,0,1,0,\n"),
    ("empty_field", b"1,0,1\n0,0,1,,0,1,0\n"),
    ("empty_lot", b"1,0,1\n0,0,1,0,0,1,\n"),
    ("blank_line", b"1,0,1\n0,0,1,0,0,1,0\n\n"),
    ("plus", b"1,0,1\n0,0,+1,0,0,1,0\n"),
    ("leading_zero", b"1,0,1\n0,0,01,0,0,1,0\n"),
    ("lot_leading_zero", b"1,0,1\n0,0,1,0,0,1,007\n"),
    ("minus_zero", b"1,0,1\n0,-0,1,0,0,1,0\n"),
    ("lone_minus", b"1,0,1\n0,-,1,0,0,1,0\n"),
    ("ten_digits", b"1,0,1\n0,0,1000000000,0,0,1,0\n"),
    ("cr", b"1,0,1\n0,0,1,0,0,1,0\r\n"),
    ("space", b"1,0,1\n0,0, 1,0,0,1,0\n"),
    ("nul", b"1,0,1\n0,0,1,0,0,1,0\0\n"),
    ("over_127", b"1,0,1\n0,0,1,0,0,1,\xb1\n"),
];

/// Texts that are long for a reason.
fn long() -> [(&'static str, Vec<u8>); 9] {
    let most = grown::<WIDTH>(b"1,0,1\n".to_vec(), MOST_BYTES, 14);
    let bad_end = [&most[..MOST_BYTES - 2], b"-\n"].concat();
    [
        ("travel_over_32_bits", far_and_back()),
        ("segments_1024", rows()),
        ("segments_1025", alike("1,0,1", MOST_SEGMENTS + 1, "")),
        ("segments_before_choice", alike("4,0,1", MOST_SEGMENTS + 1, "")),
        ("segments_1025_bad_line", alike("1,0,1", MOST_SEGMENTS + 1, "0\n")),
        ("bytes_65536", most),
        ("bytes_65536_bad_line", bad_end),
        ("bytes_65537", grown::<WIDTH>(b"1,0,1\n".to_vec(), MOST_BYTES + 1, 14)),
        ("bytes_65537_no_line", vec![b'0'; MOST_BYTES + 1]),
    ]
}

/// A line there and back from one corner of the range to each of so many points of another side that the travel needs
/// more than 32 bits.
fn far_and_back() -> Vec<u8> {
    let corner = (-FARTHEST, -FARTHEST);
    outside((0..33).map(|i| Segment { a: corner, b: (FARTHEST, FARTHEST - i), winding: 0, bits: 3, lot: 0 }))
}

/// As many segments as may be, in 32 rows, the last a line, each of its own lot.
fn rows() -> Vec<u8> {
    let segment = |i: i32| {
        let (column, row) = (i / 32, i % 32);
        Segment { a: (column, row), b: (column + 1, row), winding: 0, bits: i32::from(row == 31), lot: i }
    };
    outside((0..MOST_SEGMENTS as i32).map(segment))
}

fn outside(segments: impl Iterator<Item = Segment>) -> Vec<u8> {
    let numbers = numbers(&segments.collect::<Vec<_>>());
    comma_text(&numbers, Choices { rule: 1, invert: 1, boundary: 1 }).into_bytes()
}

/// So many lines that are the same, and a last one.
fn alike(choices: &str, lines: usize, last: &str) -> Vec<u8> {
    let line = commas(&[0; WIDTH]) + "\n";
    format!("{choices}\n{}{last}", line.repeat(lines)).into_bytes()
}
