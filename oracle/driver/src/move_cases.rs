//! Drawings and texts that are always written and moved: limits met and passed, and faults of every kind.

use crate::case_texts;
use crate::choices::Choices;
use crate::drawing::{comma_text, numbers, Point, Segment, FARTHEST, MOST_LOT, MOST_SEGMENTS, MOST_WINDING};
use crate::forms::{without_lots, OLD_WIDTH};
use crate::grow::{grown, LONGEST};
use crate::mover::Asked;
use crate::refusals;
use crate::text::MOST_BYTES;
use std::collections::HashSet;

/// Those of the stored runs.
pub fn drawings() -> Vec<(Choices, Vec<i32>)> {
    [refusals::clips(), refusals::moves()].concat()
}

/// The stored cases and the longest lines; then as many bytes without lots as may be, and one more, in few lines.
pub fn texts() -> Vec<Vec<u8>> {
    let longest = comma_text(&longest_lines(), refusals::KNOWN).into_bytes();
    let old = |bytes| grown::<OLD_WIDTH>(b"1,0,1\n".to_vec(), bytes, OLD_WIDTH * LONGEST);
    let cases = case_texts::all().into_iter().map(|(_, text)| text);
    cases.chain([longest]).chain([MOST_BYTES, MOST_BYTES + 1].map(old)).collect()
}

/// Calls that are always stored, with how many bytes each is lent: as many as are needed and one less, or none at all
/// where something comes before 11. Drawings that differ in lots alone are one text without them.
pub fn stored() -> Vec<(Asked, usize)> {
    let of_drawing = |(choices, numbers): (Choices, Vec<i32>)| {
        let text = comma_text(&numbers, choices).into_bytes();
        [Asked::Write(numbers, choices), Asked::OldToNew(without_lots(&text)), Asked::NewToOld(text)]
    };
    let malformed = MALFORMED.iter().flat_map(|text| {
        let [one, other] = [(); 2].map(|()| text.as_bytes().to_vec());
        [Asked::OldToNew(one), Asked::NewToOld(other)]
    });
    let lent = |asked: Asked| {
        let due = asked.due();
        let lengths = if due.answer(due.needed()).is_ok() { vec![due.needed(), due.needed() - 1] } else { vec![0] };
        lengths.into_iter().map(move |lent| (asked.clone(), lent))
    };
    let calls = refusals::moves().into_iter().flat_map(of_drawing).chain(malformed).flat_map(lent);
    let mut seen = HashSet::new();
    calls.filter(|call| seen.insert(call.clone())).collect()
}

/// By one of the functions at least.
const MALFORMED: [&str; 7] = [
    "",
    "1,0\n",
    "1,0,1\n0,0,1,0,0,1\n",
    "1,0,1\n0,0,1,0,0,1,0\n",
    "1,0,1\n0,0,1,0,0,1\n1,0,2,0,0,1,0\n",
    "1,0,1\n0,0,1,0,0,1,0\n1,0,2,0,0,1\n",
    "1,0,1\n0,0,1,0,0,01\n",
];

/// As many segments as may be, in triangles, two sides of each in a line of as many bytes as an accepted one can have.
fn longest_lines() -> Vec<i32> {
    let side = |a, b, winding| Segment { a, b, winding, bits: 3, lot: MOST_LOT };
    let triangle = |k: i32| {
        let corner = |x, y| -> Point { (3 * k + x - FARTHEST, y - FARTHEST) };
        let [p, q, r] = [corner(0, 0), corner(1, 1), corner(2, 0)];
        [side(p, q, -MOST_WINDING), side(p, r, MOST_WINDING), side(q, r, -MOST_WINDING)]
    };
    let triangles = MOST_SEGMENTS as i32 / 3;
    let [line, ..] = triangle(triangles);
    let sides = (0..triangles).flat_map(triangle).chain([Segment { winding: 0, ..line }]);
    numbers(&sides.collect::<Vec<_>>())
}
