//! Runs that are always stored: each refusal at its first, a middle and its last place, which of two faults comes first,
//! and limits exactly met and passed by one. The lists are long enough in all of them.

use crate::choices::{Choices, SliceChoices};
use crate::drawing::{numbers, Point, Segment, FARTHEST, MOST_LOT, MOST_SEGMENTS, MOST_WINDING, WIDTH};
use crate::trials::A;

/// Rules with their drawings: the rule at its limits and past them.
pub fn fills() -> Vec<(i32, Vec<i32>)> {
    [0, 3, 4, -1].map(|rule| (rule, A.to_vec())).into()
}

/// Rules, directions and areas with their drawings: the choices past their limits. (Case A in both directions is among
/// the trials.)
pub fn slices() -> Vec<(SliceChoices, Vec<i32>)> {
    [[i32::MAX, 0], [1, 2], [1, -1]].map(|choices| (SliceChoices::new(choices, 0), A.to_vec())).into()
}

/// Choices with their drawings.
pub fn clips() -> Vec<(Choices, Vec<i32>)> {
    let choices = choices().into_iter().chain(before_drawings());
    let drawings = [by_place(), by_order(), lengths(), meetings(), limits(), lots(), rows()].concat();
    choices.chain(drawings.into_iter().map(|drawing| (KNOWN, drawing))).collect()
}

/// Those of the drawings that are about single segments: they are tried with every function.
pub fn faults() -> Vec<Vec<i32>> {
    [by_place(), by_order(), limits(), lots()].concat()
}

/// Choices with drawings to write and to move: without lots and with, and with a fault of every kind beside a lot.
pub fn moves() -> Vec<(Choices, Vec<i32>)> {
    let alterations: [&[Alteration]; 13] = [
        &[],
        &[(0, LOT, 12), (4, LOT, 7)],
        &[(4, LOT, MOST_LOT)],
        &[(8, LOT, 1)],
        &[(0, LOT, 1), (8, LOT, MOST_LOT + 1)],
        &[(0, LOT, -1)],
        &[(4, BX, FARTHEST + 1), (0, LOT, 1)],
        &[(4, BX, 0), (0, LOT, 1)],
        &[(4, WINDING, MOST_WINDING + 1), (0, LOT, 1)],
        &[(4, BITS, 4), (0, LOT, 1)],
        &[(4, AY, 4), (0, LOT, 1)],
        &[(4, BX, 11), (0, LOT, 1)],
        &[(8, WINDING, 1), (4, LOT, 1)],
    ];
    let altered = alterations.map(|alterations| (KNOWN, with(alterations)));
    let unknown = [with(&[(0, LOT, 1)]), A[..A.len() - 1].to_vec()];
    let unknown = unknown.map(|numbers| (Choices { rule: 4, ..KNOWN }, numbers));
    altered.into_iter().chain(unknown).chain([(KNOWN, Vec::new())]).collect()
}

/// What a drawing is clipped by that has something to show by itself.
pub const KNOWN: Choices = Choices { rule: 1, invert: 0, boundary: 1 };

// ---- choices

/// Known ones, and each choice past its limits.
fn choices() -> Vec<(Choices, Vec<i32>)> {
    let choices = [[1, 0, 1], [2, 1, 0], [i32::MIN, 0, 0], [1, 2, 1], [1, -1, 1], [1, 0, 2], [1, 0, -1]];
    choices.map(|choices| (choices.into(), A.to_vec())).into()
}

/// A length of no whole segments comes before an unknown choice, and that before the segments.
fn before_drawings() -> Vec<(Choices, Vec<i32>)> {
    let far = with(&[(0, AX, FARTHEST + 1)]);
    vec![
        (Choices { rule: 4, ..KNOWN }, A[..A.len() - 1].to_vec()),
        (Choices { invert: 2, ..KNOWN }, far.clone()),
        (KNOWN, far),
    ]
}

// ---- case A with numbers altered

/// The place of a segment, which of its numbers is altered, and to what.
type Alteration = (usize, usize, i32);

/// The places of a segment's numbers.
const AX: usize = 0;
const AY: usize = 1;
const BX: usize = 2;
const BY: usize = 3;
const WINDING: usize = 4;
const BITS: usize = 5;
const LOT: usize = 6;

fn with(alterations: &[Alteration]) -> Vec<i32> {
    let mut numbers = A.to_vec();
    alterations.iter().for_each(|&(place, field, value)| numbers[place * WIDTH + field] = value);
    numbers
}

/// Each refusal of a segment at its first, a middle and its last place. (9 at the last one is among the rows.)
fn by_place() -> Vec<Vec<i32>> {
    let alterations = [
        (0, AX, -FARTHEST - 1),
        (4, BY, FARTHEST + 1),
        (8, BX, FARTHEST + 1),
        (0, BX, -5),
        (4, BX, 0),
        (8, BX, 10),
        (0, WINDING, MOST_WINDING + 1),
        (4, WINDING, -MOST_WINDING - 1),
        (8, WINDING, MOST_WINDING + 1),
        (0, BITS, 4),
        (4, BITS, -1),
        (8, BITS, 4),
        (0, LOT, -1),
        (4, LOT, -1),
        (8, LOT, -1),
        (0, LOT, MOST_LOT + 1),
        (4, LOT, MOST_LOT + 1),
        (8, LOT, MOST_LOT + 1),
        (1, AX, -6),
        (4, AY, 4),
        (8, AY, 4),
        (0, BX, 1),
        (4, BX, 11),
        (8, AY, 6),
        (0, WINDING, 1),
        (8, WINDING, 1),
    ];
    alterations.map(|alteration| with(&[alteration])).into()
}

/// Which of two faults comes first: within a segment in the order 3, 4, 5, 6, 13, 7; the lower place among these; all
/// of these before 8; 8 before 9.
fn by_order() -> Vec<Vec<i32>> {
    let alterations = [
        [(4, AX, FARTHEST + 1), (4, BX, 0)],
        [(4, BX, 0), (4, WINDING, MOST_WINDING + 1)],
        [(4, WINDING, MOST_WINDING + 1), (4, BITS, 4)],
        [(4, BITS, 4), (4, AY, 4)],
        [(4, AX, FARTHEST + 1), (4, LOT, -1)],
        [(4, BX, 0), (4, LOT, MOST_LOT + 1)],
        [(4, WINDING, MOST_WINDING + 1), (4, LOT, -1)],
        [(4, BITS, 4), (4, LOT, MOST_LOT + 1)],
        [(4, BITS, -1), (4, LOT, -1)],
        [(4, LOT, MOST_LOT + 1), (4, AY, 4)],
        [(8, LOT, -1), (8, AY, 4)],
        [(3, LOT, MOST_LOT + 1), (4, AX, FARTHEST + 1)],
        [(3, AX, FARTHEST + 1), (4, LOT, MOST_LOT + 1)],
        [(3, LOT, -1), (4, AY, 4)],
        [(4, AY, 4), (5, LOT, -1)],
        [(3, LOT, i32::MAX), (4, LOT, i32::MIN)],
        [(4, LOT, MOST_LOT + 1), (0, BX, 1)],
        [(8, LOT, -1), (0, WINDING, 1)],
        [(1, AX, -6), (2, BX, FARTHEST + 1)],
        [(2, BITS, 4), (0, BX, 1)],
        [(8, WINDING, MOST_WINDING + 1), (0, WINDING, 1)],
        [(4, BX, 11), (0, BX, 1)],
        [(4, BX, 11), (0, WINDING, 1)],
        [(8, WINDING, 1), (0, WINDING, 1)],
    ];
    alterations.map(|both| with(&both)).into()
}

/// No numbers, and lengths of no whole segments.
fn lengths() -> Vec<Vec<i32>> {
    [0, 1, WIDTH - 1, A.len() - 1].map(|length| A[..length].to_vec()).into()
}

// ---- one, two and three segments

/// Two segments with a line each: the first one's is drawn from a, the second one's from b.
fn two([a, b, c, d]: [Point; 4]) -> Vec<i32> {
    let line = |a, b, bits| Segment { a, b, winding: 0, bits, lot: 0 };
    numbers(&[line(a, b, 1), line(c, d, 2)])
}

/// A triangle's sides with these windings.
fn triangle(windings: [i32; 3]) -> Vec<i32> {
    let side = |a, b, winding| Segment { a, b, winding, bits: 0, lot: 0 };
    let [p, q, r] = [(0, 0), (2, 0), (2, 2)];
    numbers(&[side(p, q, windings[0]), side(p, r, windings[1]), side(q, r, windings[2])])
}

/// Wrong meetings of each kind, beside ones that are right.
fn meetings() -> Vec<Vec<i32>> {
    let lines = [
        [(0, 0), (2, 0), (1, 0), (1, 1)],
        [(0, 0), (2, 0), (2, 0), (2, 1)],
        [(0, 0), (2, 2), (0, 2), (2, 0)],
        [(0, 0), (2, 2), (0, 0), (2, 2)],
        [(0, 0), (2, 0), (1, 0), (3, 0)],
        [(0, 0), (3, 0), (1, 0), (2, 0)],
        [(0, 0), (1, 0), (2, 0), (3, 0)],
        [(0, 0), (1, 1), (0, 4), (1, 3)],
        [(0, 0), (0, 2), (0, 1), (0, 3)],
        [(0, 0), (0, 1), (0, 1), (0, 2)],
        [(0, 0), (2, 2), (0, 0), (2, 0)],
    ];
    lines.map(two).into()
}

/// Numbers at their limits and past them.
fn limits() -> Vec<Vec<i32>> {
    let one = [
        [FARTHEST, 0, FARTHEST, 1, 0, 0, 0],
        [FARTHEST + 1, 0, FARTHEST + 1, 1, 0, 0, 0],
        [0, -FARTHEST, 0, 0, 0, 0, 0],
        [0, -FARTHEST - 1, 0, 0, 0, 0, 0],
        [0, 0, 1, 0, 0, 3, 0],
        [0, 0, 1, 0, 1, 0, 0],
        [i32::MIN, i32::MIN, i32::MAX, i32::MAX, i32::MAX, i32::MAX, i32::MAX],
    ];
    let [from, to] = [(-FARTHEST, -FARTHEST), (FARTHEST, FARTHEST)];
    let [above, below] = [(-FARTHEST, FARTHEST), (FARTHEST, -FARTHEST)];
    let lines = [[from, to, above, (0, 1)], [from, to, above, below]];
    let windings = [
        [MOST_WINDING, -MOST_WINDING, MOST_WINDING],
        [-MOST_WINDING, MOST_WINDING, -MOST_WINDING],
        [MOST_WINDING, -MOST_WINDING, MOST_WINDING + 1],
        [1, -1, 0],
        [0, 0, 1],
    ];
    [&one.map(Vec::from)[..], &lines.map(two), &windings.map(triangle)].concat()
}

/// Lots of a line at their limits and past them; and on all segments of case A.
fn lots() -> Vec<Vec<i32>> {
    let lots = [1, MOST_LOT, MOST_LOT + 1, -1, i32::MAX, i32::MIN];
    let a = |lot: fn(i32) -> i32| with(&[0, 1, 2, 3, 4, 5, 6, 7, 8].map(|place| (place, LOT, lot(place as i32))));
    let of_a = [a(|_| MOST_LOT), a(|place| place), a(|place| MOST_LOT - 1000 * place)];
    [&lots.map(|lot| vec![0, 0, 1, 0, 0, 1, lot])[..], &of_a].concat()
}

// ---- many segments

/// So many segments in a row, apart from each other; the one at this place has this winding and lot.
fn row((n, place, winding, lot): (usize, usize, i32, i32)) -> Vec<i32> {
    let segment = |i: i32| Segment { a: (2 * i, 0), b: (2 * i + 1, 0), winding: 0, bits: 0, lot: 0 };
    let mut segments: Vec<_> = (0..n as i32).map(segment).collect();
    segments[place] = Segment { winding, lot, ..segments[place] };
    numbers(&segments)
}

/// As many segments as may be and one more; then faults among as many at the first, a middle and the last place.
fn rows() -> Vec<Vec<i32>> {
    let last = MOST_SEGMENTS - 1;
    let rows = [
        (MOST_SEGMENTS, 0, 0, 0),
        (MOST_SEGMENTS + 1, 0, 0, 0),
        (MOST_SEGMENTS, 0, 1, 0),
        (MOST_SEGMENTS, last / 2, 1, 0),
        (MOST_SEGMENTS, last, 1, 0),
        (MOST_SEGMENTS, last, MOST_WINDING + 1, 0),
        (MOST_SEGMENTS, last, 0, MOST_LOT + 1),
    ];
    rows.map(row).into()
}
