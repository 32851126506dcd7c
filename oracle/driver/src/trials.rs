//! Drawings to slice and points to split that are always tried: document 01's, and others where it is easy to go wrong.

use crate::choices::SliceChoices;
use crate::drawing::{flat, Point, FARTHEST, MOST_POINTS, WIDTH};

/// Document 01's case A. Its trial drawings have no lots.
pub const A: [i32; 9 * WIDTH] = [
    -5, 5, 0, 5, 0, 1, 0, 0, 0, 0, 5, -1, 0, 0, 0, 0, 10, 0, 1, 0, 0, 0, 5, 0, 10, -1, 0, 0, 0, 5, 10, 5, 0, 1, 0, 0,
    10, 10, 10, -1, 0, 0, 10, 0, 10, 5, 1, 0, 0, 10, 5, 10, 10, 1, 0, 0, 10, 5, 15, 5, 0, 1, 0,
];

const TRIANGLE: [Point; 3] = [(4, 0), (4, 4), (0, 0)];

/// Points of which every short list is split. Loops of three of them have areas of 6.5, 7.5 and 8.
pub const LETTERS: [Point; 4] = [(0, 0), (4, 1), (3, 4), (-1, 4)];

/// Rules, directions and areas with their drawings.
pub fn slices() -> Vec<(SliceChoices, Vec<i32>)> {
    let nonzero = |direction, min_area| SliceChoices { rule: 1, direction, min_area };
    vec![
        (nonzero(0, 0), A.to_vec()),
        (nonzero(1, 0), A.to_vec()),
        (nonzero(0, 50), A.to_vec()),
        (nonzero(0, 51), A.to_vec()),
        (nonzero(0, 0), Vec::new()),
        (nonzero(0, 8), triangle(4)),
        (nonzero(0, 9), triangle(4)),
        (nonzero(1, 0), triangle(FARTHEST)),
        (nonzero(1, 0), triangle(FARTHEST + 1)),
        (nonzero(0, 9), frame()),
        (nonzero(1, 9), frame()),
        (nonzero(0, 10), frame()),
    ]
}

/// (0,0), (x,0), (x,4).
fn triangle(x: i32) -> Vec<i32> {
    vec![0, 0, x, 0, 1, 0, 0, 0, 0, x, 4, -1, 0, 0, x, 0, x, 4, 1, 0, 0]
}

/// A square with a square hole.
fn frame() -> Vec<i32> {
    let outer = [[0, 0, 0, 9, -1, 0, 0], [0, 0, 9, 0, 1, 0, 0], [0, 9, 9, 9, -1, 0, 0]];
    let inner = [[3, 3, 3, 6, 1, 0, 0], [3, 3, 6, 3, -1, 0, 0], [3, 6, 6, 6, 1, 0, 0], [6, 3, 6, 6, -1, 0, 0]];
    [&outer[..], &inner[..], &[[9, 0, 9, 9, 1, 0, 0]]].concat().concat()
}

/// Areas with their points.
pub fn splits() -> Vec<(u64, Vec<i32>)> {
    let end = |x| flat(&[(x, 0), (4, 4), (0, 0)]);
    // Over and over through the same points, and new ones in between.
    let long = |points: usize| flat(&(0..points as i32).map(|k| (k * k % 97, k % 61)).collect::<Vec<_>>());
    let more = [
        (8, flat(&TRIANGLE)),
        (9, flat(&TRIANGLE)),
        (0, end(FARTHEST)),
        (0, end(FARTHEST + 1)),
        (0, long(MOST_POINTS)),
        (0, long(MOST_POINTS + 1)),
    ];
    lists().iter().map(|list| (0, flat(list))).chain(more).collect()
}

/// Document 01's, equal neighbours, and a large area.
fn lists() -> Vec<Vec<Point>> {
    let [a, b, c, d] = LETTERS;
    let [e, f, g] = [(5, 5), (7, 5), (6, 9)];
    let corners = [(FARTHEST, FARTHEST), (-FARTHEST, FARTHEST), (-FARTHEST, -FARTHEST), (FARTHEST, -FARTHEST)];
    vec![
        vec![],
        vec![a, b, c, a, d],
        vec![a, b, a, c, d],
        vec![a, b, c, a, e, f, b, g],
        vec![a, a],
        vec![a, b, b],
        vec![a, a, b],
        vec![a, a, a, a],
        TRIANGLE.to_vec(),
        corners.to_vec(),
    ]
}
