//! A drawing's segments.

use crate::choices::Choices;
use std::fmt::Write;

/// How many numbers a segment has.
pub const WIDTH: usize = 7;
pub const MOST_SEGMENTS: usize = 1024;
/// Of a list to split.
pub const MOST_POINTS: usize = 2048;
pub const FARTHEST: i32 = 16_777_216;
pub const MOST_WINDING: i32 = 1000;
pub const MOST_LOT: i32 = 9999;

/// Points compare by x, then y, as pairs do.
pub type Point = (i32, i32);

#[derive(Debug, Clone, Copy, PartialEq, Eq)]
pub struct Segment {
    pub a: Point,
    pub b: Point,
    pub winding: i32,
    pub bits: i32,
    /// 0 is no lot.
    pub lot: i32,
}

impl Segment {
    /// The end that is not this one.
    pub fn other(&self, end: Point) -> Point {
        if end == self.a {
            self.b
        } else {
            self.a
        }
    }
}

pub fn read(numbers: &[i32]) -> Vec<Segment> {
    let segment =
        |of: &[i32]| Segment { a: (of[0], of[1]), b: (of[2], of[3]), winding: of[4], bits: of[5], lot: of[6] };
    numbers.chunks_exact(WIDTH).map(segment).collect()
}

/// x and y of each point.
pub fn pairs(numbers: &[i32]) -> Vec<Point> {
    numbers.chunks_exact(2).map(|pair| (pair[0], pair[1])).collect()
}

pub fn flat(points: &[Point]) -> Vec<i32> {
    points.iter().flat_map(|&(x, y)| [x, y]).collect()
}

pub fn numbers(segments: &[Segment]) -> Vec<i32> {
    let numbers = |s: &Segment| -> [i32; WIDTH] { [s.a.0, s.a.1, s.b.0, s.b.1, s.winding, s.bits, s.lot] };
    segments.iter().flat_map(numbers).collect()
}

/// The cross product of (to - from) and (point - from): positive where the point is left of the way.
pub fn cross(from: Point, to: Point, point: Point) -> i128 {
    let (x1, y1) = difference(from, to);
    let (x2, y2) = difference(from, point);
    x1 * y2 - x2 * y1
}

pub fn difference(from: Point, to: Point) -> (i128, i128) {
    (to.0 as i128 - from.0 as i128, to.1 as i128 - from.1 as i128)
}

/// The sum of x1·y2 - x2·y1 over neighbouring points, last to first included: negative where they run clockwise.
pub fn shoelace(points: &[Point]) -> i128 {
    let next = points.iter().cycle().skip(1);
    let product = |(x1, y1): Point, (x2, y2): Point| i128::from(x1) * i128::from(y2) - i128::from(x2) * i128::from(y1);
    points.iter().zip(next).map(|(&p, &q)| product(p, q)).sum()
}

/// |dx| + |dy|.
pub fn distance(p: Point, q: Point) -> u64 {
    u64::from(p.0.abs_diff(q.0)) + u64::from(p.1.abs_diff(q.1))
}

/// The comma text of a clip run.
pub fn comma_text(numbers: &[i32], choices: Choices) -> String {
    lines(&commas(&choices.list()), numbers, WIDTH)
}

/// A first line, and the numbers in lines of so many.
pub fn lines(first: &str, numbers: &[i32], width: usize) -> String {
    let mut text = format!("{first}\n");
    for line in numbers.chunks(width) {
        writeln!(text, "{}", commas(line)).expect("a string takes all");
    }
    text
}

pub fn commas<T: ToString>(list: &[T]) -> String {
    list.iter().map(T::to_string).collect::<Vec<_>>().join(",")
}
