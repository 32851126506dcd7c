//! Dough sheets with lines across, for timing: the areas and lines as they are, for libraries that cut them themselves,
//! and the drawing of both.

use crate::drawing::{cross, distance, Point, Segment, WIDTH};
use crate::plane::Plane;
use crate::prose::Checked;
use crate::random::Random;

/// Segments for each area: six of its outline, which a line crosses twice, and two of the line.
const EACH: usize = 8;

/// Makes a sheet whose drawing has so many segments.
pub type MakeSheet = fn(usize) -> Sheet;

pub const KINDS: [(&str, MakeSheet); 3] = [("mesh", mesh), ("nested", nested), ("fan", fan)];

pub struct Sheet {
    /// Counter-clockwise. One may lie in another.
    pub areas: Vec<[Point; 4]>,
    /// From the lesser end to the greater.
    pub lines: Vec<[Point; 2]>,
    /// The drawing: outlines wound once and lines drawn from a to b, cut where they cross.
    pub numbers: Vec<i32>,
}

impl Sheet {
    fn new(n: usize, areas: Vec<[Point; 4]>, lines: Vec<[Point; 2]>) -> Self {
        let mut random = Random::new(&[n as u64]);
        let numbers = plane(&areas, &lines).drawing(draw_lines, &mut random);
        assert_eq!(numbers.len(), n * WIDTH);
        assert_eq!(Checked::new(&numbers).refused, None);
        Self { areas, lines, numbers }
    }
}

/// Rows of squares that stand apart, twice as many in a row as there are rows, and a level line through each row. It
/// begins before the first square and ends at the last one's right side.
fn mesh(n: usize) -> Sheet {
    let rows = ((n / (2 * EACH)) as i32).isqrt();
    let row = |y| (0..2 * rows).map(move |place| rectangle((3 * place, 3 * y), (3 * place + 2, 3 * y + 2)));
    let line = |y| [(-1, 3 * y + 1), (6 * rows - 1, 3 * y + 1)];
    Sheet::new(n, (0..rows).flat_map(row).collect(), (0..rows).map(line).collect())
}

/// Rectangles one in another, and a level line through all. It begins before the outermost and ends at its right side.
fn nested(n: usize) -> Sheet {
    let count = (n / EACH) as i32;
    let around = |k: i32| rectangle((-2 * k, -k), (2 * k, k));
    Sheet::new(n, (1..=count).map(around).collect(), vec![[(-2 * count - 1, 0), (2 * count, 0)]])
}

/// Areas that meet in the one point (0,0), each between two rays to its far corners and with a tip beyond these; and a
/// slanted line through the middles of all rays. It begins on the first ray and ends after the last.
fn fan(n: usize) -> Sheet {
    let count = (n / EACH) as i32;
    // The points of one `times` lie on a slanted line: the rays' middles for 2, the far corners for 4.
    let on_ray = |ray: i32, times: i32| (times * (2 * count + ray), times * (4 * ray - 6 * count));
    let area = |k: i32| {
        // Every third ray is left out, so that not as much of the line lies inside as outside.
        let (lower, upper) = (3 * k, 3 * k + 1);
        let [low, high] = [on_ray(lower, 3), on_ray(upper, 3)];
        let tip = (low.0 + high.0, low.1 + high.1);
        [(0, 0), on_ray(lower, 4), tip, on_ray(upper, 4)]
    };
    Sheet::new(n, (0..count).map(area).collect(), vec![[on_ray(0, 2), on_ray(3 * count, 2)]])
}

fn rectangle((left, bottom): Point, (right, top): Point) -> [Point; 4] {
    [(left, bottom), (right, bottom), (right, top), (left, top)]
}

fn sides(area: &[Point; 4]) -> [[Point; 2]; 4] {
    [0, 1, 2, 3].map(|side| [area[side], area[(side + 1) % 4]])
}

fn plane(areas: &[[Point; 4]], lines: &[[Point; 2]]) -> Plane {
    let mut plane = Plane::default();
    for area in areas {
        let sides = sides(area).map(|side| cut(side, lines));
        // The last point of a side is the first of the next.
        let outline: Vec<Point> = sides.iter().flat_map(|side| &side[..side.len() - 1]).copied().collect();
        plane.outline(&outline, 1);
    }
    let sides: Vec<_> = areas.iter().flat_map(sides).collect();
    for &line in lines {
        cut(line, &sides).windows(2).for_each(|piece| plane.add(piece[0], piece[1]));
    }
    plane
}

/// Only outlines are wound.
fn draw_lines(edges: &mut [Segment], _: &mut Random) {
    edges.iter_mut().filter(|edge| edge.winding == 0).for_each(|line| line.bits = 1);
}

/// The ends and all crossings with the others, in order from the first end to the second.
fn cut(one: [Point; 2], others: &[[Point; 2]]) -> Vec<Point> {
    let crossings = others.iter().filter_map(|&other| crossing(one, other));
    let mut points: Vec<Point> = crossings.chain(one).collect();
    points.sort_by_key(|&point| distance(one[0], point));
    points.dedup();
    points
}

/// Where the two cross, ends included; none where they run side by side.
fn crossing(one: [Point; 2], other: [Point; 2]) -> Option<Point> {
    let [from, to] = one.map(|end| cross(other[0], other[1], end));
    let [before, after] = other.map(|end| cross(one[0], one[1], end));
    if from.signum() * to.signum() > 0 || before.signum() * after.signum() > 0 || from == to {
        return None;
    }
    let part = |[start, end]: [i32; 2]| {
        let times = i128::from(end - start) * from;
        assert_eq!(times % (from - to), 0, "a crossing is a whole point");
        start + (times / (from - to)) as i32
    };
    Some((part(one.map(|end| end.0)), part(one.map(|end| end.1))))
}
