//! The shapes that drawings are made from, in small coordinates where the placement is free.
//! Each is asked for about `size` edges.

use crate::drawing::{Point, FARTHEST, MOST_WINDING};
use crate::plane::Plane;
use crate::random::Random;
use std::cmp::Ordering;

/// Random segments between the points of a small grid, short ones more often.
pub fn grid(random: &mut Random, size: usize) -> Plane {
    let side = random.within(2, 8);
    let reach = random.within(1, side);
    let mut plane = Plane::default();
    for _ in 0..3 * size {
        let p = (random.within(0, side), random.within(0, side));
        let q = (p.0 + random.within(-reach, reach), p.1 + random.within(-reach, reach));
        plane.try_add(p, q);
    }
    plane.edges.truncate(size);
    plane
}

/// Stacked verticals and collinear chains: columns and rows of unit edges, with diagonals.
pub fn lattice(random: &mut Random, size: usize) -> Plane {
    let columns = random.within(1, 1 + (size as i32 / 6).min(16));
    let rows = size as i32 / (2 * columns) + 1;
    let [up, right, diagonal] = [(); 3].map(|()| random.pick(&[50, 90, 100]));
    let mut plane = Plane::default();
    for (x, y) in (0..=columns).flat_map(|x| (0..=rows).map(move |y| (x, y))) {
        if y < rows && random.chance(up) {
            plane.add((x, y), (x, y + 1));
        }
        if x < columns && random.chance(right) {
            plane.add((x, y), (x + 1, y));
        }
        if x < columns && y < rows && random.chance(diagonal / 3) {
            let lean = random.below(2) as i32;
            plane.add((x, y + lean), (x + 1, y + 1 - lean));
        }
    }
    plane
}

/// Many segments at one point, some joined at their far ends.
pub fn fan(random: &mut Random, size: usize) -> Plane {
    let reach = random.pick(&[2, 4, 9, 60]);
    let mut plane = Plane::default();
    for _ in 0..size {
        plane.try_add((0, 0), (random.within(-reach, reach), random.within(-reach, reach)));
    }
    let mut tips: Vec<Point> = plane.points().filter(|&tip| tip != (0, 0)).collect();
    tips.sort_by(|&p, &q| around(p, q));
    let joined = random.pick(&[0, 50, 100]);
    for pair in 0..tips.len() {
        if random.chance(joined) {
            plane.try_add(tips[pair], tips[(pair + 1) % tips.len()]);
        }
    }
    plane
}

/// Counter-clockwise around the origin.
fn around(p: Point, q: Point) -> Ordering {
    let lower = |(x, y): Point| y < 0 || y == 0 && x < 0;
    let turn = i64::from(p.0) * i64::from(q.1) - i64::from(q.0) * i64::from(p.1);
    lower(p).cmp(&lower(q)).then(0.cmp(&turn))
}

/// A centre, spokes to points all along a square, and the square itself.
pub fn wheel(_: &mut Random, size: usize) -> Plane {
    let quarter = (size as i32 / 8).max(1);
    let half = 4 * quarter;
    let mut rim = Vec::new();
    for step in 0..quarter {
        let along = 8 * step - half;
        rim.extend([(half, along), (-along, half), (-half, -along), (along, -half)]);
    }
    rim.sort_by(|&p, &q| around(p, q));
    let mut plane = Plane::default();
    plane.outline(&rim, 0);
    rim.iter().for_each(|&tip| plane.add((0, 0), tip));
    plane
}

/// Outlines around one point, each a larger copy of the last.
pub fn stars(random: &mut Random, size: usize) -> Plane {
    let copies = random.within(1, 3);
    let mut tips: Vec<Point> = Vec::new();
    for _ in 0..size as i32 / copies {
        let tip = (random.within(-30, 30), random.within(-30, 30));
        let apart = |&old: &Point| around(old, tip).is_ne();
        if tip != (0, 0) && tips.iter().all(apart) {
            tips.push(tip);
        }
    }
    tips.sort_by(|&p, &q| around(p, q));
    let mut plane = Plane::default();
    for scale in 1..=copies {
        for (i, p) in tips.iter().enumerate() {
            let q = tips[(i + 1) % tips.len()];
            plane.try_add((scale * p.0, scale * p.1), (scale * q.0, scale * q.1));
        }
    }
    plane
}

/// Regions that touch at points only: squares on their corners, as on a chessboard.
pub fn touching(random: &mut Random, size: usize) -> Plane {
    let columns = random.within(1, 8);
    let rows = size as i32 / (4 * columns) + 1;
    let mut plane = Plane::default();
    for (x, y) in (0..columns).flat_map(|x| (0..rows).map(move |y| (2 * x, 2 * y))) {
        if random.chance(85) {
            plane.outline(&[(x - 1, y), (x, y - 1), (x + 1, y), (x, y + 1)], 0);
        }
    }
    plane
}

/// Lines that bound nothing: no two points are joined in two ways.
pub fn dangling(random: &mut Random, size: usize) -> Plane {
    let mut plane = Plane::default();
    let mut reached = vec![(0, 0)];
    for _ in 0..size {
        let from = random.pick(&reached);
        let to = (from.0 + random.within(-5, 5), from.1 + random.within(-5, 5));
        let before = plane.edges.len();
        if !reached.contains(&to) {
            plane.try_add(from, to);
        }
        if plane.edges.len() > before {
            reached.push(to);
        }
    }
    plane
}

/// A row of squares, apart or side by side.
pub fn row(random: &mut Random, size: usize) -> Plane {
    squares((size / 4).max(1), random.within(0, 1))
}

/// Squares so far apart; where there is no gap two share a side.
fn squares(count: usize, gap: i32) -> Plane {
    let mut plane = Plane::default();
    for i in 0..count as i32 {
        let (left, right) = (i * (2 + gap), i * (2 + gap) + 2);
        plane.add((left, 0), (right, 0));
        plane.add((left, 2), (right, 2));
        plane.add((right, 0), (right, 2));
        if gap > 0 || i == 0 {
            plane.add((left, 0), (left, 2));
        }
    }
    plane
}

/// Rectangles one in another, some corners joined.
pub fn nested(random: &mut Random, size: usize) -> Plane {
    let joined = random.pick(&[0, 0, 50, 100]);
    let mut plane = Plane::default();
    for k in 1..=(size as i32 / 4).max(1) {
        let corners = corners(k);
        plane.outline(&corners, 0);
        for (x, y) in corners {
            if random.chance(joined) {
                plane.add((x, y), (x + x.signum(), y + y.signum()));
            }
        }
    }
    plane
}

/// Rectangles one in another, all wound the same way as often as may be: the counts pile up.
pub fn heaped(random: &mut Random, size: usize) -> Plane {
    let winding = random.pick(&[-MOST_WINDING, MOST_WINDING]);
    let mut plane = Plane::default();
    for k in 1..=(size as i32 / 4).max(1) {
        plane.outline(&corners(k), winding);
    }
    plane
}

fn corners(k: i32) -> [Point; 4] {
    [(-k, -k), (k, -k), (k, k), (-k, k)]
}

/// Long segments over each other, between a few columns of points.
pub fn strips(random: &mut Random, size: usize) -> Plane {
    let columns = random.within(1, 3);
    let height = (size as i32 / columns).clamp(2, 40);
    let mut plane = Plane::default();
    for _ in 0..3 * size {
        let left = random.within(0, columns - 1);
        let right = random.within(left, columns);
        let low = random.within(0, height);
        let near = (low + random.within(-2, 2)).clamp(0, height);
        plane.try_add((left, low), (right, near));
    }
    plane.edges.truncate(size);
    plane
}

/// Segments between points of the outermost, middle and innermost coordinates.
pub fn extremes(random: &mut Random, size: usize) -> Plane {
    let coordinates = [-FARTHEST, 1 - FARTHEST, -FARTHEST / 2, -1, 0, 1, FARTHEST / 2, FARTHEST - 1, FARTHEST];
    let mut plane = Plane::default();
    for _ in 0..3 * size {
        let [x, y, z, w] = [(); 4].map(|()| random.pick(&coordinates));
        plane.try_add((x, y), (z, w));
    }
    plane.edges.truncate(size);
    plane
}

/// To and fro over the full range, some of the ends on one side joined: little of so many edges is longer.
pub fn zigzag(random: &mut Random, size: usize) -> Plane {
    let joined = random.pick(&[0, 50]);
    let rise = random.within(1, 2 * FARTHEST / (size as i32 + 1));
    let end = |k: usize| (if k.is_multiple_of(2) { -FARTHEST } else { FARTHEST }, k as i32 * rise - FARTHEST);
    let mut plane = Plane::default();
    for k in 0..size {
        plane.add(end(k), end(k + 1));
        if random.chance(joined) {
            plane.add(end(k), end(k + 2));
        }
    }
    plane.edges.truncate(size);
    plane
}

/// Segments between points next to one long line.
pub fn needles(random: &mut Random, size: usize) -> Plane {
    let [from, to] = [(); 2].map(|()| random.within(1 - FARTHEST, FARTHEST - 1) as i64);
    let steep = random.chance(50);
    let pool: Vec<Point> = (0..6 + size / 2)
        .map(|_| {
            let x = random.within(-FARTHEST, FARTHEST);
            let y = from + (to - from) * (x as i64 + FARTHEST as i64) / (2 * FARTHEST as i64);
            let y = y as i32 + random.within(-1, 1);
            if steep {
                (y, x)
            } else {
                (x, y)
            }
        })
        .collect();
    let mut plane = Plane::default();
    for _ in 0..3 * size {
        plane.try_add(random.pick(&pool), random.pick(&pool));
    }
    plane.edges.truncate(size);
    plane
}
