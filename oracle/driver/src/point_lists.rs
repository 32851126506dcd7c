//! Lists of points to split, good and bad ones.

use crate::drawing::{flat, Point, FARTHEST, MOST_POINTS};
use crate::random::Random;

pub struct Kind {
    pub name: &'static str,
    make: fn(&mut Random) -> Vec<Point>,
    /// How many of a hundred lists.
    pub share: usize,
}

const fn kind(name: &'static str, make: fn(&mut Random) -> Vec<Point>, share: usize) -> Kind {
    Kind { name, make, share }
}

pub const KINDS: [Kind; 8] = [
    kind("few points", |random| of_pool(random, 12, 40), 40),
    kind("steps on a grid", steps_on_grid, 15),
    kind("there and back", there_and_back, 15),
    kind("many points", |random| of_pool(random, 400, 1000), 5),
    kind("all different", all_different, 5),
    kind("one remainder by powers of two", one_remainder, 10),
    kind("one sum of 31x and 17y", one_sum, 5),
    kind("2,048 points or one more", most_points, 5),
];

impl Kind {
    /// One list in four is spoilt.
    pub fn numbers(&self, random: &mut Random) -> Vec<i32> {
        let numbers = flat(&(self.make)(random));
        if random.chance(25) {
            spoilt(numbers, random)
        } else {
            numbers
        }
    }
}

/// All lists of up to so many of the points, and among them none at all.
pub fn all_lists(points: &[Point], most: usize) -> impl Iterator<Item = Vec<Point>> + '_ {
    (0..=most).flat_map(move |length| {
        let lists = points.len().pow(length as u32);
        (0..lists)
            .map(move |list| (0..length).map(|at| points[list / points.len().pow(at as u32) % points.len()]).collect())
    })
}

fn point(random: &mut Random, reach: i32) -> Point {
    (random.within(-reach, reach), random.within(-reach, reach))
}

fn reach(random: &mut Random) -> i32 {
    random.pick(&[1, 2, 5, 30, 1000, 1_000_000, FARTHEST])
}

/// From 1 to the most.
fn some(random: &mut Random, most: usize) -> usize {
    1 + random.below(most)
}

fn any_of(pool: &[Point], length: usize, random: &mut Random) -> Vec<Point> {
    (0..length).map(|_| random.pick(pool)).collect()
}

/// A list of up to so many points out of a pool of up to so many.
fn of_pool(random: &mut Random, pool: usize, length: usize) -> Vec<Point> {
    let reach = reach(random);
    let pool: Vec<_> = (0..some(random, pool)).map(|_| point(random, reach)).collect();
    let length = random.below(length + 1);
    any_of(&pool, length, random)
}

/// Each point is the one before or next to it.
fn steps_on_grid(random: &mut Random) -> Vec<Point> {
    let (side, scale) = (random.within(1, 12), random.pick(&[1, 3, 1000, 1_000_000]));
    let mut at = (0, 0);
    let step = |_| {
        let (dx, dy) = random.pick(&[(1, 0), (-1, 0), (0, 1), (0, -1), (1, 1), (-1, -1), (0, 0)]);
        at = ((at.0 + dx).clamp(-side, side), (at.1 + dy).clamp(-side, side));
        (scale * at.0, scale * at.1)
    };
    (0..200).map(step).collect()
}

/// Parts of what is there already are gone along again, forward or backward.
fn there_and_back(random: &mut Random) -> Vec<Point> {
    let mut points = of_pool(random, 40, 20);
    for _ in 0..random.below(5) {
        let from = random.below(points.len() + 1);
        let mut part = points[from..].to_vec();
        if random.chance(70) {
            part.reverse();
        }
        let kept = random.below(part.len() + 1);
        points.extend(&part[..kept]);
    }
    points
}

fn all_different(random: &mut Random) -> Vec<Point> {
    let mut points = of_pool(random, MOST_POINTS, MOST_POINTS);
    points.sort();
    points.dedup();
    random.shuffle(&mut points);
    points
}

/// Coordinates that have the same last bits: many points with the same hash, whatever its factors.
fn one_remainder(random: &mut Random) -> Vec<Point> {
    let step = 1 << random.within(4, 16);
    let most = (FARTHEST / step).min(random.pick(&[3, 10, 100_000]));
    of_one_hash(random, |random| {
        let (x, y) = point(random, most);
        (step * x, step * y)
    })
}

/// Points with the same hash as the Rust has it.
fn one_sum(random: &mut Random) -> Vec<Point> {
    of_one_hash(random, |random| {
        let k = random.within(-500_000, 500_000);
        (17 * k, -31 * k)
    })
}

/// Few are long: to look one up may take as long as the list is.
fn of_one_hash(random: &mut Random, point: impl Fn(&mut Random) -> Point) -> Vec<Point> {
    let (pool, length) = if random.below(30) == 0 { (3 * MOST_POINTS, MOST_POINTS) } else { (200, 600) };
    let pool: Vec<_> = (0..some(random, pool)).map(|_| point(random)).collect();
    let length = some(random, length);
    any_of(&pool, length, random)
}

fn most_points(random: &mut Random) -> Vec<Point> {
    let length = MOST_POINTS + random.pick(&[0, 0, 0, 1]);
    if random.chance(50) {
        return nearly_different(length, random);
    }
    let reach = reach(random);
    let pool: Vec<_> = (0..some(random, 3 * MOST_POINTS)).map(|_| point(random, reach)).collect();
    any_of(&pool, length, random)
}

/// As many points to be noted as may be: only some of the last are there before, near or far.
fn nearly_different(length: usize, random: &mut Random) -> Vec<Point> {
    let mut points: Vec<_> = (0..length as i32).map(|k| (k, random.within(-1000, 1000))).collect();
    random.shuffle(&mut points);
    for _ in 0..5 {
        let place = length - some(random, 20);
        let back = random.pick(&[20, 1000]);
        points[place] = points[place - some(random, back)];
    }
    points
}

/// A number left out or added, or one replaced by one at the end of the range or past it.
fn spoilt(mut numbers: Vec<i32>, random: &mut Random) -> Vec<i32> {
    match random.below(4) {
        0 => drop(numbers.pop()),
        1 => numbers.push(0),
        _ if numbers.is_empty() => {}
        _ => {
            let place = random.below(numbers.len());
            let far = random.pick(&[FARTHEST, FARTHEST + 1, FARTHEST + 1]) * random.pick(&[-1, 1]);
            numbers[place] = random.pick(&[far, far, far, i32::MIN, i32::MAX]);
        }
    }
    numbers
}
