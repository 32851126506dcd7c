//! The loops of a list of points, by document 01's "Slices and loops".

use crate::drawing::{shoelace, Point};
use std::collections::HashMap;

/// The loops in order of making, by any minimum area, and what was met on the way.
#[derive(Default)]
pub struct Loops {
    pub all: Vec<Vec<Point>>,
    /// A loop of one point was dropped.
    pub drops: bool,
    /// A point seen before was appended: as often as the buffer was just as long as noted, and as often as shorter.
    pub again: [usize; 2],
    /// How many points were left, too few for a loop or not.
    pub rest: usize,
}

impl Loops {
    pub fn of(points: &[Point]) -> Self {
        let mut loops = Self::default();
        // For each point the length of the buffer after its first sighting.
        let mut sightings = HashMap::<Point, usize>::new();
        let mut buffer = Vec::new();
        for &point in points {
            match sightings.get(&point) {
                Some(&noted) if noted < buffer.len() => loops.cut(buffer.split_off(noted), point),
                Some(&noted) => {
                    loops.again[usize::from(buffer.len() < noted)] += 1;
                    buffer.push(point);
                }
                None => {
                    buffer.push(point);
                    sightings.insert(point, buffer.len());
                }
            }
        }
        loops.rest = buffer.len();
        if loops.rest > 2 {
            loops.all.push(buffer);
        }
        loops
    }

    /// What lies after the point's first sighting, closed by the point.
    fn cut(&mut self, mut tail: Vec<Point>, point: Point) {
        if tail.len() < 2 {
            self.drops = true;
        } else {
            tail.push(point);
            self.all.push(tail);
        }
    }
}

/// Half the shoelace sum, downward and without its sign.
pub fn area(points: &[Point]) -> u64 {
    let half = shoelace(points).unsigned_abs() / 2;
    half.try_into().expect("coordinates are in range")
}

/// 0 takes all.
pub fn reaches(points: &[Point], min_area: u64) -> bool {
    min_area == 0 || area(points) >= min_area
}
