//! The numbers that the exported functions return.

use crate::drawing::{distance, Point};
use crate::prose::Refusal;
use jumperclay::raw::{Clipped, Looped, Sliced};
use std::fmt::Debug;

pub trait Counts: Copy + PartialEq + Debug {
    /// Of an accepted run with these paths, contours or loops.
    fn of_paths(paths: &[Vec<Point>]) -> Self;

    fn refused(refusal: Refusal) -> Self;

    /// Number and place, how many paths, how many points, and what else there is.
    fn list(self) -> Vec<u64>;
}

impl Counts for Clipped {
    fn of_paths(paths: &[Vec<Point>]) -> Self {
        let steps = paths.iter().flat_map(|path| steps(path));
        let [paths, points] = sizes(paths);
        let (count, travel) = (steps.clone().count() as u64, steps.map(|(p, q)| distance(p, q)).sum());
        Self { number: 0, place: 0, paths, points, steps: count, travel }
    }

    fn refused(Refusal { number, place }: Refusal) -> Self {
        Self { number, place, paths: 0, points: 0, steps: 0, travel: 0 }
    }

    fn list(self) -> Vec<u64> {
        vec![self.number, self.place, self.paths, self.points, self.steps, self.travel]
    }
}

impl Counts for Sliced {
    fn of_paths(paths: &[Vec<Point>]) -> Self {
        let [contours, points] = sizes(paths);
        Self { number: 0, place: 0, contours, points }
    }

    fn refused(Refusal { number, place }: Refusal) -> Self {
        Self { number, place, contours: 0, points: 0 }
    }

    fn list(self) -> Vec<u64> {
        vec![self.number, self.place, self.contours, self.points]
    }
}

impl Counts for Looped {
    fn of_paths(paths: &[Vec<Point>]) -> Self {
        let [loops, points] = sizes(paths);
        Self { number: 0, place: 0, loops, points }
    }

    fn refused(Refusal { number, place }: Refusal) -> Self {
        Self { number, place, loops: 0, points: 0 }
    }

    fn list(self) -> Vec<u64> {
        vec![self.number, self.place, self.loops, self.points]
    }
}

/// How many there are, and how many points they have.
fn sizes(paths: &[Vec<Point>]) -> [u64; 2] {
    [paths.len() as u64, paths.iter().map(|path| path.len() as u64).sum()]
}

/// Two neighbouring points each, from the earlier to the later.
pub fn steps(path: &[Point]) -> impl Iterator<Item = (Point, Point)> + Clone + '_ {
    path.windows(2).map(|two| (two[0], two[1]))
}
