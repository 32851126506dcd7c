//! The contours of a slice run, by document 01's "Slices and loops".

use crate::choices::SliceChoices;
use crate::drawing::{shoelace, Point};
use crate::loops::reaches;
use crate::slice_walk::Walk;

/// Role 1 is a hole.
#[derive(Debug, Clone, PartialEq, Eq)]
pub struct Contour {
    pub points: Vec<Point>,
    pub role: u8,
}

/// In order of making.
pub fn contours(walks: &[Walk], choices: SliceChoices) -> Vec<Contour> {
    let kept = |points: &&Vec<Point>| reaches(points, choices.min_area);
    let of_walk = |walk: &Walk| {
        let contour = |points: &Vec<Point>| contour(points.clone(), walk.direction, choices.direction == 1);
        walk.loops.all.iter().filter(kept).map(contour).collect::<Vec<_>>()
    };
    walks.iter().flat_map(of_walk).collect()
}

/// Its role is by the way it was walked; then an outer contour is made to run the way asked for, a hole the other way.
fn contour(mut points: Vec<Point>, direction: bool, clockwise: bool) -> Contour {
    let runs_clockwise = shoelace(&points) < 0;
    let hole = runs_clockwise == direction;
    if runs_clockwise != (clockwise != hole) {
        points.reverse();
    }
    Contour { points, role: hole.into() }
}
