//! What a run may have that is easily missed: a check in which one of these never occurred does not pass.

use crate::contours::Contour;
use crate::counts::steps;
use crate::drawing::{distance, shoelace, Point};
use crate::loops::{area, reaches, Loops};
use crate::slice_walk::Walk;
use crate::walk::{Graph, Path};

pub const CLIP: [&str; 5] = [
    "a backward path of 2 or more moves",
    "a path through a point of 4 or more links",
    "a path that takes a link both ways",
    "a closed path of 3 or more moves",
    "a travel that needs more than 32 bits",
];

pub const SLICE: [&str; 10] = [
    "a walk with dough on its left",
    "a walk with dough on its right",
    "a walk with a choice of links",
    "a walk that goes back on its link",
    "a walk of several loops",
    "a walk that drops a point",
    "a hole",
    "a reversed contour",
    "a contour of just the least area",
    "a contour one short of the least area",
];

pub const SPLIT: [&str; 10] = [
    "equal neighbours",
    "several loops",
    "a point dropped",
    "a point seen before, just as noted",
    "a point seen before, and cut off since",
    "a rest of one or two points",
    "a rest that is a loop",
    "a loop that runs clockwise",
    "a loop of just the least area",
    "a loop one short of the least area",
];

/// Which of these the paths of a clip run have.
pub fn of_clip(graph: &Graph, paths: &[Path]) -> [bool; CLIP.len()] {
    let any = |test: &dyn Fn(&Path) -> bool| paths.iter().any(test);
    let travel: u64 = paths.iter().flat_map(|path| steps(&path.points)).map(|(p, q)| distance(p, q)).sum();
    [
        any(&|path| path.backward && path.points.len() > 2),
        any(&|path| path.points[1..path.points.len() - 1].iter().any(|&point| graph.degree(point) >= 4)),
        any(&|path| goes_both_ways(&path.points)),
        any(&|path| path.points.len() > 3 && path.points.first() == path.points.last()),
        travel > u64::from(u32::MAX),
    ]
}

/// No two links have both ends the same, so a step back is along the same link.
fn goes_both_ways(points: &[Point]) -> bool {
    steps(points).enumerate().any(|(place, (p, q))| steps(&points[place + 1..]).any(|later| later == (q, p)))
}

/// Which of these the walks of a slice run have, and the contours made of them.
pub fn of_slice(walks: &[Walk], contours: &[Contour], min_area: u64) -> [bool; SLICE.len()] {
    let any = |test: &dyn Fn(&Walk) -> bool| walks.iter().any(test);
    let loops = walks.iter().flat_map(|walk| &walk.loops.all);
    let mut kept = loops.clone().filter(|points| reaches(points, min_area)).zip(contours);
    [
        any(&|walk| walk.direction),
        any(&|walk| !walk.direction),
        any(&|walk| walk.chooses),
        any(&|walk| walk.returns),
        any(&|walk| walk.loops.all.len() > 1),
        any(&|walk| walk.loops.drops),
        contours.iter().any(|contour| contour.role == 1),
        kept.any(|(made, contour)| *made != contour.points),
        min_area > 0 && loops.clone().any(|points| area(points) == min_area),
        min_area > 0 && loops.clone().any(|points| area(points) == min_area - 1),
    ]
}

/// Which of these a split of points has.
pub fn of_split(points: &[Point], loops: &Loops, min_area: u64) -> [bool; SPLIT.len()] {
    let any = |test: &dyn Fn(&Vec<Point>) -> bool| loops.all.iter().any(test);
    [
        steps(points).any(|(p, q)| p == q),
        loops.all.len() > 1,
        loops.drops,
        loops.again[0] > 0,
        loops.again[1] > 0,
        (1..=2).contains(&loops.rest),
        loops.rest > 2,
        any(&|points| shoelace(points) < 0),
        min_area > 0 && any(&|points| area(points) == min_area),
        min_area > 0 && any(&|points| area(points) == min_area - 1),
    ]
}
