//! Where a shape of small coordinates is put: moves of the plane that keep its lines straight.

use crate::drawing::{Point, FARTHEST};
use crate::plane::Plane;
use crate::random::Random;

pub const NAMES: [&str; 5] = ["as made", "shifted", "sheared", "sheared over the full range", "thinned"];

/// Moves the shape by the placement of this place in `NAMES`.
pub fn placed(plane: Plane, placement: usize, random: &mut Random) -> Plane {
    let size = plane.points().map(|(x, y)| x.abs().max(y.abs())).max().unwrap_or(0).max(1);
    // A coordinate moved by a matrix of such entries spans the full range at most.
    let most = FARTHEST / (2 * size);
    match placement {
        0 => plane,
        1 => shifted(plane, random),
        2 => by_matrix(plane, sheared(random, most.min(9)), random),
        3 => by_matrix(plane, sheared(random, most), random),
        _ => by_matrix(plane, thinned(random, most), random),
    }
}

/// The images of (1,0) and (0,1).
type Matrix = [Point; 2];

fn sheared(random: &mut Random, most: i32) -> Matrix {
    loop {
        let [p, q, r, s] = [(); 4].map(|()| random.within(-most, most));
        if i64::from(p) * i64::from(s) != i64::from(q) * i64::from(r) {
            return [(p, q), (r, s)];
        }
    }
}

/// Of determinant 1: a triangle of area one half keeps its area, however far its corners move apart.
fn thinned(random: &mut Random, most: i32) -> Matrix {
    let mut matrix = [(1, 0), (0, 1)];
    loop {
        let (one, other) = random.pick(&[(0, 1), (1, 0)]);
        let times = i64::from(random.pick(&[-7, -3, -2, -1, 1, 2, 3, 7]));
        let sum = |old: i32, add: i32| i64::from(old) + times * i64::from(add);
        let x = sum(matrix[one].0, matrix[other].0);
        let y = sum(matrix[one].1, matrix[other].1);
        if x.abs().max(y.abs()) > i64::from(most) {
            return matrix;
        }
        matrix[one] = (x as i32, y as i32);
    }
}

fn by_matrix(plane: Plane, [(p, q), (r, s)]: Matrix, random: &mut Random) -> Plane {
    let plane = plane.moved(|(x, y)| (p * x + r * y, q * x + s * y));
    shifted(plane, random)
}

/// Shifts as far as there is room, often against an edge of the range.
fn shifted(plane: Plane, random: &mut Random) -> Plane {
    let right = shift(plane.points().map(|point| point.0), random);
    let up = shift(plane.points().map(|point| point.1), random);
    plane.moved(|(x, y)| (x + right, y + up))
}

fn shift(coordinates: impl Iterator<Item = i32> + Clone, random: &mut Random) -> i32 {
    let least = -FARTHEST - coordinates.clone().min().unwrap_or(0);
    let most = FARTHEST - coordinates.max().unwrap_or(0);
    let between = random.within(least, most);
    random.pick(&[least, most, between])
}
