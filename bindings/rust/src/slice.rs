use crate::points::{paths, ContourTotals, Point};
use crate::{raw, room, Refusal, Rule};

/// Which way outer contours run. Holes run the other way.
#[derive(Debug, Clone, Copy, PartialEq, Eq, Hash)]
#[repr(i32)]
pub enum Direction {
    /// With the inside on their left.
    CounterClockwise = 0,
    /// With the inside on their right.
    Clockwise = 1,
}

/// A closed line around a piece, or around a hole in one.
#[derive(Debug, Clone, PartialEq, Eq, Hash)]
pub struct Contour {
    /// In order, the first one not repeated at the end.
    pub points: Vec<Point>,
    /// Whether it runs around a hole.
    pub is_hole: bool,
}

/// The pieces that all segments, lines too, cut the dough into: contours in order of making. Those with an area
/// under `min_area` are left out.
pub fn slice(segments: &[i32], rule: Rule, direction: Direction, min_area: u64) -> Result<Vec<Contour>, Refusal> {
    let n = room(segments);
    let mut points = vec![0; 4 * n];
    let mut lengths = vec![0; 2 * n];
    let mut roles = vec![0; 2 * n];
    let totals = slice_into(segments, rule, direction, min_area, &mut points, &mut lengths, &mut roles)?;
    let contours = paths(&points, &lengths[..totals.contours]).into_iter().zip(roles);
    Ok(contours.map(|(points, role)| Contour { points, is_hole: role == 1 }).collect())
}

/// As [`slice()`], into lent lists: x and y of each point, contour by contour, how many points each contour has, and
/// its role, 1 for a hole and 0 otherwise. The lists need 4 numbers, 2 lengths and 2 roles for each segment. Entries
/// past the answer keep their values, and after a refusal all do.
///
/// ```
/// use jumperclay::{slice_into, Direction, Rule};
///
/// // A triangle.
/// let drawing = [0, 0, 4, 0, 1, 0, 0, 0, 0, 4, 4, -1, 0, 0, 4, 0, 4, 4, 1, 0, 0];
/// let (mut points, mut lengths, mut roles) = ([99; 12], [99; 6], [99; 6]);
/// let (rule, direction) = (Rule::NonZero, Direction::CounterClockwise);
/// let totals = slice_into(&drawing, rule, direction, 8, &mut points, &mut lengths, &mut roles)?;
/// assert_eq!((totals.contours, totals.points), (1, 3));
/// assert_eq!(points, [0, 0, 4, 0, 4, 4, 99, 99, 99, 99, 99, 99]);
/// assert_eq!(lengths, [3, 99, 99, 99, 99, 99]);
/// assert_eq!(roles, [0, 99, 99, 99, 99, 99]);
/// # Ok::<(), jumperclay::Refusal>(())
/// ```
pub fn slice_into(
    segments: &[i32],
    rule: Rule,
    direction: Direction,
    min_area: u64,
    points: &mut [i32],
    lengths: &mut [u32],
    roles: &mut [u8],
) -> Result<ContourTotals, Refusal> {
    let sliced = raw::slice(segments, rule as i32, direction as i32, min_area, points, lengths, roles);
    Refusal::of_drawing(sliced.number, sliced.place)?;
    Ok(ContourTotals { contours: sliced.contours as usize, points: sliced.points as usize })
}
