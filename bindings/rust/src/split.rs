use crate::points::{paths, ContourTotals, Point};
use crate::{raw, Refusal};

/// The loops of a closed line of up to 2,048 points, given as x and y of each: where it comes back to a point, what
/// lies between is a loop of its own. Loops of one or two points are dropped, and those with an area under
/// `min_area`.
///
/// ```
/// use jumperclay::split;
///
/// // Two triangles that touch at a point.
/// let points = [0, 0, 4, 0, 4, 4, 0, 0, -4, 0, -4, -4];
/// assert_eq!(split(&points, 8)?, [[(4, 0), (4, 4), (0, 0)], [(0, 0), (-4, 0), (-4, -4)]]);
/// # Ok::<(), jumperclay::Refusal>(())
/// ```
pub fn split(points: &[i32], min_area: u64) -> Result<Vec<Vec<Point>>, Refusal> {
    let mut out = vec![0; points.len()];
    let mut lengths = vec![0; points.len() / 2];
    let totals = split_into(points, min_area, &mut out, &mut lengths)?;
    Ok(paths(&out, &lengths[..totals.contours]))
}

/// As [`split`], into lent lists: x and y of each point, loop by loop, and how many points each loop has. The lists
/// need as many numbers as there are in `points`, and a length for each point. Entries past the answer keep their
/// values, and after a refusal all do.
///
/// ```
/// use jumperclay::split_into;
///
/// // There and back: no loop.
/// let (mut out, mut lengths) = ([99; 6], [99; 3]);
/// assert_eq!(split_into(&[0, 0, 1, 0, 0, 0], 0, &mut out, &mut lengths)?.contours, 0);
/// assert_eq!((out, lengths), ([99; 6], [99; 3]));
/// # Ok::<(), jumperclay::Refusal>(())
/// ```
pub fn split_into(
    points: &[i32],
    min_area: u64,
    out: &mut [i32],
    lengths: &mut [u32],
) -> Result<ContourTotals, Refusal> {
    let looped = raw::split(points, min_area, out, lengths);
    Refusal::of_points(looped.number, looped.place)?;
    Ok(ContourTotals { contours: looped.loops as usize, points: looped.points as usize })
}
