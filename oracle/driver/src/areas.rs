//! Minimum areas to try.

use crate::drawing::Point;
use crate::loops::area;
use crate::random::Random;

/// 0, which takes all; just under, at and just over the area of one of the contours; one of any size; and some that
/// no contour reaches.
pub fn areas(contours: &[&Vec<Point>], random: &mut Random) -> [u64; 8] {
    let own = if contours.is_empty() { 0 } else { area(random.pick::<&Vec<Point>>(contours)) };
    let any = random.next() >> random.below(64);
    [0, own.saturating_sub(1), own, own + 1, any, 1, 1 << 63, u64::MAX]
}
