//! Where two segments meet wrongly. Whether they do is for the library to say.

use crate::segment::Segment;
use crate::view::{place, Place};
use jumperclay::{fills, Point, Reason, Rule};

/// The first later segment that meets the one at this place wrongly: the library is asked about the two alone.
pub fn first_met(segments: &[Segment], lower: usize) -> Option<usize> {
    (lower + 1..segments.len()).find(|&upper| meet_wrongly(segments[lower], segments[upper]))
}

fn meet_wrongly(one: Segment, other: Segment) -> bool {
    let bare = |segment: Segment| Segment { winding: 0, line_bits: 0, lot: 0, ..segment }.numbers();
    let both = [bare(one), bare(other)].concat();
    fills(&both, Rule::EvenOdd).is_err_and(|refusal| refusal.reason == Reason::Meeting)
}

/// Two whose angle has a lesser sine look like one line.
const FLAT: f64 = 0.003;

/// How two segments meet, and where.
pub enum Meeting {
    /// Both ends are equal.
    Same,
    /// Ends of one that lie on the other, between its ends.
    Touch(Vec<Point>),
    Cross(Place),
}

impl Meeting {
    pub fn of(one: Segment, other: Segment) -> Self {
        let touching = ends_on(one, other).chain(ends_on(other, one)).collect::<Vec<_>>();
        if one.ends() == other.ends() {
            Self::Same
        } else if touching.is_empty() {
            Self::Cross(crossing(one, other))
        } else {
            Self::Touch(touching)
        }
    }
}

fn ends_on(segment: Segment, other: Segment) -> impl Iterator<Item = Point> {
    let lies_on = move |end: &Point| other.a < *end && *end < other.b && cross(other, *end) == 0;
    segment.ends().into_iter().filter(lies_on)
}

/// Twice the area of the triangle from the segment to the point: positive where the point is left of it.
fn cross(Segment { a, b, .. }: Segment, point: Point) -> i128 {
    let way = |from: Point, to: Point| (i128::from(to.0) - i128::from(from.0), i128::from(to.1) - i128::from(from.1));
    let (along, aside) = (way(a, b), way(a, point));
    along.0 * aside.1 - along.1 * aside.0
}

/// Whether two segments look like one line.
pub fn look_like_one(one: Segment, other: Segment) -> bool {
    let way = |segment: Segment| {
        let (a, b) = (place(segment.a), place(segment.b));
        (b.0 - a.0, b.1 - a.1)
    };
    let (one, other) = (way(one), way(other));
    let area = one.0 * other.1 - one.1 * other.0;
    area.abs() < FLAT * one.0.hypot(one.1) * other.0.hypot(other.1)
}

fn crossing(one: Segment, other: Segment) -> Place {
    let (from, to) = (cross(other, one.a) as f64, cross(other, one.b) as f64);
    let part = if from == to { 0.5 } else { from / (from - to) };
    let (a, b) = (place(one.a), place(one.b));
    (a.0 + (b.0 - a.0) * part, a.1 + (b.1 - a.1) * part)
}

#[cfg(test)]
mod tests {
    use super::*;

    /// Two segments by x and y of their ends.
    fn two([ax, ay, bx, by, cx, cy, dx, dy]: [i32; 8]) -> [Segment; 2] {
        [((ax, ay), (bx, by)), ((cx, cy), (dx, dy))].map(|(a, b)| Segment { a, b, winding: 0, line_bits: 0, lot: 0 })
    }

    fn meeting(ends: [i32; 8]) -> Meeting {
        let both = two(ends);
        assert_eq!(first_met(&both, 0), Some(1));
        Meeting::of(both[0], both[1])
    }

    #[test]
    fn a_crossing() {
        let Meeting::Cross(at) = meeting([0, 0, 4, 4, 0, 4, 4, 0]) else { panic!() };
        assert_eq!(at, (2.0, 2.0));
    }

    #[test]
    fn ends_between_ends() {
        let Meeting::Touch(ends) = meeting([0, 0, 2, 0, 1, 0, 1, 1]) else { panic!() };
        assert_eq!(ends, [(1, 0)]);
        let Meeting::Touch(ends) = meeting([0, 0, 2, 0, 1, 0, 3, 0]) else { panic!() };
        assert_eq!(ends, [(2, 0), (1, 0)]);
    }

    #[test]
    fn the_same_twice() {
        assert!(matches!(meeting([0, 0, 2, 0, 0, 0, 2, 0]), Meeting::Same));
    }

    #[test]
    fn a_small_angle() {
        let looks = |ends| {
            let [one, other] = two(ends);
            look_like_one(one, other)
        };
        assert!(looks([0, 0, 1000, 0, 0, -1, 1000, 1]));
        assert!(!looks([0, 0, 1000, 0, 0, -2, 1000, 2]));
    }

    #[test]
    fn sharing_an_end_is_right() {
        assert_eq!(first_met(&two([0, 0, 2, 0, 2, 0, 3, 0]), 0), None);
    }
}
