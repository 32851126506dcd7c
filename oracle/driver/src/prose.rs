//! Which runs are turned down, written from the prose of documents 01 and 02 alone: a check independent of ours.

use crate::drawing::{
    cross, difference, read, Point, Segment, FARTHEST, MOST_LOT, MOST_POINTS, MOST_SEGMENTS, MOST_WINDING, WIDTH,
};
use crate::output::Room;
use std::collections::HashMap;

#[derive(Debug, Clone, Copy, PartialEq, Eq)]
pub struct Refusal {
    pub number: u64,
    pub place: u64,
}

impl Refusal {
    /// The line that a program prints.
    pub fn line(self) -> String {
        format!("refused,{},{}\n", self.number, self.place)
    }
}

/// A drawing looked at once for all its runs.
pub struct Checked {
    n: usize,
    /// By 2, or by the first of 3 to 9 and 13 that fits.
    pub refused: Option<Refusal>,
}

impl Checked {
    pub fn new(numbers: &[i32]) -> Self {
        let n = numbers.len() / WIDTH;
        let is_length = numbers.len().is_multiple_of(WIDTH) && n <= MOST_SEGMENTS;
        let refused = if is_length { of_segments(&read(numbers)) } else { Some(Refusal { number: 2, place: 0 }) };
        Self { n, refused }
    }

    /// The refusals of a run that fit, in the order 2, 10, 11, and the first of 3 to 9 and 13: the first is due. Each
    /// choice comes with the greatest known one, each length of a lent list with the entries needed for a segment.
    pub fn refusals(&self, choices: &[(i32, i32)], lists: &[(usize, usize)]) -> Vec<Refusal> {
        let unknown = choices.iter().any(|&(choice, most)| !(0..=most).contains(&choice));
        let short = lists.iter().any(|&(lent, each)| lent < each * self.n);
        let asked = |number| Refusal { number, place: 0 };
        let length = self.refused.filter(|refusal| refusal.number == 2);
        let segments = self.refused.filter(|refusal| refusal.number != 2);
        [length, unknown.then_some(asked(10)), short.then_some(asked(11)), segments].into_iter().flatten().collect()
    }
}

/// The first refusal of a split in the order 2, 11 and 3: the lists are as long as the input, with one length a point.
pub fn of_split(numbers: &[i32], lent: Room) -> Option<Refusal> {
    let points = numbers.len() / 2;
    if !numbers.len().is_multiple_of(2) || points > MOST_POINTS {
        return Some(Refusal { number: 2, place: 0 });
    }
    if lent[0] < numbers.len() || lent[1] < points {
        return Some(Refusal { number: 11, place: 0 });
    }
    let place = numbers.iter().position(|&coordinate| !in_range(coordinate))? / 2;
    Some(Refusal { number: 3, place: place as u64 })
}

/// The first refusal of a text in the order 1 and 11: the list holds all its numbers. The text has so many, or a bad line.
pub fn of_read(count: Result<usize, u64>, lent: usize) -> Option<Refusal> {
    match count {
        Err(place) => Some(Refusal { number: 1, place }),
        Ok(count) => (lent < count).then_some(Refusal { number: 11, place: 0 }),
    }
}

fn in_range(coordinate: i32) -> bool {
    (-FARTHEST..=FARTHEST).contains(&coordinate)
}

fn of_segments(segments: &[Segment]) -> Option<Refusal> {
    fault(segments).or_else(|| wrong_meeting(segments)).or_else(|| imbalance(segments))
}

/// 3 to 7 and 13 by place.
fn fault(segments: &[Segment]) -> Option<Refusal> {
    (0..segments.len()).find_map(|place| {
        let &number = faults_at(segments, place).first()?;
        Some(Refusal { number, place: place as u64 })
    })
}

/// Those of 3 to 7 and 13 that fit at a place, in the order in which they are tried: 13 directly after 6.
pub fn faults_at(segments: &[Segment], place: usize) -> Vec<u64> {
    let s = segments[place];
    let previous = place.checked_sub(1).map(|before| segments[before]);
    let faults = [
        (3, ![s.a.0, s.a.1, s.b.0, s.b.1].into_iter().all(in_range)),
        (4, s.a >= s.b),
        (5, !(-MOST_WINDING..=MOST_WINDING).contains(&s.winding)),
        (6, !(0..=3).contains(&s.bits)),
        (13, !(0..=MOST_LOT).contains(&s.lot)),
        (7, previous.is_some_and(|before| s.a < before.a)),
    ];
    faults.into_iter().filter(|&(_, fits)| fits).map(|(number, _)| number).collect()
}

/// 8 by lower, then upper place.
fn wrong_meeting(segments: &[Segment]) -> Option<Refusal> {
    (0..segments.len())
        .find(|&lower| segments[lower + 1..].iter().any(|upper| meet_wrongly(&segments[lower], upper)))
        .map(|lower| Refusal { number: 8, place: lower as u64 })
}

pub fn meet_wrongly(s: &Segment, t: &Segment) -> bool {
    let crossing = on_opposite_sides(s, t) && on_opposite_sides(t, s);
    let touching = lies_between(s, t.a) || lies_between(s, t.b) || lies_between(t, s.a) || lies_between(t, s.b);
    let same = s.a == t.a && s.b == t.b;
    crossing || touching || same
}

/// The ends of t lie strictly on opposite sides of s.
fn on_opposite_sides(s: &Segment, t: &Segment) -> bool {
    cross(s.a, s.b, t.a).signum() * cross(s.a, s.b, t.b).signum() < 0
}

/// The point lies on the segment strictly between its ends.
fn lies_between(s: &Segment, point: Point) -> bool {
    let (dx, dy) = difference(s.a, s.b);
    let (px, py) = difference(s.a, point);
    let along = dx * px + dy * py;
    dx * py == px * dy && 0 < along && along < dx * dx + dy * dy
}

/// 9: the lowest segment touching a point where the windings that start and those that end differ.
fn imbalance(segments: &[Segment]) -> Option<Refusal> {
    let mut starting_less_ending = HashMap::<Point, i64>::new();
    for s in segments {
        *starting_less_ending.entry(s.a).or_default() += i64::from(s.winding);
        *starting_less_ending.entry(s.b).or_default() -= i64::from(s.winding);
    }
    let touching = |s: &Segment| starting_less_ending[&s.a] != 0 || starting_less_ending[&s.b] != 0;
    let place = segments.iter().position(touching)?;
    Some(Refusal { number: 9, place: place as u64 })
}
