//! Damaged copies of good drawings.

use crate::drawing::{numbers, read, Segment, FARTHEST, MOST_LOT, MOST_SEGMENTS, MOST_WINDING, WIDTH};
use crate::random::Random;

/// A copy damaged once to three times. Some are accepted all the same.
pub fn damaged(drawing: &[i32], random: &mut Random) -> Vec<i32> {
    repeated(drawing, random, |copy, random| match random.below(16) {
        0..=4 => with_number(copy, random),
        5 => with_length(copy, random),
        _ => with_segments(copy, random),
    })
}

/// A copy damaged once to three times.
pub fn repeated<T: Clone>(list: &[T], random: &mut Random, damage: fn(Vec<T>, &mut Random) -> Vec<T>) -> Vec<T> {
    let times = random.pick(&[1, 1, 1, 1, 2, 3]);
    (0..times).fold(list.to_vec(), |copy, _| damage(copy, random))
}

/// One number replaced.
fn with_number(mut numbers: Vec<i32>, random: &mut Random) -> Vec<i32> {
    if numbers.is_empty() {
        return numbers;
    }
    let limit = random.pick(&[FARTHEST, MOST_WINDING, MOST_LOT]);
    let signed = random.pick(&[limit, limit + 1, 1, 2]) * random.pick(&[-1, 1]);
    let other = random.pick(&numbers);
    let place = random.below(numbers.len());
    let beside = numbers[place].saturating_add(random.pick(&[-1, 1]));
    numbers[place] = random.pick(&[signed, signed, beside, beside, other, 0, 3, 4, i32::MAX, i32::MIN]);
    numbers
}

/// A length of no whole segments, or too many of them; or all lots left out.
fn with_length(mut numbers: Vec<i32>, random: &mut Random) -> Vec<i32> {
    if random.chance(5) {
        numbers.resize((MOST_SEGMENTS + random.pick(&[0, 1])) * WIDTH, 0);
    } else if random.chance(20) {
        numbers = numbers.chunks(WIDTH).flat_map(|segment| segment.iter().copied().take(WIDTH - 1)).collect();
    } else if random.chance(50) {
        numbers.extend((0..random.within(1, WIDTH as i32 - 1)).map(|_| 0));
    } else {
        numbers.truncate(numbers.len().saturating_sub(1 + random.below(WIDTH - 1)));
    }
    numbers
}

fn with_segments(drawing: Vec<i32>, random: &mut Random) -> Vec<i32> {
    let mut segments = read(&drawing);
    if segments.is_empty() {
        return drawing;
    }
    let [one, other] = [(); 2].map(|()| random.below(segments.len()));
    match random.below(9) {
        0 => segments.swap(one, other),
        1 => segments.insert(one, segments[one]),
        2 => drop(segments.remove(one)),
        3 => reverse(&mut segments[one]),
        4 => segments[one].b = segments[other].b,
        5 => segments[one].winding = random.within(-2, 2),
        6 => insert_line(&mut segments, one, other),
        7 => segments[one].lot = random.pick(&[-1, MOST_LOT, MOST_LOT + 1, i32::MIN, i32::MAX]),
        _ => aim_at_middle(&mut segments, one, other),
    }
    numbers(&segments)
}

fn reverse(segment: &mut Segment) {
    (segment.a, segment.b) = (segment.b, segment.a);
}

/// A line from one segment to another, in its place by a.
fn insert_line(segments: &mut Vec<Segment>, one: usize, other: usize) {
    let (p, q) = (segments[one].a, segments[other].b);
    let line = Segment { a: p.min(q), b: p.max(q), winding: 0, bits: 1, lot: segments[one].lot };
    segments.insert(segments.partition_point(|old| old.a < line.a), line);
}

/// Lets one segment end at, or next to, the middle of another.
fn aim_at_middle(segments: &mut [Segment], one: usize, other: usize) {
    let Segment { a, b, .. } = segments[other];
    let middle = |p: i32, q: i32| ((i64::from(p) + i64::from(q)) / 2) as i32;
    segments[one].b = (middle(a.0, b.0), middle(a.1, b.1));
}
