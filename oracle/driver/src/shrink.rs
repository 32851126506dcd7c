//! Makes a drawing or a text that shows a difference smaller.

use crate::case::Difference;
use crate::drawing::{numbers, read, Point, Segment, WIDTH};
use std::collections::HashMap;

/// How many smaller ones are tried at most.
const TRIES: usize = 1000;

/// Leaves out segments, windings, lines and lots as long as some difference remains, not always the same one.
pub fn shrunk(found: Difference, differs: impl Fn(Vec<i32>) -> Option<Difference>) -> Difference {
    smallest(found, |found| Box::new(smaller(&found.numbers)), differs)
}

/// Goes on from the first smaller one that differs, as long as there is one.
pub fn smallest<D, T>(
    mut found: D,
    smaller: impl Fn(&D) -> Box<dyn Iterator<Item = T> + '_>,
    differs: impl Fn(T) -> Option<D>,
) -> D {
    let mut tries = TRIES;
    loop {
        let again = smaller(&found).take(tries).inspect(|_| tries -= 1).find_map(&differs);
        match again {
            Some(smaller) => found = smaller,
            None => return found,
        }
    }
}

/// The list with a run of pieces left out, the longest runs first. A piece lies between two neighbouring cuts.
pub fn shorter<T: Clone>(list: &[T], cuts: Vec<usize>) -> impl Iterator<Item = Vec<T>> + '_ {
    let n = cuts.len() - 1;
    let lengths = (0..usize::BITS).map(move |times| n >> times).take_while(|&length| length > 0);
    let runs = lengths.flat_map(move |length| (0..=n - length).step_by(length).map(move |from| (from, from + length)));
    runs.map(move |(from, to)| [&list[..cuts[from]], &list[cuts[to]..]].concat())
}

/// Runs of segments left out; then cycles of windings taken away; then lines; then lots.
fn smaller(drawing: &[i32]) -> impl Iterator<Item = Vec<i32>> + '_ {
    let n = drawing.len() / WIDTH;
    let unwound = (0..n).filter_map(|place| without_cycle(read(drawing), place));
    let unlined = (0..n).flat_map(|place| [1, 2].map(|bit| (place, bit)));
    let unlined = unlined.filter_map(|(place, bit)| without_line(read(drawing), place, bit));
    let lotless = (0..n).filter_map(|place| without_lot(read(drawing), place));
    let segments = (0..=n).map(|place| place * WIDTH).collect();
    shorter(drawing, segments).chain(unwound).chain(unlined).chain(lotless)
}

/// Takes the winding of one segment away along a cycle through it, so that all points stay as they were.
fn without_cycle(mut segments: Vec<Segment>, place: usize) -> Option<Vec<i32>> {
    let Segment { a, b, winding, .. } = segments[place];
    if winding == 0 {
        return None;
    }
    segments[place].winding = 0;
    let back = ways_back(&segments, b);
    let mut point = a;
    while point != b {
        let &step = back.get(&point)?;
        let segment = &mut segments[step];
        // The cycle runs from b to a here, so it comes to this point.
        let (from, sign) = if segment.b == point { (segment.a, 1) } else { (segment.b, -1) };
        segment.winding -= sign * winding;
        point = from;
    }
    Some(numbers(&segments))
}

/// Takes one line bit away.
fn without_line(mut segments: Vec<Segment>, place: usize, bit: i32) -> Option<Vec<i32>> {
    let set = segments[place].bits & bit != 0;
    segments[place].bits &= !bit;
    set.then(|| numbers(&segments))
}

fn without_lot(mut segments: Vec<Segment>, place: usize) -> Option<Vec<i32>> {
    let lot = std::mem::take(&mut segments[place].lot);
    (lot != 0).then(|| numbers(&segments))
}

/// For each point that wound segments join to the start, the segment by which it was reached.
fn ways_back(segments: &[Segment], start: Point) -> HashMap<Point, usize> {
    let mut ways = HashMap::new();
    let mut reached = vec![start];
    while let Some(point) = reached.pop() {
        for (place, segment) in segments.iter().enumerate().filter(|(_, segment)| segment.winding != 0) {
            let other = match point {
                _ if point == segment.a => segment.b,
                _ if point == segment.b => segment.a,
                _ => continue,
            };
            if other != start && !ways.contains_key(&other) {
                ways.insert(other, place);
                reached.push(other);
            }
        }
    }
    ways
}
