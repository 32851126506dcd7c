//! A clip run by document 01's "Kept links" and "The clip walk".

use crate::choices::Choices;
use crate::drawing::{Point, Segment};
use crate::nodes::{nodes, Nodes};

/// The kept links, with the line bits that are left, and the links of each point.
pub struct Graph {
    links: Vec<Segment>,
    nodes: Nodes,
}

/// A path as it is given out; a backward one was walked from its end.
pub struct Path {
    pub points: Vec<Point>,
    pub backward: bool,
}

impl Graph {
    pub fn new(segments: &[Segment], fills: &[u8], choices: Choices) -> Self {
        let kept = segments.iter().zip(fills).filter(|(segment, &fill)| segment.bits != 0 && keeps(choices, fill));
        let links: Vec<Segment> = kept.map(|(&segment, _)| segment).collect();
        Self { nodes: nodes(&links), links }
    }

    /// How many links meet at a point.
    pub fn degree(&self, point: Point) -> usize {
        self.nodes[&point].len()
    }

    /// Clears all line bits.
    pub fn walk(&mut self) -> Vec<Path> {
        let mut paths = Vec::new();
        while let Some(place) = self.links.iter().position(|link| link.bits != 0) {
            paths.push(self.path(place));
        }
        paths
    }

    fn path(&mut self, place: usize) -> Path {
        let first = &mut self.links[place];
        let mut points = vec![first.a, first.b];
        let outward = take(first, 1);
        if !outward {
            take(first, 2);
        }
        let mut last = first.b;
        while let Some(next) = self.next(last, outward) {
            points.push(next);
            last = next;
        }
        if !outward {
            points.reverse();
        }
        Path { points, backward: !outward }
    }

    /// Outward, bit 1 leads to a greater point and bit 2 to a lesser one; backward the other bit.
    fn next(&mut self, at: Point, outward: bool) -> Option<Point> {
        self.nodes[&at].iter().find_map(|&place| {
            let link = &mut self.links[place];
            let other = link.other(at);
            let bit = if outward == (other > at) { 1 } else { 2 };
            take(link, bit).then_some(other)
        })
    }
}

/// Clears the bit. False where it is not set.
fn take(link: &mut Segment, bit: i32) -> bool {
    let set = link.bits & bit != 0;
    link.bits &= !bit;
    set
}

/// By how many of the two side bits are set.
fn keeps(choices: Choices, fill: u8) -> bool {
    let sides = (fill & 3).count_ones();
    match (choices.invert, choices.boundary) {
        (0, 1) => sides == 1 || sides == 2,
        (0, 0) => sides == 2,
        (1, 1) => sides == 0,
        (1, 0) => sides == 0 || sides == 1,
        _ => unreachable!("only known choices are asked for"),
    }
}
