//! The filled area, by the fills of the segments: its border runs along those with dough on one side only. Around each point
//! dough and no dough take turns, so that an even number of these meet there, and any closed lines along them hold the area by
//! the even-odd rule. A slice has it as contours too, but can be refused where the fills are not.

use crate::segment::Segment;
use jumperclay::Point;
use std::collections::BTreeMap;

/// The closed lines along the border.
pub fn borders(segments: &[Segment], fills: &[u8]) -> Vec<Vec<Point>> {
    let mut edges = Edges::new(segments.iter().zip(fills).filter(|(_, fill)| matches!(*fill & 3, 1 | 2)));
    let starts: Vec<Point> = edges.at.keys().copied().collect();
    let mut borders = Vec::new();
    for start in starts {
        while let Some(border) = edges.take_border(start) {
            borders.push(border);
        }
    }
    borders
}

/// The other ends of the edges at each point that are not used yet.
struct Edges {
    at: BTreeMap<Point, Vec<Point>>,
}

impl Edges {
    fn new<'a>(border: impl Iterator<Item = (&'a Segment, &'a u8)>) -> Self {
        let mut at: BTreeMap<Point, Vec<Point>> = BTreeMap::new();
        for (segment, _) in border {
            at.entry(segment.a).or_default().push(segment.b);
            at.entry(segment.b).or_default().push(segment.a);
        }
        Self { at }
    }

    /// From a point along edges until it is back there; none where no edge is left.
    fn take_border(&mut self, start: Point) -> Option<Vec<Point>> {
        let mut border = vec![start];
        let mut here = self.take_edge(start)?;
        while here != start {
            border.push(here);
            here = self.take_edge(here)?;
        }
        Some(border)
    }

    fn take_edge(&mut self, from: Point) -> Option<Point> {
        let to = self.at.get_mut(&from)?.pop()?;
        self.at.get_mut(&to)?.retain(|&end| end != from);
        Some(to)
    }
}

#[cfg(test)]
mod tests {
    use super::*;
    use crate::segment::segments;
    use jumperclay::{fills, Rule, WIDTH};

    /// Two squares that touch at a point, and a line across one of them.
    const TWO: [i32; 9 * WIDTH] = [
        0, 0, 0, 4, -1, 0, 0, 0, 0, 4, 0, 1, 0, 0, 0, 0, 4, 4, 0, 1, 0, 0, 4, 4, 4, -1, 0, 0, 4, 0, 4, 4, 1, 0, 0, 4,
        4, 4, 8, -1, 0, 0, 4, 4, 8, 4, 1, 0, 0, 4, 8, 8, 8, -1, 0, 0, 8, 4, 8, 8, 1, 0, 0,
    ];

    fn edges(borders: &[Vec<Point>]) -> usize {
        borders.iter().map(Vec::len).sum()
    }

    #[test]
    fn borders_take_every_edge_once_and_no_line() {
        let filled = |rule| borders(&segments(&TWO), &fills(&TWO, rule).unwrap());
        assert_eq!(edges(&filled(Rule::NonZero)), 8);
        assert_eq!(edges(&filled(Rule::Positive)), 8);
        assert!(filled(Rule::Negative).is_empty());
    }
}
