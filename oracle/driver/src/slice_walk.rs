//! The walks of a slice run, by document 01's "Slices and loops". A walk in direction true goes round with dough on its
//! left, one in direction false with dough on its right: each move uses that side of its link up.

use crate::drawing::{cross, Point, Segment};
use crate::loops::Loops;
use crate::nodes::{nodes, Nodes};
use std::cmp::Ordering;

const TOP: u8 = 1;
const BOTTOM: u8 = 2;

/// A closed walk, and what was met on the way.
pub struct Walk {
    pub direction: bool,
    pub loops: Loops,
    /// It went back on the link by which it came.
    pub returns: bool,
    /// It had a choice of links other than the one by which it came.
    pub chooses: bool,
}

/// All walks of an accepted drawing; none where one finds no move.
pub fn walks(segments: &[Segment], fills: &[u8]) -> Option<Vec<Walk>> {
    let sides = fills.iter().map(|fill| fill & (TOP | BOTTOM)).collect();
    let mut graph = Graph { links: segments, sides, nodes: nodes(segments) };
    let mut walks = Vec::new();
    while let Some(first) = graph.sides.iter().position(|&sides| sides != 0) {
        walks.push(graph.walk(first)?);
    }
    Some(walks)
}

/// All links, with the filled sides that are left, and the links of each point.
struct Graph<'a> {
    links: &'a [Segment],
    sides: Vec<u8>,
    nodes: Nodes,
}

impl Graph<'_> {
    /// From the first link's a until it comes back there.
    fn walk(&mut self, first: usize) -> Option<Walk> {
        let direction = self.sides[first] & TOP != 0;
        let start = self.links[first].a;
        let (mut points, mut returns, mut chooses) = (Vec::new(), false, false);
        let (mut link, mut at) = (first, start);
        loop {
            points.push(at);
            self.sides[link] &= !self.side(link, at, direction);
            at = self.links[link].other(at);
            if at == start {
                return Some(Walk { direction, loops: Loops::of(&points), returns, chooses });
            }
            let back = self.links[link].other(at);
            let (next, others) = self.nearest(at, back, direction)?;
            returns |= next == link;
            chooses |= others > 1;
            link = next;
        }
    }

    /// The side of a link on which a walk that leaves this end has its dough.
    fn side(&self, link: usize, from: Point, direction: bool) -> u8 {
        if direction == (from == self.links[link].a) {
            TOP
        } else {
            BOTTOM
        }
    }

    /// Of the possible moves from here the one met first on turning from the way back, clockwise in direction true and
    /// counter-clockwise in direction false, where the way back itself is a whole turn away; and how many others than
    /// the way back there were.
    fn nearest(&self, at: Point, back: Point, direction: bool) -> Option<(usize, usize)> {
        let is_possible = |&way: &usize| self.sides[way] & self.side(way, at, direction) != 0;
        let to = |way: usize| self.links[way].other(at);
        let possible = self.nodes[&at].iter().copied().filter(is_possible);
        let others = possible.clone().filter(|&way| to(way) != back).count();
        let nearest = possible.min_by(|&p, &q| nearer(at, back, [to(p), to(q)], direction))?;
        Some((nearest, others))
    }
}

/// Which of two points one meets first on turning about a centre from the way back. No two lie in one direction.
fn nearer(centre: Point, back: Point, [p, q]: [Point; 2], clockwise: bool) -> Ordering {
    // Positive where the turn from one point to the other is less than half a turn.
    let turn = |from, to| if clockwise { cross(centre, to, from) } else { cross(centre, from, to) };
    let part = |point| match point {
        _ if point == back => 2,
        _ if turn(back, point) > 0 => 0,
        _ => 1,
    };
    part(p).cmp(&part(q)).then(0.cmp(&turn(p, q)))
}
