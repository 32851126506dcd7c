//! Line bits for the edges of a drawing.

use crate::drawing::{Point, Segment};
use crate::random::Random;
use std::collections::HashMap;

/// Sets the line bits of edges that have none.
pub type Draw = fn(&mut [Segment], &mut Random);

/// Lines on some edges, each by itself.
pub fn scattered(edges: &mut [Segment], random: &mut Random) {
    let lines = random.pick(&[0, 20, 50, 100]);
    for edge in edges {
        if random.chance(lines) {
            edge.bits = random.within(1, 3);
        }
    }
}

/// Lines on most edges, each by itself.
pub fn mixed(edges: &mut [Segment], random: &mut Random) {
    edges.iter_mut().for_each(|edge| edge.bits = random.within(0, 3));
}

/// Two lines on every edge.
pub fn both_ways(edges: &mut [Segment], _: &mut Random) {
    draw_all(edges, 3);
}

fn draw_all(edges: &mut [Segment], bits: i32) {
    edges.iter_mut().for_each(|edge| edge.bits = bits);
}

/// Lines that go on from edge to edge: edges all drawn the same way or at random, or strings laid along them.
pub fn joined(edges: &mut [Segment], random: &mut Random) {
    match random.below(8) {
        0 => draw_all(edges, 1),
        1 => draw_all(edges, 2),
        2 => both_ways(edges, random),
        3 => mixed(edges, random),
        _ => strings(edges, random),
    }
}

/// Each string goes on until every way from its last point is drawn, or it is long enough.
fn strings(edges: &mut [Segment], random: &mut Random) {
    let mut touching = HashMap::<Point, Vec<usize>>::new();
    for (place, edge) in edges.iter().enumerate() {
        touching.entry(edge.a).or_default().push(place);
        touching.entry(edge.b).or_default().push(place);
    }
    for _ in 0..random.within(1, 4) {
        if edges.is_empty() {
            return;
        }
        let mut at = edges[random.below(edges.len())].a;
        for _ in 0..random.below(2 * edges.len()) + 1 {
            let ways = &touching[&at];
            let turned = random.below(ways.len());
            let mut in_turn = ways[turned..].iter().chain(&ways[..turned]);
            let Some(next) = in_turn.find_map(|&place| draw(&mut edges[place], at)) else { break };
            at = next;
        }
    }
}

/// Draws a line along the edge from one of its ends to the other, which is returned. None where there is one.
fn draw(edge: &mut Segment, from: Point) -> Option<Point> {
    let (bit, to) = if edge.a == from { (1, edge.b) } else { (2, edge.a) };
    let new = edge.bits & bit == 0;
    edge.bits |= bit;
    new.then_some(to)
}
