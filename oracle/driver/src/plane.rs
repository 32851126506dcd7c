//! Segments in the plane that do not meet wrongly, most of them before they have windings, bits and lots.

use crate::drawing::{numbers, Point, Segment};
use crate::lines::Draw;
use crate::lots;
use crate::prose::meet_wrongly;
use crate::random::Random;
use crate::windings;

#[derive(Default)]
pub struct Plane {
    pub edges: Vec<Segment>,
}

impl Plane {
    /// Adds the edge between two points. For shapes whose edges are known to meet well.
    pub fn add(&mut self, p: Point, q: Point) {
        self.edges.push(edge(p, q, 0));
    }

    /// Adds the edge where it meets none wrongly.
    pub fn try_add(&mut self, p: Point, q: Point) {
        let new = edge(p, q, 0);
        if p != q && !self.edges.iter().any(|old| meet_wrongly(old, &new)) {
            self.edges.push(new);
        }
    }

    /// Adds the edges of a closed outline, wound so many times.
    pub fn outline(&mut self, points: &[Point], winding: i32) {
        for (i, &p) in points.iter().enumerate() {
            self.edges.push(edge(p, points[(i + 1) % points.len()], winding));
        }
    }

    /// Moves every point. The move must keep lines straight and points apart.
    pub fn moved(mut self, to: impl Fn(Point) -> Point) -> Self {
        for old in &mut self.edges {
            *old = edge(to(old.a), to(old.b), old.winding);
        }
        self
    }

    pub fn points(&self) -> impl Iterator<Item = Point> + Clone + '_ {
        self.edges.iter().flat_map(|edge| [edge.a, edge.b])
    }

    /// The edges in order of a, those of one a in any order, with these lines and any lots, and with balanced windings
    /// where none are wound yet.
    pub fn drawing(mut self, draw: Draw, random: &mut Random) -> Vec<i32> {
        random.shuffle(&mut self.edges);
        if self.edges.iter().all(|edge| edge.winding == 0) {
            windings::balance(&mut self.edges, random);
        }
        draw(&mut self.edges, random);
        // Apart, so that a drawing is the same but for its lots.
        lots::scatter(&mut self.edges, &mut random.apart());
        self.edges.sort_by_key(|segment| segment.a);
        numbers(&self.edges)
    }
}

/// The segment between p and q, wound from p to q.
fn edge(p: Point, q: Point, winding: i32) -> Segment {
    Segment { a: p.min(q), b: p.max(q), winding: if p < q { winding } else { -winding }, bits: 0, lot: 0 }
}
