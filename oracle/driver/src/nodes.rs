//! Document 01's "Points and their links".

use crate::drawing::{Point, Segment};
use std::collections::HashMap;

/// The links of each point: those starting there in link order, then those ending there.
pub type Nodes = HashMap<Point, Vec<usize>>;

pub fn nodes(links: &[Segment]) -> Nodes {
    let starts = links.iter().map(|link| link.a).enumerate();
    let ends = links.iter().map(|link| link.b).enumerate();
    let mut nodes = Nodes::new();
    for (place, point) in starts.chain(ends) {
        nodes.entry(point).or_default().push(place);
    }
    nodes
}
