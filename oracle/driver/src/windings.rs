//! Random windings that balance: free ones for the edges that close a cycle, and those of the
//! remaining forest follow from them.

use crate::drawing::{Point, Segment, MOST_WINDING};
use crate::random::Random;
use std::collections::HashMap;

/// Sets the windings, in the order in which the edges come: the earlier ones make the forest.
pub fn balance(edges: &mut [Segment], random: &mut Random) {
    let graph = Graph::new(edges);
    for most in [random.pick(&[1, 1, 2, 3, 40, MOST_WINDING]), 1] {
        graph.wind(edges, random, most);
        if edges.iter().all(|edge| edge.winding.abs() <= MOST_WINDING) {
            return;
        }
    }
    edges.iter_mut().for_each(|edge| edge.winding = 0);
}

struct Graph {
    nodes: HashMap<Point, usize>,
    /// The edges that close a cycle.
    chords: Vec<usize>,
    /// Each node but the roots, with the edge to the node before it; a node comes after that one.
    steps: Vec<(usize, usize)>,
}

impl Graph {
    fn new(edges: &[Segment]) -> Self {
        let mut nodes = HashMap::new();
        for point in edges.iter().flat_map(|edge| [edge.a, edge.b]) {
            let next = nodes.len();
            nodes.entry(point).or_insert(next);
        }
        let mut links = vec![Vec::new(); nodes.len()];
        let (forest, chords) = forest(edges, &nodes);
        for edge in forest {
            links[nodes[&edges[edge].a]].push(edge);
            links[nodes[&edges[edge].b]].push(edge);
        }
        let steps = steps(edges, &nodes, &links);
        Self { nodes, chords, steps }
    }

    fn wind(&self, edges: &mut [Segment], random: &mut Random, most: i32) {
        let mut starting_less_ending = vec![0; self.nodes.len()];
        let idle = random.pick(&[0, 30, 70]);
        for &chord in &self.chords {
            let winding = if random.chance(idle) { 0 } else { random.within(-most, most) };
            self.set(&mut edges[chord], winding, &mut starting_less_ending);
        }
        for &(node, edge) in self.steps.iter().rev() {
            let rest = starting_less_ending[node];
            let winding = if self.nodes[&edges[edge].a] == node { -rest } else { rest };
            self.set(&mut edges[edge], winding, &mut starting_less_ending);
        }
    }

    fn set(&self, edge: &mut Segment, winding: i32, starting_less_ending: &mut [i32]) {
        edge.winding = winding;
        starting_less_ending[self.nodes[&edge.a]] += winding;
        starting_less_ending[self.nodes[&edge.b]] -= winding;
    }
}

/// The edges that join two parts not joined before, and the others.
fn forest(edges: &[Segment], nodes: &HashMap<Point, usize>) -> (Vec<usize>, Vec<usize>) {
    let mut part: Vec<usize> = (0..nodes.len()).collect();
    (0..edges.len()).partition(|&edge| {
        let [a, b] = [edges[edge].a, edges[edge].b].map(|point| root(&mut part, nodes[&point]));
        part[a] = b;
        a != b
    })
}

fn root(part: &mut [usize], mut node: usize) -> usize {
    while part[node] != node {
        part[node] = part[part[node]];
        node = part[node];
    }
    node
}

fn steps(edges: &[Segment], nodes: &HashMap<Point, usize>, links: &[Vec<usize>]) -> Vec<(usize, usize)> {
    let mut steps = Vec::new();
    let mut seen = vec![false; links.len()];
    for start in 0..links.len() {
        let mut open = vec![start];
        while let Some(node) = open.pop() {
            seen[node] = true;
            for &edge in &links[node] {
                let [a, b] = [edges[edge].a, edges[edge].b].map(|point| nodes[&point]);
                let other = if a == node { b } else { a };
                if !seen[other] {
                    steps.push((other, edge));
                    open.push(other);
                }
            }
        }
    }
    steps
}
