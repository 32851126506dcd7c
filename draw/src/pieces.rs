//! The contours of a slice. They are not bound to shapes, so the greater ones are painted first, holes in white.

use crate::labels::Labels;
use crate::layers::{distance, spots, Layer, DOUGH, SMALL_PRINT};
use crate::svg;
use crate::view::{Spot, View};
use jumperclay::{Contour, Point};
use std::cmp::Reverse;

/// Pale ones that differ in lightness too.
const TINTS: [&str; 6] = [DOUGH, "#cfe3f5", "#e3d3ea", "#f9d2ae", "#d6ecd2", "#e4e4e4"];
const HOLE: &str = "#ffffff";

const SIZE: f64 = 14.0;

/// A label is for contours with an edge this long at least, where there are not too many.
const LONG_ENOUGH: f64 = 60.0;
const MOST_LABELLED: usize = 60;
const EDGES_TRIED: usize = 4;

pub fn layers(view: &View, contours: &[Contour], labels: &mut Labels) -> Vec<Layer> {
    let mut tinted = tints(contours);
    tinted.sort_by_key(|(contour, _)| (Reverse(area(&contour.points)), !contour.is_hole));
    let painted = tinted.iter().map(|(contour, tint)| painted(view, contour, tint)).collect();
    let labelled = contours.iter().enumerate().filter(|_| contours.len() <= MOST_LABELLED);
    let names = labelled.filter_map(|(place, contour)| name(view, place, contour, labels));
    let names = Layer::of_words(SMALL_PRINT, SIZE, names.collect());
    vec![Layer { attributes: r#"fill-rule="evenodd""#.to_string(), elements: painted }, names]
}

/// Pieces take turns.
fn tints(contours: &[Contour]) -> Vec<(&Contour, &'static str)> {
    let mut next = TINTS.into_iter().cycle();
    let tint = |contour: &Contour| if contour.is_hole { Some(HOLE) } else { next.next() };
    contours.iter().zip(contours.iter().map_while(tint)).collect()
}

fn painted(view: &View, contour: &Contour, tint: &str) -> String {
    format!(r#"<path fill="{tint}" d="{}Z"/>"#, svg::through(&spots(view, &contour.points)))
}

/// The contour's place, in what it runs around. Contours have dough on their left; a hole is on the right of its own.
fn name(view: &View, place: usize, contour: &Contour, labels: &mut Labels) -> Option<String> {
    let around = spots(view, &contour.points);
    let next = around.iter().cycle().skip(1);
    let mut edges: Vec<[Spot; 2]> =
        around.iter().zip(next).map(|(&a, &b)| if contour.is_hole { [b, a] } else { [a, b] }).collect();
    edges.sort_by(|one, other| distance(other[0], other[1]).total_cmp(&distance(one[0], one[1])));
    edges.truncate(EDGES_TRIED);
    let [a, b] = *edges.first()?;
    let words = if contour.is_hole { format!("hole {place}") } else { format!("piece {place}") };
    (distance(a, b) >= LONG_ENOUGH).then(|| labels.left_of(&edges, &words, SIZE))
}

/// Twice the area, of which the sign tells the direction, taken off.
fn area(points: &[Point]) -> u64 {
    let next = points.iter().cycle().skip(1);
    let wide = |&(x, y): &Point| (i64::from(x), i64::from(y));
    let edges = points.iter().map(wide).zip(next.map(wide));
    edges.map(|(a, b)| a.0 * b.1 - a.1 * b.0).sum::<i64>().unsigned_abs()
}
