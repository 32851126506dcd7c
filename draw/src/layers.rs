//! What is drawn over what.

use crate::segment::Segment;
use crate::svg;
use crate::view::{place, Place, Spot, View};
use jumperclay::Point;

pub const INK: &str = "#222222";

/// Told apart also by those who see few colours; red is kept for refusals.
pub const DOUGH: &str = "#f7e9c8";
pub const OUTLINE: &str = "#8f8a80";
pub const INSIDE: &str = "#0067b8";
pub const OUTSIDE: &str = "#e08a00";
pub const GREY: &str = "#a8a8a8";
pub const SMALL_PRINT: &str = "#707070";
pub const RED: &str = "#d00000";
pub const PALE_RED: &str = "#f5b5b5";

pub const OUTLINE_WIDTH: f64 = 5.0;
pub const LINE_WIDTH: f64 = 2.0;

/// How long an arrowhead is, at most this part of its step, and not drawn where it would be shorter than a dot.
const ARROW: f64 = 13.0;
const ARROW_PART: f64 = 0.25;
const SHORTEST_ARROW: f64 = 2.5;

/// Beyond the middle, so that the arrows of a line drawn both ways stand apart.
const ARROW_AT: f64 = 0.66;

/// Elements with the same attributes.
pub struct Layer {
    pub attributes: String,
    pub elements: Vec<String>,
}

impl Layer {
    /// Lines and nothing filled.
    pub fn of_lines(colour: &str, width: f64, elements: Vec<String>) -> Self {
        let width = svg::number(width);
        let attributes = format!(
            r#"fill="none" stroke="{colour}" stroke-width="{width}" stroke-linecap="round" stroke-linejoin="round""#
        );
        Self { attributes, elements }
    }

    pub fn filled(colour: &str, elements: Vec<String>) -> Self {
        Self { attributes: format!(r#"fill="{colour}""#), elements }
    }

    /// Words about their spots.
    pub fn of_words(colour: &str, size: f64, elements: Vec<String>) -> Self {
        let size = svg::number(size);
        let attributes = format!(r#"fill="{colour}" font-size="{size}" text-anchor="middle""#);
        Self { attributes, elements }
    }
}

/// What is in the frame of a segment.
pub fn seen(view: &View, segment: Segment) -> Option<[Spot; 2]> {
    view.seen(place(segment.a), place(segment.b))
}

pub fn segment_lines<'a>(view: &View, segments: impl IntoIterator<Item = &'a Segment>) -> Vec<String> {
    segments.into_iter().filter_map(|&segment| seen(view, segment)).map(|[a, b]| svg::line(a, b)).collect()
}

/// Paths in a colour, all lines under all arrows and the dots where paths start.
pub fn path_layers(view: &View, runs: [(&[Vec<Point>], &str); 2]) -> Vec<Layer> {
    let (mut layers, mut signs) = (Vec::new(), Vec::new());
    for (paths, colour) in runs {
        let paths: Vec<Vec<Spot>> = paths.iter().map(|path| spots(view, path)).collect();
        let lines = paths.iter().map(|path| svg::path(&svg::through(path))).collect();
        let starts = paths.iter().filter_map(|path| Some(start(*path.first()?, *path.get(1)?)));
        let arrows = paths.iter().flat_map(|path| path.windows(2)).filter_map(|step| arrow(step[0], step[1]));
        layers.push(Layer::of_lines(colour, LINE_WIDTH, lines));
        signs.push(Layer::filled(colour, starts.chain(arrows).collect()));
    }
    layers.extend(signs);
    layers
}

pub fn spots(view: &View, points: &[Point]) -> Vec<Spot> {
    points.iter().map(|&point| view.spot(place(point))).collect()
}

fn start(from: Spot, to: Spot) -> String {
    svg::circle(from, (distance(from, to) / 4.0).min(3.5))
}

/// An arrowhead on the way, where the way is long enough.
pub fn arrow(from: Spot, to: Spot) -> Option<String> {
    let way = distance(from, to);
    let long = ARROW.min(way * ARROW_PART);
    if long < SHORTEST_ARROW {
        return None;
    }
    let (x, y) = ((to.0 - from.0) / way, (to.1 - from.1) / way);
    let at = |along: f64, aside: f64| (from.0 + x * along - y * aside, from.1 + y * along + x * aside);
    let (back, half) = (way * ARROW_AT - long / 2.0, long * 0.42);
    let corners = [at(back + long, 0.0), at(back, half), at(back, -half)];
    Some(svg::path(&(svg::through(&corners) + "Z")))
}

pub fn distance(one: Place, other: Place) -> f64 {
    (other.0 - one.0).hypot(other.1 - one.1)
}
