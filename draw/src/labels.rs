//! Labels put where they hide nothing, as far as there is room.

use crate::layers::distance;
use crate::svg;
use crate::view::{Spot, View, WIDTH};

/// How wide a letter is, and half as high as one, in parts of the size.
const LETTER: f64 = 0.66;
const HALF_HEIGHT: f64 = 0.42;

/// Between a label and what it belongs to.
const GAP: f64 = 6.0;

/// Along a line this often a spot is kept free, of this half width.
const EVERY: f64 = 6.0;
const HALF_LINE: f64 = 2.0;

/// Where along a line a label may stand, the best first, and on which side.
const PARTS: [f64; 8] = [0.5, 0.4, 0.3, 0.7, 0.2, 0.8, 0.9, 0.1];
const LEFT: f64 = -1.0;
const RIGHT: f64 = 1.0;

/// What is shorter has no sides.
const NO_LINE: f64 = 0.5;

/// To hide a label is so many times as bad as to hide a line.
const WORSE: f64 = 100.0;

/// A part of the picture.
#[derive(Clone, Copy)]
struct Area {
    middle: Spot,
    half: (f64, f64),
}

impl Area {
    fn overlap(self, other: Self) -> f64 {
        let shared = |one: f64, other: f64, halves: f64| (halves - (one - other).abs()).max(0.0);
        shared(self.middle.0, other.middle.0, self.half.0 + other.half.0)
            * shared(self.middle.1, other.middle.1, self.half.1 + other.half.1)
    }
}

pub struct Labels {
    height: f64,
    lines: Vec<Area>,
    /// With the marks.
    labels: Vec<Area>,
}

impl Labels {
    pub fn new(view: &View) -> Self {
        Self { height: view.height, lines: Vec::new(), labels: Vec::new() }
    }

    pub fn keep_line_free(&mut self, [a, b]: [Spot; 2]) {
        let parts = (distance(a, b) / EVERY).ceil().max(1.0);
        let at = |part: f64| (a.0 + (b.0 - a.0) * part / parts, a.1 + (b.1 - a.1) * part / parts);
        let areas = (0..=parts as usize).map(|part| Area { middle: at(part as f64), half: (HALF_LINE, HALF_LINE) });
        self.lines.extend(areas);
    }

    pub fn keep_spot_free(&mut self, spot: Spot, radius: f64) {
        self.labels.push(Area { middle: spot, half: (radius, radius) });
    }

    /// A label beside the line from a to b.
    pub fn beside(&mut self, line: [Spot; 2], words: &str, size: f64) -> String {
        if distance(line[0], line[1]) < NO_LINE {
            return self.about(line[0], GAP, words, size);
        }
        self.put(spots_beside(line, &[LEFT, RIGHT], half_of(words, size)), words, size)
    }

    /// A label left of one of these lines.
    pub fn left_of(&mut self, lines: &[[Spot; 2]], words: &str, size: f64) -> String {
        let half = half_of(words, size);
        self.put(lines.iter().flat_map(|&line| spots_beside(line, &[LEFT], half)).collect(), words, size)
    }

    /// A label about a spot with a mark of this radius.
    pub fn about(&mut self, (x, y): Spot, radius: f64, words: &str, size: f64) -> String {
        let half = half_of(words, size);
        let (across, up) = (radius + GAP + half.0, radius + GAP + half.1);
        let near = [(across, 0.0), (-across, 0.0), (0.0, -up), (0.0, up)];
        let corners = [(across, -up), (-across, -up), (across, up), (-across, up)];
        let far = near.map(|(x, y)| (1.3 * x, 2.0 * y));
        let ways = near.into_iter().chain(corners).chain(far);
        self.put(ways.map(|way| (x + way.0, y + way.1)).collect(), words, size)
    }

    /// Takes the first spot that hides nothing, or else the one that hides least.
    fn put(&mut self, spots: Vec<Spot>, words: &str, size: f64) -> String {
        let half = half_of(words, size);
        let areas = spots.into_iter().map(|middle| Area { middle: self.within_frame(middle, half), half });
        let best = areas.min_by(|one, other| self.hidden(*one).total_cmp(&self.hidden(*other)));
        let area = best.unwrap_or(Area { middle: (WIDTH / 2.0, self.height / 2.0), half });
        self.labels.push(area);
        svg::text((area.middle.0, area.middle.1 + 0.35 * size), words)
    }

    fn hidden(&self, area: Area) -> f64 {
        let of = |taken: &[Area]| taken.iter().map(|&taken| taken.overlap(area)).sum::<f64>();
        of(&self.lines) + WORSE * of(&self.labels)
    }

    /// The nearest middle with which a label is all in the frame.
    fn within_frame(&self, (x, y): Spot, half: (f64, f64)) -> Spot {
        let within = |at: f64, half: f64, end: f64| at.min(end - half - GAP).max(half + GAP);
        (within(x, half.0, WIDTH), within(y, half.1, self.height))
    }
}

fn spots_beside([a, b]: [Spot; 2], sides: &[f64], half: (f64, f64)) -> Vec<Spot> {
    let way = distance(a, b);
    let right = (-(b.1 - a.1) / way, (b.0 - a.0) / way);
    let off = right.0.abs() * half.0 + right.1.abs() * half.1 + GAP;
    let at = |part: f64, off: f64| (a.0 + (b.0 - a.0) * part + right.0 * off, a.1 + (b.1 - a.1) * part + right.1 * off);
    PARTS.iter().flat_map(|&part| sides.iter().map(move |side| at(part, off * side))).collect()
}

fn half_of(words: &str, size: f64) -> (f64, f64) {
    (words.chars().count() as f64 * size * LETTER / 2.0, size * HALF_HEIGHT)
}
