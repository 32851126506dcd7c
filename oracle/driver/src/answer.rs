//! What the clip program prints for a text, by document 01's prose.

use crate::case::Case;
use crate::counts::Counts;
use crate::drawing::{Point, MOST_SEGMENTS};
use crate::output::{Room, CLIP_EACH};
use crate::prose::Refusal;
use crate::text;
use jumperclay::raw::Clipped;

/// How long the lists are that the program lends to its run.
const LENT: Room = [CLIP_EACH[0] * MOST_SEGMENTS, CLIP_EACH[1] * MOST_SEGMENTS, 0];

pub struct Answer {
    /// Of the refusal, 0 where there is none.
    pub number: u64,
    pub printed: String,
}

pub fn answer(text: &[u8]) -> Answer {
    match paths(text) {
        Ok(paths) => Answer { number: 0, printed: with_total(&paths) },
        Err(refusal) => Answer { number: refusal.number, printed: refusal.line() },
    }
}

fn paths(text: &[u8]) -> Result<Vec<Vec<Point>>, Refusal> {
    let (choices, numbers) = text::read(text).map_err(|place| Refusal { number: 1, place })?;
    let case = Case::new(&numbers);
    match case.clip_refusals(choices, LENT).first() {
        Some(&refusal) => Err(refusal),
        None => Ok(case.graph(choices).walk().into_iter().map(|path| path.points).collect()),
    }
}

/// A line for each point; last the total.
fn with_total(paths: &[Vec<Point>]) -> String {
    let mut lines = Vec::new();
    for (path, points) in paths.iter().enumerate() {
        lines.extend(points.iter().enumerate().map(|(point, (x, y))| format!("{path},{point},{x},{y}\n")));
    }
    let Clipped { paths, points, steps, travel, .. } = Clipped::of_paths(paths);
    lines.push(format!("total,{paths},{points},{steps},{travel}\n"));
    lines.concat()
}
