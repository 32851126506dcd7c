//! Document 01's demand 3, tried on the outputs of an inside and an outside run together: each drawn line direction
//! is a step of exactly one of them, once and as drawn, of the inside one exactly where the ray fills enough sides;
//! there are no other steps; and steps and travel add up to the drawing's own.

use crate::counts::steps;
use crate::drawing::{distance, Point, Segment};
use crate::output::Output;
use jumperclay::raw::Clipped;

const SIDES: [&str; 2] = ["inside", "outside"];

/// Steps with the run that has them, in order, and the sums of both runs' steps and travel.
#[derive(Debug, PartialEq)]
struct Both {
    steps: Vec<(Point, Point, &'static str)>,
    count: u64,
    travel: u64,
}

/// Err, where what is claimed and what the outputs have differ, with both.
pub fn check(
    segments: &[Segment],
    fills: &[u8],
    boundary: i32,
    outputs: [&Output<Clipped>; 2],
) -> Result<(), [String; 2]> {
    let due = Some(claimed(segments, fills, boundary));
    let got = found(outputs);
    if due == got {
        return Ok(());
    }
    Err([due, got].map(|both| format!("{both:?}")))
}

fn claimed(segments: &[Segment], fills: &[u8], boundary: i32) -> Both {
    let enough = if boundary == 1 { 1 } else { 2 };
    let mut steps = Vec::new();
    for (&Segment { a, b, bits, .. }, &fill) in segments.iter().zip(fills) {
        let filled = fill % 2 + fill / 2 % 2;
        let side = if filled >= enough { SIDES[0] } else { SIDES[1] };
        let directions = [(1, (a, b, side)), (2, (b, a, side))];
        steps.extend(directions.into_iter().filter(|(bit, _)| bits & bit != 0).map(|(_, step)| step));
    }
    steps.sort();
    let travel = steps.iter().map(|&(p, q, _)| distance(p, q)).sum();
    Both { count: steps.len() as u64, travel, steps }
}

/// None where an output cannot be read.
fn found(outputs: [&Output<Clipped>; 2]) -> Option<Both> {
    let mut all = Vec::new();
    for (output, side) in outputs.into_iter().zip(SIDES) {
        let paths = output.paths()?;
        all.extend(paths.iter().flat_map(|path| steps(path)).map(|(p, q)| (p, q, side)));
    }
    all.sort();
    let [inside, outside] = outputs.map(|output| output.counts);
    Some(Both { steps: all, count: inside.steps + outside.steps, travel: inside.travel + outside.travel })
}
