//! The pieces of a square of dough that has a square hole and one cut; then their numbers, into lists that are lent again and again.

use jumperclay::{slice, slice_into, Direction, Refusal, Rule, WIDTH};

/// Seven numbers for each segment: ax, ay, bx, by, winding, line bits, lot.
const DRAWING: [i32; 11 * WIDTH] = [
    0, 0, 0, 9, -1, 0, 0, // the square's left
    0, 0, 7, 0, 1, 0, 0, // its bottom
    0, 9, 9, 9, -1, 0, 0, // its top
    3, 3, 3, 6, 1, 0, 0, // the hole's left
    3, 3, 6, 3, -1, 0, 0, // its bottom
    3, 6, 6, 6, 1, 0, 0, // its top
    6, 3, 6, 6, -1, 0, 0, // its right
    7, 0, 9, 0, 1, 0, 0, // the rest of the square's bottom
    7, 0, 9, 2, 0, 1, 0, // a cut that takes a corner off
    9, 0, 9, 2, 1, 0, 0, // the square's right, up to the cut
    9, 2, 9, 9, 1, 0, 0, // and from there
];

fn main() -> Result<(), Refusal> {
    for contour in slice(&DRAWING, Rule::NonZero, Direction::CounterClockwise, 0)? {
        println!("{} {:?}", if contour.is_hole { "hole" } else { "piece" }, contour.points);
    }

    // Lists for up to 100 segments.
    let (mut points, mut lengths, mut roles) = ([0; 400], [0; 200], [0; 200]);
    for min_area in [0, 3, 10, 100] {
        let (rule, direction) = (Rule::NonZero, Direction::Clockwise);
        let totals = slice_into(&DRAWING, rule, direction, min_area, &mut points, &mut lengths, &mut roles)?;
        println!("of area {min_area} or more: {} contours, {} points", totals.contours, totals.points);
    }
    Ok(())
}
