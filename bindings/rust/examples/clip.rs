//! The cut lines of a square of dough, inside and outside.

use jumperclay::{clip, Clip, ClipRule, Refusal, Rule, WIDTH};

/// Seven numbers for each segment: ax, ay, bx, by, winding, line bits, lot. The cut goes through lots 12 and 7.
const DRAWING: [i32; 9 * WIDTH] = [
    -5, 5, 0, 5, 0, 1, 12, // the cut, left of the square
    0, 0, 0, 5, -1, 0, 0, // the square's left, lower half
    0, 0, 10, 0, 1, 0, 0, // its bottom
    0, 5, 0, 10, -1, 0, 0, // its left, upper half
    0, 5, 10, 5, 0, 1, 7, // the cut, inside
    0, 10, 10, 10, -1, 0, 0, // its top
    10, 0, 10, 5, 1, 0, 0, // its right, lower half
    10, 5, 10, 10, 1, 0, 0, // its right, upper half
    10, 5, 15, 5, 0, 1, 0, // the cut, right of the square
];

fn print(side: &str, Clip { paths, totals }: Clip) {
    println!("{side}: {} steps, travel {}", totals.steps, totals.travel);
    for path in paths {
        println!("  {path:?}");
    }
}

fn main() -> Result<(), Refusal> {
    let inside = ClipRule { invert: false, boundary_included: true };
    let outside = ClipRule { invert: true, ..inside };
    print("inside", clip(&DRAWING, Rule::NonZero, inside)?);
    print("outside", clip(&DRAWING, Rule::NonZero, outside)?);
    Ok(())
}
