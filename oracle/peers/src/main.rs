//! How long ours, the unchanged Rust, Clipper and GEOS take to clip the same sheets. Not a test.

mod foreign;
mod runs;

use driver::{sheet_table, Sheet};
use foreign::Foreign;
use runs::{Ours, Run, Theirs};

const NOTE: &str = "\
The lines inside, boundary included, by the non-zero rule: medians of one call in microseconds, each right after another
of its own. Ours takes the drawing as numbers and does every check; the Rust takes the same segments, made ready before,
and checks nothing. Clipper and GEOS take the areas and lines uncut, made ready before, and find the crossings: Clipper
adds the paths and clips into a tree, GEOS joins the areas first where they overlap. \"grown\" is how many times as long
ours takes at 1,024 segments as at 256.";

const COLUMNS: [&str; 7] = ["ours", "Rust, list", "Clipper", "GEOS", "ours/Rust", "ours/Clipper", "ours/GEOS"];

fn main() {
    println!("{NOTE}");
    sheet_table::<4, _>(&COLUMNS, calls);
}

/// Of the four, after a look whether their answers are the same.
fn calls(sheet: &Sheet) -> impl FnMut(usize) {
    let mut runs: [Box<dyn Run>; 4] = [
        Box::new(Ours::new(sheet)),
        Box::new(Theirs::new(sheet)),
        Box::new(Foreign::clipper(sheet)),
        Box::new(Foreign::geos(sheet)),
    ];
    for outside in [false, true] {
        let totals = runs.each_mut().map(|run| {
            run.clip(outside);
            run.totals()
        });
        assert!(totals.iter().all(|other| other.agrees(totals[0])), "outside {outside}: {totals:?}");
    }
    move |call| runs[call].clip(false)
}
