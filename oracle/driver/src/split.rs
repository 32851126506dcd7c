//! overlay_split beside the Rust and the loops written from prose.

use crate::areas::areas;
use crate::case::Difference;
use crate::drawing::{pairs, Point};
use crate::lent::{long_enough, too_short};
use crate::loops::{reaches, Loops};
use crate::marks;
use crate::output::{Output, Room};
use crate::prose::of_split;
use crate::random::Random;
use crate::table::Table;
use crate::theirs::{agree, split};
use jumperclay::raw::{self, Looped};

/// How many calls there were, and runs of accepted lists.
#[derive(Default)]
pub struct Tally {
    /// By the refusal due, 0 for none.
    pub calls: Table<u64, 1>,
    pub marks: Table<&'static str, 1>,
    pub sizes: Table<usize, 1>,
}

/// Splits a list of numbers by all the areas. Returns the number of the refusal with lists long enough, 0 for none.
pub fn compare(numbers: &[i32], random: &mut Random, tally: &mut Tally) -> Result<u64, Difference> {
    let points = pairs(numbers);
    let needed = [numbers.len(), points.len(), 0];
    let refused = of_split(numbers, needed);
    let loops = match refused {
        Some(_) => Loops::default(),
        None => Loops::of(&points),
    };
    for min_area in areas(&loops.all.iter().collect::<Vec<_>>(), random) {
        let kept = loops.all.iter().filter(|points| reaches(points, min_area)).cloned().collect();
        let run = Run { numbers, min_area, loops: kept };
        if refused.is_none() {
            agree(&run.loops[..], || split(&points, min_area)).map_err(|answers| run.difference(answers))?;
            tally.marks.add_marks(marks::SPLIT, marks::of_split(&points, &loops, min_area));
            tally.sizes.add(points.len(), 0);
        }
        if let Some(short) = too_short(needed, random) {
            run.on_lists(short, random, tally)?;
        }
        run.on_lists(long_enough(needed, random), random, tally)?;
    }
    Ok(refused.map_or(0, |refusal| refusal.number))
}

/// A run with the loops that are due where it is accepted.
struct Run<'a> {
    numbers: &'a [i32],
    min_area: u64,
    loops: Vec<Vec<Point>>,
}

impl Run<'_> {
    fn on_lists(&self, lent: Room, random: &mut Random, tally: &mut Tally) -> Result<(), Difference> {
        let due: Output<Looped> = match of_split(self.numbers, lent) {
            Some(refusal) => Output::refused(refusal),
            None => Output::of_paths(&self.loops),
        };
        tally.calls.add(due.counts.number, 0);
        let output = Output::of_noise(&due, lent, random, |out, lengths, _| {
            raw::split(self.numbers, self.min_area, out, lengths)
        });
        output.map(drop).map_err(|answers| self.difference(answers))
    }

    fn difference(&self, [expected, got]: [String; 2]) -> Difference {
        let (numbers, choices) = (self.numbers.to_vec(), self.min_area.to_string());
        Difference { numbers, width: 2, run: "overlay_split", choices, expected, got }
    }
}
