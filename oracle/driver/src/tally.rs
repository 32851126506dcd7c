//! How many drawings, calls and runs of each kind there were.

use crate::both;
use crate::calls::{Call, Calls};
use crate::choices::{Choices, SliceChoices};
use crate::drawing::{read, Segment, MOST_LOT};
use crate::marks;
use crate::prose::{faults_at, Refusal};
use crate::table::Table;

#[derive(Default)]
pub struct Tally {
    generators: Table<&'static str, 2>,
    placements: Table<&'static str, 1>,
    sizes: Table<usize, 1>,
    /// Accepted drawings by the lots that they have.
    lots: Table<&'static str, 1>,
    /// Refused drawings with two faults at one place.
    faults: Table<&'static str, 1>,
    calls: Calls,
    /// Accepted drawings asked what cleared them of wrong meetings, and those that only the search over pairs did.
    asked: usize,
    searched: usize,
    /// The calls of both clip runs at once.
    both: Table<&'static str, 1>,
    /// The clip and slice runs of accepted drawings.
    clips: Table<&'static str, 4>,
    slices: Table<&'static str, 4>,
    clip_marks: Table<&'static str, 1>,
    slice_marks: Table<&'static str, 1>,
}

/// What must occur: numbers of segments, lots, which of two faults at one place is due, filters and directions by each
/// rule.
const SIZES: [usize; 3] = [0, 1, 1024];
const LOTS: [&str; 3] = ["no lot", "the greatest lot", "another lot"];
const FAULTS: [&str; 5] = ["3 before 4", "4 before 5", "5 before 6", "6 before 13", "13 before 7"];
const DIRECTIONS: [&str; 2] = ["counter-clockwise", "clockwise"];
const FILTERS: [[&str; 2]; 2] = [["inside excluded", "inside included"], ["outside excluded", "outside included"]];

impl Tally {
    pub fn add_drawing(&mut self, generator: &'static str, numbers: &[i32], refused: Option<Refusal>) {
        self.generators.add(generator, usize::from(refused.is_some()));
        let segments = read(numbers);
        match refused {
            Some(refusal) => self.add_faults(&segments, refusal),
            None => self.add_accepted(&segments),
        }
    }

    fn add_accepted(&mut self, segments: &[Segment]) {
        if SIZES.contains(&segments.len()) {
            self.sizes.add(segments.len(), 0);
        }
        let any = |is_one: fn(i32) -> bool| segments.iter().any(|segment| is_one(segment.lot));
        let marks = [any(|lot| lot == 0), any(|lot| lot == MOST_LOT), any(|lot| 0 < lot && lot < MOST_LOT)];
        self.lots.add_marks(LOTS, marks);
    }

    /// Of a refusal by a fault, where a second one fits at its place.
    fn add_faults(&mut self, segments: &[Segment], Refusal { number, place }: Refusal) {
        if !matches!(number, 3..=7 | 13) {
            return;
        }
        if let [due, later, ..] = faults_at(segments, place as usize)[..] {
            let order = format!("{due} before {later}");
            FAULTS.into_iter().filter(|&name| name == order).for_each(|name| self.faults.add(name, 0));
        }
    }

    pub fn add_placement(&mut self, name: &'static str) {
        self.placements.add(name, 0);
    }

    pub fn add_call(&mut self, call: &Call) {
        self.calls.add(call);
    }

    /// An accepted drawing, and whether only the search over pairs cleared it of wrong meetings.
    pub fn add_cleared(&mut self, by_search: bool) {
        self.asked += 1;
        self.searched += usize::from(by_search);
    }

    /// A call of both clip runs at once, by its name.
    pub fn add_both(&mut self, name: &'static str) {
        self.both.add(name, 0);
    }

    /// A clip run of an accepted drawing and which marks it has.
    pub fn add_clip(&mut self, choices: Choices, marks: [bool; marks::CLIP.len()]) {
        let [rule, invert, boundary] = choices.list().map(|choice| choice as usize);
        self.clips.add(FILTERS[invert][boundary], rule);
        self.clip_marks.add_marks(marks::CLIP, marks);
    }

    /// A slice run of an accepted drawing and which marks it has.
    pub fn add_slice(&mut self, choices: SliceChoices, marks: [bool; marks::SLICE.len()]) {
        let [rule, direction] = choices.list().map(|choice| choice as usize);
        self.slices.add(DIRECTIONS[direction], rule);
        self.slice_marks.add_marks(marks::SLICE, marks);
    }

    pub fn merge(&mut self, other: Self) {
        self.generators.merge(other.generators);
        self.placements.merge(other.placements);
        self.sizes.merge(other.sizes);
        self.lots.merge(other.lots);
        self.faults.merge(other.faults);
        self.calls.merge(other.calls);
        self.asked += other.asked;
        self.searched += other.searched;
        self.both.merge(other.both);
        self.clips.merge(other.clips);
        self.slices.merge(other.slices);
        self.clip_marks.merge(other.clip_marks);
        self.slice_marks.merge(other.slice_marks);
    }

    pub fn accepted(&self) -> usize {
        self.generators.sum(0)
    }

    /// What should have occurred and did not.
    pub fn missing(&self) -> Vec<String> {
        let sizes = self.sizes.lacking(&SIZES).map(|size| format!("n = {size}"));
        let lots = self.lots.lacking(&LOTS).map(|name| format!("{name} in an accepted drawing"));
        let faults = self.faults.lacking(&FAULTS).map(|name| format!("refusal {name} at one place"));
        let choices = self.clips.lacking(FILTERS.as_flattened()).chain(self.slices.lacking(&DIRECTIONS));
        let marks = self.clip_marks.lacking(&marks::CLIP).chain(self.slice_marks.lacking(&marks::SLICE));
        let both = self.both.lacking(&both::CALLS).map(|name| format!("measure_clip_both with {name}"));
        let names = choices.chain(marks).map(|name| name.to_string());
        self.calls.missing().into_iter().chain(sizes).chain(lots).chain(faults).chain(names).chain(both).collect()
    }

    pub fn print(&self) {
        self.generators.print("generator", ["accepted", "refused"]);
        self.placements.print("placement", ["drawings"]);
        self.sizes.print("segments", ["accepted"]);
        self.lots.print("accepted drawings with", ["drawings"]);
        self.faults.print("two faults at one place", ["drawings"]);
        self.calls.print();
        let (asked, searched) = (self.asked, self.searched);
        println!("{asked} accepted drawings cleared of wrong meetings, {searched} of them by the search over pairs\n");
        self.both.print("measure_clip_both with", ["calls"]);
        self.clips.print("clip runs by rule", ["0", "1", "2", "3"]);
        self.clip_marks.print("clip runs with", ["runs"]);
        self.slices.print("slice runs by rule", ["0", "1", "2", "3"]);
        self.slice_marks.print("slice runs with", ["runs"]);
    }
}

/// Whether nothing is missing that should have occurred. Says what is.
pub fn has_all(missing: &[String]) -> bool {
    if !missing.is_empty() {
        println!("TOO LITTLE: never occurred: {}", missing.join(", "));
    }
    missing.is_empty()
}
