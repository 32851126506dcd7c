//! A sheet made ready for a library, ours and the Rust's.

use driver::{Counts, Point, Sheet, CLIP_EACH, MOST_SEGMENTS, NON_ZERO};
use i_overlay::{Drawing, Scan};
use jumperclay::raw::{self, Clipped};

pub trait Run {
    /// What is timed: the lines inside or outside. The answer is kept, and the one before dropped.
    fn clip(&mut self, outside: bool);

    /// Of the answer.
    fn totals(&self) -> Totals;
}

/// How many paths there are, and the sum of |dx| + |dy| over their steps.
#[repr(C)]
#[derive(Debug, Clone, Copy)]
pub struct Totals {
    paths: u64,
    travel: f64,
}

impl Totals {
    /// GEOS has no whole numbers.
    pub fn agrees(self, other: Self) -> bool {
        self.paths == other.paths && (self.travel - other.travel).abs() < 1e-6
    }
}

impl From<Clipped> for Totals {
    fn from(Clipped { paths, travel, .. }: Clipped) -> Self {
        Self { paths, travel: travel as f64 }
    }
}

pub struct Ours {
    numbers: Vec<i32>,
    points: Vec<i32>,
    lengths: Vec<u32>,
    answer: Option<Clipped>,
}

impl Ours {
    pub fn new(sheet: &Sheet) -> Self {
        let [points, lengths, _] = CLIP_EACH.map(|each| each * MOST_SEGMENTS);
        Self { numbers: sheet.numbers.clone(), points: vec![0; points], lengths: vec![0; lengths], answer: None }
    }
}

impl Run for Ours {
    fn clip(&mut self, outside: bool) {
        let Self { numbers, points, lengths, .. } = self;
        self.answer = Some(raw::clip(numbers, NON_ZERO, outside.into(), 1, points, lengths));
    }

    fn totals(&self) -> Totals {
        self.answer.expect("it was clipped").into()
    }
}

/// The Rust with the collection that it chooses itself.
pub struct Theirs {
    drawing: Drawing,
    paths: Vec<Vec<Point>>,
}

impl Theirs {
    pub fn new(sheet: &Sheet) -> Self {
        Self { drawing: Drawing::new(&sheet.numbers, Scan::List), paths: Vec::new() }
    }
}

impl Run for Theirs {
    fn clip(&mut self, outside: bool) {
        self.paths = self.drawing.clip(NON_ZERO, outside, true);
    }

    fn totals(&self) -> Totals {
        Clipped::of_paths(&self.paths).into()
    }
}
