//! A drawing on its way through the comparison, and two answers to it that should be one.

use crate::choices::{Choices, SliceChoices, RULES, SLICE_MOST};
use crate::drawing::{commas, lines, read, Segment, WIDTH};
use crate::output::{Room, CLIP_EACH, SLICE_EACH};
use crate::prose::{Checked, Refusal};
use crate::random::Random;
use crate::ray::Ray;
use crate::slice_walk::{walks, Walk};
use crate::walk::Graph;

/// An accepted drawing of at most so many segments is clipped and sliced by every rule, a larger one by one of them.
const SMALL: usize = 8;

/// A drawing with what the prose check and the ray say of it.
pub struct Case<'a> {
    pub numbers: &'a [i32],
    pub checked: Checked,
    pub segments: Vec<Segment>,
    /// By each rule, where the drawing is accepted.
    fills: Option<[Vec<u8>; RULES.len()]>,
}

impl<'a> Case<'a> {
    pub fn new(numbers: &'a [i32]) -> Self {
        let checked = Checked::new(numbers);
        let ray = checked.refused.is_none().then(|| Ray::new(numbers));
        let fills = ray.map(|ray| RULES.map(|rule| ray.fills(rule)));
        Self { numbers, checked, segments: read(numbers), fills }
    }

    /// How many whole segments the numbers have, also where the drawing is refused.
    pub fn n(&self) -> usize {
        self.numbers.len() / WIDTH
    }

    pub fn is_accepted(&self) -> bool {
        self.fills.is_some()
    }

    /// The rules to run it by.
    pub fn rules(&self, thorough: bool, random: &mut Random) -> Vec<i32> {
        if thorough || self.n() <= SMALL {
            RULES.to_vec()
        } else {
            vec![random.pick(&RULES)]
        }
    }

    /// By a known rule; none where the drawing is refused.
    pub fn fills(&self, rule: i32) -> &[u8] {
        self.fills.as_ref().map_or(&[], |fills| &fills[rule as usize])
    }

    /// The refusals of a clip run that lends lists of these lengths: the first is due.
    pub fn clip_refusals(&self, choices: Choices, lent: Room) -> Vec<Refusal> {
        self.checked.refusals(&choices.with_most(), &zip(lent, CLIP_EACH))
    }

    /// The refusals but 12 of a slice run that lends lists of these lengths: the first is due.
    pub fn slice_refusals(&self, choices: SliceChoices, lent: Room) -> Vec<Refusal> {
        self.checked.refusals(&zip(choices.list(), SLICE_MOST), &zip(lent, SLICE_EACH))
    }

    /// The links of a clip run of an accepted drawing.
    pub fn graph(&self, choices: Choices) -> Graph {
        Graph::new(&self.segments, self.fills(choices.rule), choices)
    }

    /// The walks of a slice run of an accepted drawing; none where one finds no move.
    pub fn walks(&self, rule: i32) -> Option<Vec<Walk>> {
        walks(&self.segments, self.fills(rule))
    }

    /// A difference between what is expected and what came of a run with these choices.
    pub fn difference<T: ToString>(
        &self,
        run: &'static str,
        choices: &[T],
        [expected, got]: [String; 2],
    ) -> Difference {
        Difference { numbers: self.numbers.to_vec(), width: WIDTH, run, choices: commas(choices), expected, got }
    }
}

fn zip<A: Copy, B: Copy, const N: usize>(list: [A; N], other: [B; N]) -> [(A, B); N] {
    std::array::from_fn(|place| (list[place], other[place]))
}

/// Two answers that should be one.
pub struct Difference {
    pub numbers: Vec<i32>,
    /// How many of the numbers belong together.
    pub width: usize,
    pub run: &'static str,
    pub choices: String,
    pub expected: String,
    pub got: String,
}

impl Difference {
    pub fn report(&self) -> String {
        let text = lines(&self.choices, &self.numbers, self.width);
        format!("{}\n{text}expected {}\ngot      {}", self.run, self.expected, self.got)
    }
}
