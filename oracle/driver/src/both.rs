//! measure_clip_both beside two calls of overlay_clip: both runs by one check are what each is by itself.

use crate::case::{Case, Difference};
use crate::choices::Choices;
use crate::lent::{long_enough, too_short, Lent};
use crate::measure;
use crate::output::{Room, CLIP_EACH};
use crate::random::Random;
use crate::tally::Tally;
use jumperclay::raw::{self, Clipped};

/// The calls that must occur, by what the two runs answer.
pub const CALLS: [&str; 8] = [
    "lists exactly long enough",
    "longer lists",
    "a list too short of the inside run alone",
    "a list too short of the outside run alone",
    "lists too short of both runs",
    "a refused drawing",
    "a refused drawing and a list too short",
    "an unknown choice",
];

/// The places of rule and boundary among the choices: both runs have them.
const RULE_AND_BOUNDARY: [usize; 2] = [0, 2];

/// Lends lists of every kind by known choices; then the rule or the boundary is unknown.
pub fn compare(case: &Case, random: &mut Random, tally: &mut Tally) -> Result<(), Difference> {
    let needed = CLIP_EACH.map(|each| each * case.n());
    let choices = Choices::known(random);
    by_lists(case, choices, [needed; 2], random, tally)?;
    let long = [(); 2].map(|()| long_enough(needed, random));
    by_lists(case, choices, long, random, tally)?;
    if let (Some(one), Some(other)) = (too_short(needed, random), too_short(needed, random)) {
        let short = [[one, long[1]], [long[0], one], [one, other]];
        short.into_iter().try_for_each(|lent| by_lists(case, choices, lent, random, tally))?;
    }
    let mut unknown = RULE_AND_BOUNDARY.into_iter();
    unknown.try_for_each(|place| by_lists(case, Choices::unknown(place, random), long, random, tally))
}

/// The lists of one run.
#[derive(Clone, PartialEq)]
struct Lists {
    points: Lent<i32>,
    lengths: Lent<u32>,
}

/// What two runs answer, and what they leave in their lists.
#[derive(PartialEq)]
struct Runs {
    counts: [Clipped; 2],
    lists: [Lists; 2],
}

/// Both runs on lists of noise, and each by itself on lists of the same noise: every returned number and every entry,
/// written or not, must be the same.
fn by_lists(
    case: &Case,
    choices: Choices,
    lent: [Room; 2],
    random: &mut Random,
    tally: &mut Tally,
) -> Result<(), Difference> {
    let noise = lent.map(|[points, lengths, _]| Lists {
        points: Lent::new(points, random, |noise| noise as i32),
        lengths: Lent::new(lengths, random, |noise| noise as u32),
    });
    let due = one_by_one(case.numbers, choices, noise.clone());
    let got = together(case.numbers, choices, noise);
    let needed = CLIP_EACH.map(|each| each * case.n());
    tally.add_both(called(due.counts.map(|counts| counts.number), lent == [needed; 2]));
    if due == got {
        return Ok(());
    }
    Err(case.difference("measure_clip_both", &choices.list(), [due.show(), got.show()]))
}

fn one_by_one(numbers: &[i32], Choices { rule, boundary, .. }: Choices, mut lists: [Lists; 2]) -> Runs {
    let mut run = |invert: usize| {
        let Lists { points, lengths } = &mut lists[invert];
        raw::clip(numbers, rule, invert as i32, boundary, points.list(), lengths.list())
    };
    Runs { counts: [run(0), run(1)], lists }
}

fn together(numbers: &[i32], Choices { rule, boundary, .. }: Choices, mut lists: [Lists; 2]) -> Runs {
    let lent = lists.each_mut().map(|Lists { points, lengths }| (points.list(), lengths.list()));
    let counts = measure::clip_both(numbers, rule, boundary, lent);
    Runs { counts, lists }
}

/// Which of the calls it is, by the numbers that are due.
fn called(numbers: [u64; 2], is_exact: bool) -> &'static str {
    let kind = match numbers {
        [0, 0] if is_exact => 0,
        [0, 0] => 1,
        [11, 0] => 2,
        [0, 11] => 3,
        [11, 11] => 4,
        [10, _] => 7,
        [11, _] | [_, 11] => 6,
        _ => 5,
    };
    CALLS[kind]
}

impl Runs {
    fn show(&self) -> String {
        let lists = self.lists.each_ref().map(|Lists { points, lengths }| [points.changed(), lengths.changed()]);
        format!("{:?}, {lists:?}", self.counts)
    }
}
