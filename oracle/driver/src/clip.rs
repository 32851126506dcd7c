//! overlay_clip beside the Rust, the walk written from prose, and the claim on both sides together.

use crate::calls::{Call, Function};
use crate::case::{Case, Difference};
use crate::choices::{Choices, MOST};
use crate::drawing::Point;
use crate::lent::{long_enough, too_short};
use crate::output::{Output, Room, CLIP_EACH};
use crate::random::Random;
use crate::tally::Tally;
use crate::theirs::{agree, Theirs};
use crate::{claim, marks};
use jumperclay::raw::{self, Clipped};

/// Runs all four filters of an accepted drawing, by every rule where it is small; known choices of a refused one; and
/// for both each of the choices unknown.
pub fn compare(
    case: &Case,
    theirs: Option<&mut Theirs>,
    thorough: bool,
    random: &mut Random,
    tally: &mut Tally,
) -> Result<(), Difference> {
    match theirs {
        Some(theirs) => {
            let rules = case.rules(thorough, random);
            rules.into_iter().try_for_each(|rule| by_rule(case, rule, theirs, random, tally))?;
        }
        None => by_refused(case, Choices::known(random), random, tally)?,
    }
    (0..MOST.len()).try_for_each(|place| by_refused(case, Choices::unknown(place, random), random, tally))
}

/// A run that the drawing or the choices do not allow.
fn by_refused(case: &Case, choices: Choices, random: &mut Random, tally: &mut Tally) -> Result<(), Difference> {
    Run { case, choices, paths: &[] }.by_ours(random, tally).map(drop)
}

/// Inside and outside, each by itself and then together.
fn by_rule(
    case: &Case,
    rule: i32,
    theirs: &mut Theirs,
    random: &mut Random,
    tally: &mut Tally,
) -> Result<(), Difference> {
    for boundary in [0, 1] {
        let mut output = |invert| accepted(case, Choices { rule, invert, boundary }, theirs, random, tally);
        let (inside, outside) = (output(0)?, output(1)?);
        claim::check(&case.segments, case.fills(rule), boundary, [&inside, &outside]).map_err(|answers| {
            let choices = Choices { rule, invert: 0, boundary };
            case.difference("overlay_clip inside and outside together", &choices.list(), answers)
        })?;
    }
    Ok(())
}

fn accepted(
    case: &Case,
    choices: Choices,
    theirs: &mut Theirs,
    random: &mut Random,
    tally: &mut Tally,
) -> Result<Output<Clipped>, Difference> {
    let mut graph = case.graph(choices);
    let walked = graph.walk();
    tally.add_clip(choices, marks::of_clip(&graph, &walked));
    let paths: Vec<_> = walked.into_iter().map(|path| path.points).collect();
    let run = Run { case, choices, paths: &paths };
    agree(run.paths, || theirs.clip(choices)).map_err(|answers| run.difference(answers))?;
    run.by_ours(random, tally)
}

/// A run with the paths that are due where it is accepted.
struct Run<'a> {
    case: &'a Case<'a>,
    choices: Choices,
    paths: &'a [Vec<Point>],
}

impl Run<'_> {
    fn needed(&self) -> Room {
        CLIP_EACH.map(|each| each * self.case.n())
    }

    /// Lends lists too short and lists long enough, and returns what was made of the latter.
    fn by_ours(&self, random: &mut Random, tally: &mut Tally) -> Result<Output<Clipped>, Difference> {
        let needed = self.needed();
        if let Some(short) = too_short(needed, random) {
            self.on_lists(short, random, tally)?;
        }
        self.on_lists(long_enough(needed, random), random, tally)
    }

    fn on_lists(&self, lent: Room, random: &mut Random, tally: &mut Tally) -> Result<Output<Clipped>, Difference> {
        let refusals = self.case.clip_refusals(self.choices, lent);
        let due: Output<Clipped> = match refusals.first() {
            Some(&refusal) => Output::refused(refusal),
            None => Output::of_paths(self.paths),
        };
        let needed = self.needed();
        tally.add_call(&Call { function: Function::Clip, due: due.counts.number, refusals: &refusals, lent, needed });
        let [rule, invert, boundary] = self.choices.list();
        Output::of_noise(&due, lent, random, |points, lengths, _| {
            raw::clip(self.case.numbers, rule, invert, boundary, points, lengths)
        })
        .map_err(|answers| self.difference(answers))
    }

    fn difference(&self, answers: [String; 2]) -> Difference {
        self.case.difference("overlay_clip", &self.choices.list(), answers)
    }
}
