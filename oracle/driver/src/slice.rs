//! overlay_slice beside the Rust and the walks written from prose.

use crate::areas::areas;
use crate::calls::{Call, Function};
use crate::case::{Case, Difference};
use crate::choices::{known, known_but, SliceChoices, SLICE_MOST};
use crate::contours::{contours, Contour};
use crate::lent::{long_enough, too_short};
use crate::marks;
use crate::output::{Output, Room, SLICE_EACH};
use crate::prose::Refusal;
use crate::random::Random;
use crate::slice_walk::Walk;
use crate::tally::Tally;
use crate::theirs::{agree, Theirs};
use jumperclay::raw;

/// Runs an accepted drawing in both directions, with the area 0 and another, by every rule where it is small; known
/// choices of a refused one; and for both each of the choices unknown.
pub fn compare(
    case: &Case,
    theirs: Option<&mut Theirs>,
    thorough: bool,
    random: &mut Random,
    tally: &mut Tally,
) -> Result<(), Difference> {
    match theirs {
        Some(theirs) => {
            let rules = case.rules(thorough, random);
            rules.into_iter().try_for_each(|rule| by_rule(case, rule, theirs, thorough, random, tally))?;
        }
        None => by_refused(case, known(SLICE_MOST, random), random, tally)?,
    }
    (0..SLICE_MOST.len()).try_for_each(|place| by_refused(case, known_but(place, SLICE_MOST, random), random, tally))
}

/// A run that the drawing or the choices do not allow.
fn by_refused(case: &Case, choices: [i32; 2], random: &mut Random, tally: &mut Tally) -> Result<(), Difference> {
    let areas = areas(&[], random);
    let choices = SliceChoices::new(choices, random.pick(&areas));
    Run { case, choices, contours: None }.by_ours(random, tally)
}

fn by_rule(
    case: &Case,
    rule: i32,
    theirs: &mut Theirs,
    thorough: bool,
    random: &mut Random,
    tally: &mut Tally,
) -> Result<(), Difference> {
    let walks = case.walks(rule);
    let loops: Vec<_> = walks.iter().flatten().flat_map(|walk| &walk.loops.all).collect();
    for direction in [0, 1] {
        let areas = areas(&loops, random);
        let tried = if thorough { areas.to_vec() } else { vec![areas[0], random.pick(&areas[1..])] };
        for min_area in tried {
            let choices = SliceChoices { rule, direction, min_area };
            accepted(case, choices, walks.as_deref(), theirs, random, tally)?;
        }
    }
    Ok(())
}

fn accepted(
    case: &Case,
    choices: SliceChoices,
    walks: Option<&[Walk]>,
    theirs: &mut Theirs,
    random: &mut Random,
    tally: &mut Tally,
) -> Result<(), Difference> {
    let contours = walks.map(|walks| contours(walks, choices));
    if let (Some(walks), Some(contours)) = (walks, &contours) {
        tally.add_slice(choices, marks::of_slice(walks, contours, choices.min_area));
    }
    let run = Run { case, choices, contours: contours.as_deref() };
    agree(&contours, || theirs.slice(choices)).map_err(|answers| run.difference(answers))?;
    run.by_ours(random, tally)
}

/// A run with the contours that are due where it is accepted; none where a walk finds no move.
struct Run<'a> {
    case: &'a Case<'a>,
    choices: SliceChoices,
    contours: Option<&'a [Contour]>,
}

impl Run<'_> {
    fn needed(&self) -> Room {
        SLICE_EACH.map(|each| each * self.case.n())
    }

    /// Lends lists too short and lists long enough.
    fn by_ours(&self, random: &mut Random, tally: &mut Tally) -> Result<(), Difference> {
        let needed = self.needed();
        if let Some(short) = too_short(needed, random) {
            self.on_lists(short, random, tally)?;
        }
        self.on_lists(long_enough(needed, random), random, tally)
    }

    fn on_lists(&self, lent: Room, random: &mut Random, tally: &mut Tally) -> Result<(), Difference> {
        let refusals = self.case.slice_refusals(self.choices, lent);
        let due = match (refusals.first(), self.contours) {
            (Some(&refusal), _) => Output::refused(refusal),
            (None, None) => Output::refused(Refusal { number: 12, place: 0 }),
            (None, Some(contours)) => Output::of_contours(contours),
        };
        let needed = self.needed();
        tally.add_call(&Call { function: Function::Slice, due: due.counts.number, refusals: &refusals, lent, needed });
        let SliceChoices { rule, direction, min_area } = self.choices;
        let output = Output::of_noise(&due, lent, random, |points, lengths, roles| {
            raw::slice(self.case.numbers, rule, direction, min_area, points, lengths, roles)
        });
        output.map(drop).map_err(|answers| self.difference(answers))
    }

    fn difference(&self, answers: [String; 2]) -> Difference {
        let SliceChoices { rule, direction, min_area } = self.choices;
        let choices = [rule.to_string(), direction.to_string(), min_area.to_string()];
        self.case.difference("overlay_slice", &choices, answers)
    }
}
