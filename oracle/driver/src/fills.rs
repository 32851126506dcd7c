//! overlay_fills beside the Rust and the ray.

use crate::calls::{Call, Function};
use crate::case::{Case, Difference};
use crate::choices::{unknown, Choices, MOST, RULES};
use crate::lent::Lent;
use crate::prose::Refusal;
use crate::random::Random;
use crate::tally::Tally;
use crate::theirs::{agree, Theirs};
use jumperclay::raw;

/// Runs every rule, known or not, with every kind of list.
pub fn compare(
    case: &Case,
    mut theirs: Option<&mut Theirs>,
    random: &mut Random,
    tally: &mut Tally,
) -> Result<(), Difference> {
    for rule in RULES {
        let run = Run { case, rule, fills: case.fills(rule) };
        if let Some(theirs) = &mut theirs {
            agree(run.fills, || theirs.fills(rule)).map_err(|answers| run.difference(answers))?;
        }
        run.by_ours(random, tally)?;
    }
    let mut unknown = unknown(MOST[0]).into_iter();
    unknown.try_for_each(|rule| Run { case, rule, fills: &[] }.by_ours(random, tally))
}

/// A run with the fills that are due where it is accepted.
struct Run<'a> {
    case: &'a Case<'a>,
    rule: i32,
    fills: &'a [u8],
}

impl Run<'_> {
    /// Lends a list exactly long enough, a longer one and one too short by one.
    fn by_ours(&self, random: &mut Random, tally: &mut Tally) -> Result<(), Difference> {
        let n = self.case.n();
        let longer = n + 1 + random.below(20);
        let mut lengths = [Some(n), Some(longer), n.checked_sub(1)].into_iter().flatten();
        lengths.try_for_each(|length| self.on_list(length, random, tally))
    }

    /// One call on a list of noise: every returned number and every entry, written or not, must be as due.
    fn on_list(&self, length: usize, random: &mut Random, tally: &mut Tally) -> Result<(), Difference> {
        let refusals = self.case.checked.refusals(&[(self.rule, MOST[0])], &[(length, 1)]);
        let (due, fills) = match refusals.first() {
            Some(&Refusal { number, place }) => (raw::Filled { number, place, count: 0 }, &[][..]),
            None => (raw::Filled { number: 0, place: 0, count: self.fills.len() as u64 }, self.fills),
        };
        let (lent, needed) = ([length, 0, 0], [self.case.n(), 0, 0]);
        tally.add_call(&Call { function: Function::Fills, due: due.number, refusals: &refusals, lent, needed });
        let mut lent = Lent::new(length, random, |noise| noise as u8);
        let returned = raw::fills(self.case.numbers, self.rule, lent.list());
        if returned == due && lent.holds(fills) {
            return Ok(());
        }
        let [expected, got] = lent.show(fills);
        Err(self.difference([format!("{due:?}, {expected}"), format!("{returned:?}, {got}")]))
    }

    fn difference(&self, answers: [String; 2]) -> Difference {
        let choices = Choices { rule: self.rule, invert: 0, boundary: 1 };
        self.case.difference("overlay_fills", &choices.list(), answers)
    }
}
