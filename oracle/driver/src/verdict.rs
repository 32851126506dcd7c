//! The check by itself beside the prose, and whether the sweep cleared an accepted drawing of wrong meetings.

use crate::case::{Case, Difference};
use crate::choices::Choices;
use crate::measure::{self, Verdict, BY_SEARCH, BY_SWEEP};
use crate::tally::Tally;
use std::fmt::Debug;

/// Every drawing has the verdict of the prose. An accepted one has it by the sweep, as is proved: here of the compiled code.
pub fn compare(case: &Case, tally: &mut Tally) -> Result<(), Difference> {
    same(case, "measure_check", Verdict::from(case.checked.refused), measure::check(case.numbers))?;
    if !case.is_accepted() {
        return Ok(());
    }
    let cleared = measure::sweep(case.numbers);
    tally.add_cleared(cleared == BY_SEARCH);
    same(case, "measure_sweep: 1 by the sweep alone, 0 by the search over pairs, 2 refused", BY_SWEEP, cleared)
}

fn same<T: PartialEq + Debug>(case: &Case, run: &'static str, due: T, got: T) -> Result<(), Difference> {
    if got == due {
        return Ok(());
    }
    let choices = Choices { rule: 0, invert: 0, boundary: 0 };
    Err(case.difference(run, &choices.list(), [format!("{due:?}"), format!("{got:?}")]))
}
