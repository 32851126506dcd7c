//! One drawing through the exported functions, beside the Rust and what is written from prose.

use crate::case::{Case, Difference};
use crate::prose::Refusal;
use crate::random::Random;
use crate::tally::Tally;
use crate::theirs::Theirs;
use crate::{both, clip, fills, slice, verdict};

/// Returns the refusal by known choices and lists long enough, if any. A thorough comparison has every rule and minimum
/// area, also of a large drawing.
pub fn compare(
    numbers: &[i32],
    thorough: bool,
    random: &mut Random,
    tally: &mut Tally,
) -> Result<Option<Refusal>, Difference> {
    let case = Case::new(numbers);
    verdict::compare(&case, tally)?;
    // The Rust refuses nothing: it is given accepted drawings only.
    let mut theirs = case.is_accepted().then(|| Theirs::new(numbers));
    fills::compare(&case, theirs.as_mut(), random, tally)?;
    clip::compare(&case, theirs.as_mut(), thorough, random, tally)?;
    slice::compare(&case, theirs.as_mut(), thorough, random, tally)?;
    both::compare(&case, random, tally)?;
    Ok(case.checked.refused)
}
