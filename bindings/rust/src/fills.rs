use crate::{raw, room, Refusal, Rule};

/// The fill of each segment: 1 if its top is filled, plus 2 if its bottom is, plus 4 times its line bits.
/// The bottom is right of a to b, the top left.
pub fn fills(segments: &[i32], rule: Rule) -> Result<Vec<u8>, Refusal> {
    let mut fills = vec![0; room(segments)];
    fills_into(segments, rule, &mut fills)?;
    Ok(fills)
}

/// As [`fills`], into a lent list; returns how many there are. Entries past them keep their values,
/// and after a refusal all do.
///
/// ```
/// use jumperclay::{fills_into, Rule};
///
/// // One line and no dough.
/// let mut list = [99; 3];
/// assert_eq!(fills_into(&[0, 0, 1, 0, 0, 1, 0], Rule::NonZero, &mut list)?, 1);
/// assert_eq!(list, [4, 99, 99]);
/// # Ok::<(), jumperclay::Refusal>(())
/// ```
pub fn fills_into(segments: &[i32], rule: Rule, fills: &mut [u8]) -> Result<usize, Refusal> {
    let filled = raw::fills(segments, rule as i32, fills);
    Refusal::of_drawing(filled.number, filled.place)?;
    Ok(filled.count as usize)
}
