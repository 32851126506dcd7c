use crate::points::{paths, Point};
use crate::{raw, room, Choices, Refusal, Rule};

/// Which lines are kept: those inside, or with `invert` those outside. A line with dough on one side only
/// runs along the boundary; it is inside where `boundary_included`, and outside otherwise.
#[derive(Debug, Clone, Copy, PartialEq, Eq, Hash)]
pub struct ClipRule {
    /// The lines outside instead of those inside.
    pub invert: bool,
    /// Lines along the boundary count as inside.
    pub boundary_included: bool,
}

/// The counts of a clip. A step is two neighbouring points of one path.
#[derive(Debug, Clone, Copy, PartialEq, Eq, Hash)]
pub struct Totals {
    /// How many paths there are.
    pub paths: usize,
    /// How many points all paths have together.
    pub points: usize,
    /// How many steps all paths have together.
    pub steps: usize,
    /// The sum of |dx| + |dy| over the steps.
    pub travel: u64,
}

/// The lines kept.
#[derive(Debug, Clone, PartialEq, Eq, Hash)]
pub struct Clip {
    /// The points of each path, in the order of its steps.
    pub paths: Vec<Vec<Point>>,
    /// The counts of the paths.
    pub totals: Totals,
}

/// The lines kept, joined into paths. Each line drawn is one step, the way it was drawn.
pub fn clip(segments: &[i32], rule: Rule, clip_rule: ClipRule) -> Result<Clip, Refusal> {
    clip_by(segments, Choices::new(rule, clip_rule))
}

/// As [`clip`], by any numbers for the choices.
pub(crate) fn clip_by(segments: &[i32], choices: Choices) -> Result<Clip, Refusal> {
    let n = room(segments);
    let mut points = vec![0; 8 * n];
    let mut lengths = vec![0; 2 * n];
    let totals = clip_by_into(segments, choices, &mut points, &mut lengths)?;
    Ok(Clip { paths: paths(&points, &lengths[..totals.paths]), totals })
}

/// As [`clip`], into lent lists: x and y of each point, path by path, and how many points each path has.
/// The lists need 8 numbers and 2 lengths for each segment. Entries past the answer keep their values, and
/// after a refusal all do.
///
/// ```
/// use jumperclay::{clip_into, ClipRule, Rule};
///
/// // One line and no dough, drawn from b to a.
/// let (mut points, mut lengths) = ([99; 8], [99; 2]);
/// let outside = ClipRule { invert: true, boundary_included: true };
/// let totals = clip_into(&[0, 0, 1, 0, 0, 2, 0], Rule::NonZero, outside, &mut points, &mut lengths)?;
/// assert_eq!((totals.paths, totals.points, totals.steps, totals.travel), (1, 2, 1, 1));
/// assert_eq!(points, [1, 0, 0, 0, 99, 99, 99, 99]);
/// assert_eq!(lengths, [2, 99]);
/// # Ok::<(), jumperclay::Refusal>(())
/// ```
pub fn clip_into(
    segments: &[i32],
    rule: Rule,
    clip_rule: ClipRule,
    points: &mut [i32],
    lengths: &mut [u32],
) -> Result<Totals, Refusal> {
    clip_by_into(segments, Choices::new(rule, clip_rule), points, lengths)
}

fn clip_by_into(
    segments: &[i32],
    Choices { rule, invert, boundary }: Choices,
    points: &mut [i32],
    lengths: &mut [u32],
) -> Result<Totals, Refusal> {
    let clipped = raw::clip(segments, rule, invert, boundary, points, lengths);
    Refusal::of_drawing(clipped.number, clipped.place)?;
    Ok(Totals {
        paths: clipped.paths as usize,
        points: clipped.points as usize,
        steps: clipped.steps as usize,
        travel: clipped.travel,
    })
}
