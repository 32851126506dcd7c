use crate::clip::clip_by;
use crate::{raw, Clip, ClipRule, Reason, Refusal, Rule};

/// No text has more bytes than this.
pub const MOST_BYTES: usize = 65_536;

/// The first line of a text, as it stands there: a number that is no choice is found by the run.
#[derive(Debug, Clone, Copy, PartialEq, Eq, Hash)]
pub struct Choices {
    /// 0 even-odd, 1 nonzero, 2 positive, 3 negative.
    pub rule: i32,
    /// 0 for the lines inside, 1 for those outside.
    pub invert: i32,
    /// 1 if a line along the boundary is inside, 0 if it is outside.
    pub boundary: i32,
}

impl Choices {
    /// The numbers of these choices.
    pub fn new(rule: Rule, ClipRule { invert, boundary_included }: ClipRule) -> Self {
        Self { rule: rule as i32, invert: invert.into(), boundary: boundary_included.into() }
    }

    /// The choices by name, or refusal 10 where one is unknown.
    ///
    /// ```
    /// use jumperclay::{Choices, ClipRule, Rule};
    ///
    /// let inside = ClipRule { invert: false, boundary_included: true };
    /// assert_eq!(Choices { rule: 1, invert: 0, boundary: 1 }.named(), Ok((Rule::NonZero, inside)));
    /// assert!(Choices { rule: 1, invert: 2, boundary: 1 }.named().is_err());
    /// ```
    pub fn named(self) -> Result<(Rule, ClipRule), Refusal> {
        let refusal = Refusal { reason: Reason::Choice, place: 0 };
        let rules = [Rule::EvenOdd, Rule::NonZero, Rule::Positive, Rule::Negative];
        let rule = rules.into_iter().find(|&rule| rule as i32 == self.rule).ok_or(refusal)?;
        let flag = |choice| [false, true].into_iter().find(|&flag| i32::from(flag) == choice).ok_or(refusal);
        Ok((rule, ClipRule { invert: flag(self.invert)?, boundary_included: flag(self.boundary)? }))
    }
}

/// What a text holds. Whether its drawing is accepted is for the runs to say.
#[derive(Debug, Clone, PartialEq, Eq, Hash)]
pub struct Text {
    /// The first line.
    pub choices: Choices,
    /// The numbers of the other lines, [`WIDTH`](crate::WIDTH) each.
    pub segments: Vec<i32>,
}

impl Text {
    /// The run that the text asks for, answered or refused as by the program `clip`.
    ///
    /// ```
    /// use jumperclay::read;
    ///
    /// // The rule is unknown, and the drawing is too long: the length is looked at first.
    /// let text = "9,0,1\n".to_string() + &"0,0,1,0,0,1,0\n".repeat(1025);
    /// assert_eq!(read(text.as_bytes())?.clip().unwrap_err().number(), 2);
    /// # Ok::<(), jumperclay::Refusal>(())
    /// ```
    pub fn clip(&self) -> Result<Clip, Refusal> {
        clip_by(&self.segments, self.choices)
    }
}

/// Reads a comma text: lines that end in LF, first `rule,invert,boundary`, then seven numbers for each segment.
///
/// ```
/// use jumperclay::read;
///
/// let text = read(b"1,1,1\n0,0,1,0,0,2,12\n")?;
/// assert_eq!(text.choices.invert, 1);
/// assert_eq!(text.segments, [0, 0, 1, 0, 0, 2, 12]);
/// assert_eq!(text.clip()?.paths, [[(1, 0), (0, 0)]]);
///
/// assert_eq!(read(b"1,1,1\n0,0,1,0,0,2\n").unwrap_err().to_string(), "line 2: it is malformed");
/// # Ok::<(), jumperclay::Refusal>(())
/// ```
pub fn read(text: &[u8]) -> Result<Text, Refusal> {
    // A number takes two bytes or more.
    let mut segments = vec![0; text.len().min(MOST_BYTES) / 2];
    let (choices, count) = read_into(text, &mut segments)?;
    segments.truncate(count);
    Ok(Text { choices, segments })
}

/// As [`read`], into a lent list, which must hold all numbers of the text; returns how many these are. Half as many
/// entries as the text has bytes are always enough. Entries past the numbers keep their values, and after a refusal all
/// do.
///
/// ```
/// use jumperclay::{read_into, Reason};
///
/// let text = b"1,0,1\n0,0,1,0,0,1,0\n";
/// let mut list = [99; 9];
/// assert_eq!(read_into(text, &mut list)?.1, 7);
/// assert_eq!(list, [0, 0, 1, 0, 0, 1, 0, 99, 99]);
///
/// let mut list = [99; 6];
/// assert_eq!(read_into(text, &mut list).unwrap_err().reason, Reason::ShortList);
/// assert_eq!(list, [99; 6]);
/// # Ok::<(), jumperclay::Refusal>(())
/// ```
pub fn read_into(text: &[u8], segments: &mut [i32]) -> Result<(Choices, usize), Refusal> {
    let raw::Read { number, place, count, rule, invert, boundary } = raw::read(text, segments);
    Refusal::of_text(number, place)?;
    Ok((Choices { rule, invert, boundary }, count as usize))
}
