use std::error::Error;
use std::fmt;

/// What is wrong with a drawing, a list of points or a text, or with the run asked of it.
#[derive(Debug, Clone, Copy, PartialEq, Eq, Hash)]
#[non_exhaustive]
pub enum Reason {
    /// 1, of a text: a line is malformed.
    Line,
    /// 1, of a text: it has over 65,536 bytes.
    TextLength,
    /// 2: the length is no multiple of seven, or there are over 1,024 segments.
    Length,
    /// 3: a coordinate is not from -16,777,216 to 16,777,216.
    Coordinate,
    /// 4: a is not less than b.
    Ends,
    /// 5: the winding is not from -1,000 to 1,000.
    Winding,
    /// 6: the line bits are not from 0 to 3.
    LineBits,
    /// 13, looked for directly after 6: the lot is not from 0 to 9,999.
    Lot,
    /// 7: a is less than the previous segment's a.
    Order,
    /// 8: two segments meet wrongly.
    Meeting,
    /// 9: at some point the windings that start and those that end have different sums.
    Balance,
    /// 14, of a text on its way to the old form, looked for directly after 9: a lot is not 0, and would be lost.
    LotLost,
    /// 10: an unknown choice.
    Choice,
    /// 11: a lent list is too short.
    ShortList,
    /// 12: a slice walk finds no move.
    NoMove,
    /// 2, of a list of points: the length is odd, or there are over 2,048 points.
    PointsLength,
    /// 3, of a list of points: a coordinate is not from -16,777,216 to 16,777,216.
    PointCoordinate,
}

impl Reason {
    const OF_DRAWINGS: [Self; 13] = [
        Self::Length,
        Self::Coordinate,
        Self::Ends,
        Self::Winding,
        Self::LineBits,
        Self::Lot,
        Self::Order,
        Self::Meeting,
        Self::Balance,
        Self::LotLost,
        Self::Choice,
        Self::ShortList,
        Self::NoMove,
    ];
    const OF_POINTS: [Self; 3] = [Self::PointsLength, Self::PointCoordinate, Self::ShortList];

    /// The refusal's number.
    pub fn number(self) -> u64 {
        match self {
            Self::Line | Self::TextLength => 1,
            Self::Length | Self::PointsLength => 2,
            Self::Coordinate | Self::PointCoordinate => 3,
            Self::Ends => 4,
            Self::Winding => 5,
            Self::LineBits => 6,
            Self::Order => 7,
            Self::Meeting => 8,
            Self::Balance => 9,
            Self::Choice => 10,
            Self::ShortList => 11,
            Self::NoMove => 12,
            Self::Lot => 13,
            Self::LotLost => 14,
        }
    }

    fn words(self) -> &'static str {
        match self {
            Self::Line => "it is malformed",
            Self::TextLength => "the text has over 65,536 bytes",
            Self::Length => "the length is no multiple of seven, or there are over 1,024 segments",
            Self::PointsLength => "the length is odd, or there are over 2,048 points",
            Self::Coordinate | Self::PointCoordinate => "a coordinate is out of range",
            Self::Ends => "a is not less than b",
            Self::Winding => "the winding is out of range",
            Self::LineBits => "the line bits are out of range",
            Self::Lot => "the lot is out of range",
            Self::Order => "a is less than the previous segment's a",
            Self::Meeting => "it and a later segment meet wrongly",
            Self::Balance => "the drawing does not balance at one of its ends",
            Self::LotLost => "the lot is not 0, and the old form has no lots",
            Self::Choice => "a choice is unknown",
            Self::ShortList => "a lent list is too short",
            Self::NoMove => "a walk around a piece finds no way on",
        }
    }

    /// What the place counts, where one is meant.
    fn place_of(self) -> Option<&'static str> {
        match self {
            Self::TextLength | Self::Length | Self::PointsLength | Self::Choice | Self::ShortList | Self::NoMove => {
                None
            }
            Self::Line => Some("line"),
            Self::PointCoordinate => Some("point"),
            _ => Some("segment"),
        }
    }
}

/// A drawing, a list of points or a text turned down: why, and at which segment or point, counted from 0, or at which
/// line, counted from 1. The place is 0 where none is meant.
///
/// It is told as a sentence:
///
/// ```
/// use jumperclay::{Reason, Refusal};
///
/// let refusal = Refusal { reason: Reason::Winding, place: 7 };
/// assert_eq!(refusal.number(), 5);
/// assert_eq!(refusal.to_string(), "segment 7: the winding is out of range");
/// ```
#[derive(Debug, Clone, Copy, PartialEq, Eq, Hash)]
pub struct Refusal {
    /// What is wrong.
    pub reason: Reason,
    /// Where.
    pub place: usize,
}

impl Refusal {
    /// The refusal's number.
    pub fn number(self) -> u64 {
        self.reason.number()
    }

    /// The refusal of a drawing by this number and place; 0 is success.
    pub(crate) fn of_drawing(number: u64, place: u64) -> Result<(), Self> {
        Self::check(Reason::OF_DRAWINGS, number, place)
    }

    /// As of a drawing, of a text. Of the malformed ones only one that is too long is refused without a line.
    pub(crate) fn of_text(number: u64, place: u64) -> Result<(), Self> {
        let malformed = if place == 0 { Reason::TextLength } else { Reason::Line };
        Self::check([malformed].into_iter().chain(Reason::OF_DRAWINGS), number, place)
    }

    /// As of a drawing, of a list of points.
    pub(crate) fn of_points(number: u64, place: u64) -> Result<(), Self> {
        Self::check(Reason::OF_POINTS, number, place)
    }

    fn check(reasons: impl IntoIterator<Item = Reason>, number: u64, place: u64) -> Result<(), Self> {
        if number == 0 {
            return Ok(());
        }
        let reason = reasons.into_iter().find(|reason| reason.number() == number);
        let reason = reason.expect("the library returns no other number");
        Err(Self { reason, place: place as usize })
    }
}

impl fmt::Display for Refusal {
    fn fmt(&self, f: &mut fmt::Formatter<'_>) -> fmt::Result {
        if let Some(counted) = self.reason.place_of() {
            write!(f, "{counted} {}: ", self.place)?;
        }
        f.write_str(self.reason.words())
    }
}

impl Error for Refusal {}
