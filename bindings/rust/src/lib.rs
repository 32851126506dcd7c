//! The string overlay, over a library whose every function is proved.
//!
//! A drawing is a list of segments, seven numbers each ([`WIDTH`]): `ax, ay, bx, by, winding, line bits, lot`. Point a
//! is less than b, by x and then y, and the segments come in order of their a. The winding is positive
//! where the outline runs from a to b. Line bit 1 is a line drawn from a to b, bit 2 one from b to a.
//! The lot is that of the flour, 0 for none; no answer depends on it.
//!
//! Any numbers may be passed: a drawing is either answered or refused, with the reason and the place. [`fills`], [`clip`],
//! [`slice()`] and [`split`] are the runs. [`read`] and [`write()`] are for texts, which [`old_to_new`] and
//! [`new_to_old`] move between the form with lots and the one before them. All these own their lists; the functions that
//! end in `_into` write to lent ones.
//!
//! ```
//! use jumperclay::{clip, fills, slice, ClipRule, Direction, Rule};
//!
//! // A square cut in two by a line that sticks out on both sides. The line goes through flour of lots 12 and 7.
//! let drawing = [
//!     -5, 5, 0, 5, 0, 1, 12,
//!     0, 0, 0, 5, -1, 0, 0,
//!     0, 0, 10, 0, 1, 0, 0,
//!     0, 5, 0, 10, -1, 0, 0,
//!     0, 5, 10, 5, 0, 1, 7,
//!     0, 10, 10, 10, -1, 0, 0,
//!     10, 0, 10, 5, 1, 0, 0,
//!     10, 5, 10, 10, 1, 0, 0,
//!     10, 5, 15, 5, 0, 1, 0,
//! ];
//! assert_eq!(fills(&drawing, Rule::NonZero)?, [4, 2, 1, 2, 7, 2, 1, 1, 4]);
//!
//! let inside = ClipRule { invert: false, boundary_included: true };
//! assert_eq!(clip(&drawing, Rule::NonZero, inside)?.paths, [[(0, 5), (10, 5)]]);
//!
//! let outside = ClipRule { invert: true, ..inside };
//! let ends = clip(&drawing, Rule::NonZero, outside)?;
//! assert_eq!(ends.paths, [[(-5, 5), (0, 5)], [(10, 5), (15, 5)]]);
//! assert_eq!(ends.totals.travel, 10);
//!
//! let halves = slice(&drawing, Rule::NonZero, Direction::CounterClockwise, 0)?;
//! assert_eq!(halves[0].points, [(10, 0), (10, 5), (0, 5), (0, 0)]);
//! assert_eq!(halves[1].points, [(10, 5), (10, 10), (0, 10), (0, 5)]);
//! # Ok::<(), jumperclay::Refusal>(())
//! ```
//!
//! The archive `liboverlay.a` that is linked is for x86-64 Linux; the build script looks for it in `target/staticlib` of
//! this repository, or in the directory that `JUMPERCLAY_LIB_DIR` names.

#![deny(missing_docs)]

mod clip;
mod fills;
mod points;
pub mod raw;
mod refusal;
mod slice;
mod split;
mod text;
mod write;

pub use clip::{clip, clip_into, Clip, ClipRule, Totals};
pub use fills::{fills, fills_into};
pub use points::{ContourTotals, Point};
pub use refusal::{Reason, Refusal};
pub use slice::{slice, slice_into, Contour, Direction};
pub use split::{split, split_into};
pub use text::{read, read_into, Choices, Text, MOST_BYTES};
pub use write::{new_to_old, new_to_old_into, old_to_new, old_to_new_into, write, write_into};

/// Which counts are filled.
#[derive(Debug, Clone, Copy, PartialEq, Eq, Hash)]
#[repr(i32)]
pub enum Rule {
    /// Odd counts.
    EvenOdd = 0,
    /// All but zero.
    NonZero = 1,
    /// Counts over zero.
    Positive = 2,
    /// Counts under zero.
    Negative = 3,
}

/// How many numbers a segment has.
pub const WIDTH: usize = 7;

/// No drawing has more segments than this.
pub const MOST_SEGMENTS: usize = 1024;

/// How many segments to make room for.
fn room(segments: &[i32]) -> usize {
    (segments.len() / WIDTH).min(MOST_SEGMENTS)
}
