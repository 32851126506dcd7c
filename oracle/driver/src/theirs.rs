//! The unchanged Rust's answers, where its source is at hand.

use std::borrow::Borrow;
use std::fmt::Debug;
use std::panic::{catch_unwind, AssertUnwindSafe};

#[cfg(feature = "rust")]
pub use here::{split, Theirs};
#[cfg(not(feature = "rust"))]
pub use missing::{split, Theirs};

/// Says what the driver compares with.
pub const NOTE: &str = if cfg!(feature = "rust") {
    "compared with the unchanged Rust of i_overlay 9.1.0, and with the ray, the walks and the check written from prose"
} else {
    "the Rust of i_overlay is NOT here: compared with the stored answers, and with what is written from prose, only"
};

/// Answers of the Rust, each with the name of its maker.
type Answers<A> = Vec<(&'static str, A)>;

/// Err, where some answer of the Rust is another than the one due by the prose, with both.
pub fn agree<T: PartialEq + Debug + ?Sized, A: Borrow<T>>(
    due: &T,
    answers: impl FnOnce() -> Answers<A>,
) -> Result<(), [String; 2]> {
    let wrong = catch_unwind(AssertUnwindSafe(|| {
        let mut answers = answers().into_iter();
        answers
            .find(|(_, answer)| answer.borrow() != due)
            .map(|(name, answer)| format!("{:?} by {name}", answer.borrow()))
    }));
    match wrong.unwrap_or_else(|_| Some("a panic of the Rust".to_string())) {
        None => Ok(()),
        Some(got) => Err([format!("{due:?} by the prose"), got]),
    }
}

#[cfg(feature = "rust")]
mod here {
    use super::Answers;
    use crate::choices::{Choices, SliceChoices};
    use crate::contours::Contour;
    use crate::drawing::Point;
    use i_overlay::{Drawing, Scan};

    /// A drawing given to the Rust, once for each of the sweep's collections.
    pub struct Theirs {
        drawings: [(&'static str, Drawing); 2],
    }

    impl Theirs {
        pub fn new(numbers: &[i32]) -> Self {
            let drawings = [("the Rust with its list", Scan::Chosen), ("the Rust with its tree", Scan::Tree)];
            Self { drawings: drawings.map(|(name, scan)| (name, Drawing::new(numbers, scan))) }
        }

        pub fn fills(&mut self, rule: i32) -> Answers<&[u8]> {
            self.drawings.iter_mut().map(|(name, drawing)| (*name, drawing.fills(rule))).collect()
        }

        pub fn clip(&mut self, choices: Choices) -> Answers<Vec<Vec<Point>>> {
            let Choices { rule, invert, boundary } = choices;
            let paths = |drawing: &mut Drawing| drawing.clip(rule, invert == 1, boundary == 1);
            self.drawings.iter_mut().map(|(name, drawing)| (*name, paths(drawing))).collect()
        }

        /// None where the Rust finds no move.
        pub fn slice(&mut self, choices: SliceChoices) -> Answers<Option<Vec<Contour>>> {
            let SliceChoices { rule, direction, min_area } = choices;
            let contour = |i_overlay::Contour { points, role }| Contour { points, role };
            let contours = |drawing: &mut Drawing| {
                let made = drawing.slice(rule, direction == 1, min_area)?;
                Some(made.into_iter().map(contour).collect())
            };
            self.drawings.iter_mut().map(|(name, drawing)| (*name, contours(drawing))).collect()
        }
    }

    pub fn split(points: &[Point], min_area: u64) -> Answers<Vec<Vec<Point>>> {
        vec![("the Rust", i_overlay::split(points, min_area))]
    }
}

#[cfg(not(feature = "rust"))]
mod missing {
    use super::Answers;
    use crate::choices::{Choices, SliceChoices};
    use crate::contours::Contour;
    use crate::drawing::Point;

    /// Answers nothing.
    pub struct Theirs;

    impl Theirs {
        pub fn new(_: &[i32]) -> Self {
            Self
        }

        pub fn fills(&mut self, _: i32) -> Answers<&[u8]> {
            Vec::new()
        }

        pub fn clip(&mut self, _: Choices) -> Answers<Vec<Vec<Point>>> {
            Vec::new()
        }

        pub fn slice(&mut self, _: SliceChoices) -> Answers<Option<Vec<Contour>>> {
            Vec::new()
        }
    }

    pub fn split(_: &[Point], _: u64) -> Answers<Vec<Vec<Point>>> {
        Vec::new()
    }
}
