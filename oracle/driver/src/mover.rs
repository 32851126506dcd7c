//! The writer of drawing texts and the mover between their two forms, by document 02's prose.

use crate::choices::Choices;
use crate::drawing::{comma_text, WIDTH};
use crate::forms::{with_lots, without_lots, OLD_WIDTH};
use crate::prose::{Checked, Refusal};
use crate::text;

/// What is asked of one of the three functions, but for the list that it is lent.
#[derive(Clone, PartialEq, Eq, Hash)]
pub enum Asked {
    Write(Vec<i32>, Choices),
    OldToNew(Vec<u8>),
    NewToOld(Vec<u8>),
}

impl Asked {
    /// The drawing that is checked, with lots, and its choices; or the first bad line of the text.
    pub fn drawing(&self) -> Result<(Choices, Vec<i32>), u64> {
        match self {
            Self::Write(numbers, choices) => Ok((*choices, numbers.clone())),
            Self::OldToNew(text) => {
                let (choices, rows) = text::rows::<OLD_WIDTH>(text)?;
                Ok((choices, rows.into_iter().flat_map(|row| row.into_iter().chain([0])).collect()))
            }
            Self::NewToOld(text) => text::read(text),
        }
    }

    pub fn due(&self) -> Due {
        let refusals = match self.drawing() {
            Ok((choices, numbers)) => self.refusals(choices, &numbers),
            Err(place) => vec![Refusal { number: 1, place }],
        };
        Due { refusals, text: self.text() }
    }

    /// 2, 10, and the first of 3 to 9 and 13, as in every run; then 14.
    fn refusals(&self, choices: Choices, numbers: &[i32]) -> Vec<Refusal> {
        let mut refusals = Checked::new(numbers).refusals(&choices.with_most(), &[]);
        if let Self::NewToOld(_) = self {
            refusals.extend(lost_lot(numbers));
        }
        refusals
    }

    fn text(&self) -> Vec<u8> {
        match self {
            Self::Write(numbers, choices) => comma_text(numbers, *choices).into_bytes(),
            Self::OldToNew(text) => with_lots(text),
            Self::NewToOld(text) => without_lots(text),
        }
    }
}

/// 14: the lowest place of a lot that the old form cannot hold.
fn lost_lot(numbers: &[i32]) -> Option<Refusal> {
    let place = numbers.chunks(WIDTH).position(|segment| segment[OLD_WIDTH..] != [0])?;
    Some(Refusal { number: 14, place: place as u64 })
}

/// What is due, whichever list is lent.
pub struct Due {
    /// All that fit but 11, in the order in which they are tried.
    refusals: Vec<Refusal>,
    /// What is written where nothing is refused, and would be otherwise.
    text: Vec<u8>,
}

impl Due {
    /// How many bytes are written where nothing is refused, and would be otherwise.
    pub fn needed(&self) -> usize {
        self.text.len()
    }

    /// All that fit with a list of so many bytes, the one due first. 11 is the last.
    pub fn refusals(&self, lent: usize) -> Vec<Refusal> {
        let short = (lent < self.needed()).then_some(Refusal { number: 11, place: 0 });
        self.refusals.iter().copied().chain(short).collect()
    }

    /// With a list of so many bytes.
    pub fn answer(&self, lent: usize) -> Result<&[u8], Refusal> {
        match self.refusals(lent).first() {
            Some(&refusal) => Err(refusal),
            None => Ok(&self.text),
        }
    }

    /// By a program, whose own list is always long enough.
    pub fn printed(&self) -> Vec<u8> {
        self.answer(self.needed()).map_or_else(|refusal| refusal.line().into_bytes(), <[u8]>::to_vec)
    }
}
