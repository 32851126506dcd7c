//! overlay_write, overlay_old_to_new and overlay_new_to_old beside the writer and the mover written from prose.

use crate::lent::{lengths, Lent};
use crate::move_calls::Calls;
use crate::mover::{Asked, Due};
use crate::prose::Refusal;
use crate::random::Random;
use crate::text::MOST_BYTES;
use jumperclay::raw::{self, Written};

/// By their columns.
pub const FUNCTIONS: [&str; 3] = ["overlay_write", "overlay_old_to_new", "overlay_new_to_old"];

impl Asked {
    pub fn column(&self) -> usize {
        match self {
            Self::Write(..) => 0,
            Self::OldToNew(_) => 1,
            Self::NewToOld(_) => 2,
        }
    }

    pub fn on(&self, list: &mut [u8]) -> Written {
        match self {
            Self::Write(numbers, choices) => raw::write(numbers, choices.rule, choices.invert, choices.boundary, list),
            Self::OldToNew(text) => raw::old_to_new(text, list),
            Self::NewToOld(text) => raw::new_to_old(text, list),
        }
    }

    /// What the function writes to a list that is long enough for every text.
    pub fn ours(&self) -> Result<Vec<u8>, Refusal> {
        let mut list = vec![0; MOST_BYTES];
        let Written { number, place, count } = self.on(&mut list);
        list.truncate(count as usize);
        match number {
            0 => Ok(list),
            _ => Err(Refusal { number, place }),
        }
    }
}

/// Lends lists of every length. Returns whether one that is long enough is written to; Err, where something is not as
/// due, with what is due and what came.
pub fn compare(asked: &Asked, random: &mut Random, calls: &mut Calls) -> Result<bool, [String; 2]> {
    let due = asked.due();
    let mut lengths = lengths(due.needed(), random).into_iter();
    lengths.try_for_each(|lent| on_list(asked, &due, lent, random, calls))?;
    Ok(due.answer(due.needed()).is_ok())
}

/// One call on a list of noise: every returned number and every byte, written or not, must be as due.
fn on_list(asked: &Asked, due: &Due, lent: usize, random: &mut Random, calls: &mut Calls) -> Result<(), [String; 2]> {
    calls.add(asked.column(), due, lent);
    let (number, place, text) = match due.answer(lent) {
        Ok(text) => (0, 0, text),
        Err(Refusal { number, place }) => (number, place, &[][..]),
    };
    let written = Written { number, place, count: text.len() as u64 };
    let mut list = Lent::new(lent, random, |noise| noise as u8);
    let returned = asked.on(list.list());
    if returned == written && list.holds(text) {
        return Ok(());
    }
    let [expected, got] = list.show(text);
    let name = FUNCTIONS[asked.column()];
    Err([format!("{name}: {written:?}, {expected}"), format!("{name}: {returned:?}, {got}")])
}
