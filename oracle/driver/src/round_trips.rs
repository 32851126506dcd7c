//! What document 02 says of writing, reading and moving together, tried on the exported functions by themselves: moving
//! there and back restores the same bytes, what is written is read again and what is read is written again, and all
//! check as a clip run does.

use crate::choices::Choices;
use crate::drawing::WIDTH;
use crate::mover::Asked;
use crate::moves::FUNCTIONS;
use crate::output::CLIP_EACH;
use crate::prose::Refusal;
use crate::table::Table;
use crate::text::MOST_BYTES;
use jumperclay::raw::{self, Clipped, Read};
use std::fmt::Debug;

/// What must occur.
pub const TRIPS: [&str; 8] = [
    "old to new and back",
    "new to old and back",
    "old to new, and taken by a clip",
    "read and written again",
    "written and read again",
    "taken as by a clip",
    "refused as by a clip",
    "refused 14 where a clip takes it",
];

pub type Trips = Table<&'static str, 1>;

/// Err, where something is not as said, with what is due and what came.
pub fn of_text(text: &[u8], trips: &mut Trips) -> Result<(), [String; 2]> {
    let (up, down): (Move, Move) = (Asked::OldToNew, Asked::NewToOld);
    if let Some(moved) = there_and_back(TRIPS[0], text, up, down, trips)? {
        trips.add(TRIPS[2], 0);
        same(TRIPS[2], Some(None), read(&moved).map(|(choices, numbers)| clip(&numbers, choices)))?;
    }
    there_and_back(TRIPS[1], text, down, up, trips)?;
    as_clip(&up(text.to_vec()), trips)?;
    as_clip(&down(text.to_vec()), trips)?;
    match read(text) {
        Some((choices, numbers)) => written_again(text, numbers, choices, trips),
        None => Ok(()),
    }
}

/// The same of a drawing.
pub fn of_drawing(numbers: &[i32], choices: Choices, trips: &mut Trips) -> Result<(), [String; 2]> {
    let asked = Asked::Write(numbers.to_vec(), choices);
    as_clip(&asked, trips)?;
    let Ok(text) = asked.ours() else { return Ok(()) };
    trips.add(TRIPS[4], 0);
    same(TRIPS[4], Some((choices, numbers.to_vec())), read(&text))
}

type Move = fn(Vec<u8>) -> Asked;

/// Returns the moved text, if it is.
fn there_and_back(
    trip: &'static str,
    text: &[u8],
    there: Move,
    back: Move,
    trips: &mut Trips,
) -> Result<Option<Vec<u8>>, [String; 2]> {
    let Ok(moved) = there(text.to_vec()).ours() else { return Ok(None) };
    trips.add(trip, 0);
    same(trip, Ok(text.to_vec()), back(moved.clone()).ours())?;
    Ok(Some(moved))
}

/// A text whose drawing is taken is the one that is written of it.
fn written_again(text: &[u8], numbers: Vec<i32>, choices: Choices, trips: &mut Trips) -> Result<(), [String; 2]> {
    if clip(&numbers, choices).is_some() {
        return Ok(());
    }
    trips.add(TRIPS[3], 0);
    same(TRIPS[3], Ok(text.to_vec()), Asked::Write(numbers, choices).ours())
}

/// What is well formed is refused as a clip of its drawing is, but for lots on their way to the old form.
fn as_clip(asked: &Asked, trips: &mut Trips) -> Result<(), [String; 2]> {
    let Ok((choices, numbers)) = asked.drawing() else { return Ok(()) };
    let refused = asked.ours().err();
    let trip = match (clip(&numbers, choices), refused) {
        (None, None) => TRIPS[5],
        (None, Some(Refusal { number: 14, .. })) if matches!(asked, Asked::NewToOld(_)) => TRIPS[7],
        (due, refused) if due == refused => TRIPS[6],
        (due, refused) => return same(&format!("{} as a clip", FUNCTIONS[asked.column()]), due, refused),
    };
    trips.add(trip, 0);
    Ok(())
}

/// The refusal of a clip run, if any.
fn clip(numbers: &[i32], Choices { rule, invert, boundary }: Choices) -> Option<Refusal> {
    let [points, lengths, _] = CLIP_EACH.map(|each| each * (numbers.len() / WIDTH));
    let (mut points, mut lengths) = (vec![0; points], vec![0; lengths]);
    let Clipped { number, place, .. } = raw::clip(numbers, rule, invert, boundary, &mut points, &mut lengths);
    (number != 0).then_some(Refusal { number, place })
}

/// What is read of a text; none where it is malformed.
fn read(text: &[u8]) -> Option<(Choices, Vec<i32>)> {
    // A number has a byte and a comma or LF at least.
    let mut numbers = vec![0; MOST_BYTES / 2];
    let Read { number, count, rule, invert, boundary, .. } = raw::read(text, &mut numbers);
    numbers.truncate(count as usize);
    (number == 0).then_some((Choices { rule, invert, boundary }, numbers))
}

fn same<T: PartialEq + Debug>(name: &str, due: T, got: T) -> Result<(), [String; 2]> {
    if due == got {
        return Ok(());
    }
    Err([due, got].map(|answer| format!("{name}: {answer:?}")))
}
