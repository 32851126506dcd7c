//! overlay_read beside the reader written from prose.

use crate::choices::Choices;
use crate::lent::{length, lengths, Lent, LENGTHS};
use crate::prose::{of_read, Refusal};
use crate::random::Random;
use crate::table::Table;
use crate::text;
use jumperclay::raw;

/// The calls that must occur, by the text and the list that is lent.
pub fn calls() -> Vec<&'static str> {
    [&LENGTHS[..], &[MALFORMED]].concat()
}

const MALFORMED: &str = "a malformed text";

pub type Calls = Table<&'static str, 1>;

/// Lends a list exactly long enough, a longer one and, where numbers are due, three that are too short: by one, empty and
/// between. Err, where something is not as due, with what is due and what came.
pub fn compare(text: &[u8], calls: &mut Calls) -> Result<(), [String; 2]> {
    let held = text::read(text);
    let count = held.as_ref().map_or(0, |(_, numbers)| numbers.len());
    let mut random = Random::new(&[text.len() as u64]);
    let mut lengths = lengths(count, &mut random).into_iter();
    lengths.try_for_each(|length| on_list(text, &held, length, &mut random, calls))
}

/// One call on a list of noise: every returned number and every entry, written or not, must be as due.
fn on_list(
    text: &[u8],
    held: &Result<(Choices, Vec<i32>), u64>,
    lent: usize,
    random: &mut Random,
    calls: &mut Calls,
) -> Result<(), [String; 2]> {
    let count = held.as_ref().map(|(_, numbers)| numbers.len()).map_err(|&place| place);
    let refused = of_read(count, lent);
    calls.add(count.map_or(MALFORMED, |needed| length(lent, needed)), 0);
    let (due, numbers) = match (held, refused) {
        (Ok((Choices { rule, invert, boundary }, numbers)), None) => {
            let (rule, invert, boundary) = (*rule, *invert, *boundary);
            (raw::Read { number: 0, place: 0, count: numbers.len() as u64, rule, invert, boundary }, &numbers[..])
        }
        _ => {
            let Refusal { number, place } = refused.expect("what is not read is refused");
            (raw::Read { number, place, count: 0, rule: 0, invert: 0, boundary: 0 }, &[][..])
        }
    };
    let mut lent = Lent::new(lent, random, |noise| noise as i32);
    let returned = raw::read(text, lent.list());
    if returned == due && lent.holds(numbers) {
        return Ok(());
    }
    let [expected, got] = lent.show(numbers);
    Err([format!("{due:?}, {expected}"), format!("{returned:?}, {got}")])
}
