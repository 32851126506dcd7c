//! The functions that write and move texts on many drawings and texts, beside what the prose says that they write.

use crate::blocks::in_blocks;
use crate::case;
use crate::choices::{Choices, MOST};
use crate::damage;
use crate::drawing::{comma_text, commas, WIDTH};
use crate::generate::{JOINED, SCATTERED};
use crate::move_calls::Calls;
use crate::move_cases;
use crate::mover::Asked;
use crate::moves::{self, FUNCTIONS};
use crate::random::Random;
use crate::round_trips::{self, Trips, TRIPS};
use crate::shrink::shrunk;
use crate::table::Table;
use crate::tally::has_all;
use crate::text;
use crate::text_difference;
use crate::texts::{Kind, KINDS, OLD_KIND};
use crate::variants::{Variant, VARIANTS};

/// Blocks of a thousand drawings have every generator by its share, and beside these every kind of text by its own.
const BLOCK: usize = 1000;

pub const DEFAULT_MOVES: usize = 10_000;

/// Of a longer text one variant is tried, as the prose takes long over many segments.
const LONG: usize = 8192;

/// One drawing in so many has an unknown choice.
const UNKNOWN: usize = 16;

#[derive(Default)]
struct Tally {
    drawings: Table<&'static str, 2>,
    /// A text of no segments is moved both ways.
    texts: Table<&'static str, 3>,
    calls: Calls,
    trips: Trips,
}

impl Tally {
    fn merge(&mut self, other: Self) {
        self.drawings.merge(other.drawings);
        self.texts.merge(other.texts);
        self.calls.merge(other.calls);
        self.trips.merge(other.trips);
    }

    fn print(&self) {
        println!();
        self.drawings.print("drawing for overlay_write", ["written", "refused"]);
        self.texts.print("text to be moved", ["old to new", "new to old", "refused"]);
        self.calls.print();
        self.trips.print("there and back", ["times"]);
        let [written, refused] = [0, 1].map(|column| self.drawings.sum(column));
        let [up, down, neither] = [0, 1, 2].map(|column| self.texts.sum(column));
        println!("{written} drawings written, {refused} refused");
        println!("texts moved: {up} old to new, {down} new to old, {neither} refused");
    }

    fn missing(&self) -> Vec<String> {
        let trips = self.trips.lacking(&TRIPS).map(|name| name.to_string());
        self.calls.missing().into_iter().chain(trips).collect()
    }
}

/// Writes the fixed drawings, about this many others and their damaged copies; moves their texts and others, in both
/// forms. False where something differs or is missing.
pub fn check(seed: u64, drawings: usize) -> bool {
    let work = |block, tally: &mut Tally| match block {
        0 => check_fixed(seed, tally),
        _ => check_block(seed, block, tally),
    };
    let (tally, failure) = in_blocks(1 + drawings.div_ceil(BLOCK), work, Tally::merge);
    tally.print();
    if let Some(failure) = &failure {
        failure.print(seed);
    }
    failure.is_none() && has_all(&tally.missing())
}

fn check_fixed(seed: u64, tally: &mut Tally) -> Result<(), String> {
    let random = &mut Random::new(&[seed]);
    for (choices, numbers) in move_cases::drawings() {
        check_drawing("known fault or limit", &numbers, choices, random, tally)?;
    }
    let mut texts = move_cases::texts().into_iter();
    texts.try_for_each(|text| VARIANTS.iter().try_for_each(|variant| check_variant(&text, variant, random, tally)))
}

fn check_block(seed: u64, block: usize, tally: &mut Tally) -> Result<(), String> {
    for (kind, generator) in SCATTERED.iter().chain(&JOINED).enumerate() {
        for place in 0..generator.share {
            let random = &mut Random::new(&[seed, block as u64, kind as u64, place as u64]);
            let (numbers, _) = generator.drawing(random);
            let copy = damage::damaged(&numbers, random);
            for numbers in [numbers, copy] {
                let choices = choices(random);
                check_drawing(generator.name, &numbers, choices, random, tally)?;
            }
        }
    }
    for (kind, Kind { make, share, .. }) in KINDS.iter().chain([&OLD_KIND]).enumerate() {
        for place in 0..*share {
            let random = &mut Random::new(&[seed, block as u64, kind as u64, place as u64]);
            check_text(&make(random), random, tally)?;
        }
    }
    Ok(())
}

fn choices(random: &mut Random) -> Choices {
    match random.below(UNKNOWN * MOST.len()) {
        place if place < MOST.len() => Choices::unknown(place, random),
        _ => Choices::known(random),
    }
}

/// A drawing by itself, then its text.
fn check_drawing(
    generator: &'static str,
    numbers: &[i32],
    choices: Choices,
    random: &mut Random,
    tally: &mut Tally,
) -> Result<(), String> {
    let before = random.clone();
    let compared = compare_drawing(numbers, choices, random, tally);
    let differs =
        |numbers: Vec<i32>| compare_drawing(&numbers, choices, &mut before.clone(), &mut Tally::default()).err();
    let is_written = compared.map_err(|found| format!("{generator}\n{}", shrunk(found, differs).report()))?;
    tally.drawings.add(generator, usize::from(!is_written));
    check_text(&comma_text(numbers, choices).into_bytes(), random, tally)
}

/// Returns whether it is written.
fn compare_drawing(
    numbers: &[i32],
    choices: Choices,
    random: &mut Random,
    tally: &mut Tally,
) -> Result<bool, case::Difference> {
    let asked = Asked::Write(numbers.to_vec(), choices);
    let compared = moves::compare(&asked, random, &mut tally.calls).and_then(|is_written| {
        round_trips::of_drawing(numbers, choices, &mut tally.trips)?;
        Ok(is_written)
    });
    compared.map_err(|[expected, got]| {
        let (numbers, choices) = (numbers.to_vec(), commas(&choices.list()));
        case::Difference { numbers, width: WIDTH, run: FUNCTIONS[0], choices, expected, got }
    })
}

/// A text in its variants.
fn check_text(text: &[u8], random: &mut Random, tally: &mut Tally) -> Result<(), String> {
    if text.len() > LONG {
        let variant = &VARIANTS[random.below(VARIANTS.len())];
        return check_variant(text, variant, random, tally);
    }
    VARIANTS.iter().try_for_each(|variant| check_variant(text, variant, random, tally))
}

fn check_variant(text: &[u8], (name, vary): &Variant, random: &mut Random, tally: &mut Tally) -> Result<(), String> {
    let text = vary(text, random);
    let before = random.clone();
    let differs = |text: Vec<u8>| compare_text(&text, &mut before.clone(), &mut Tally::default()).err();
    let compared = compare_text(&text, random, tally);
    let moved = compared.map_err(|found| format!("text {name}\n{}", found.shrunk(differs).report()))?;
    let refused = moved == [false; 2];
    let columns = [moved[0], moved[1], refused].into_iter().enumerate();
    columns.filter(|&(_, counted)| counted).for_each(|(column, _)| tally.texts.add(name, column));
    Ok(())
}

/// Moves a text both ways, and writes it where it can be read. Returns which way it is moved.
fn compare_text(text: &[u8], random: &mut Random, tally: &mut Tally) -> Result<[bool; 2], text_difference::Difference> {
    let mut compare = |asked| moves::compare(&asked, random, &mut tally.calls);
    let compared = (|| {
        let moved = [compare(Asked::OldToNew(text.to_vec()))?, compare(Asked::NewToOld(text.to_vec()))?];
        if let Ok((choices, numbers)) = text::read(text) {
            compare(Asked::Write(numbers, choices))?;
        }
        round_trips::of_text(text, &mut tally.trips)?;
        Ok(moved)
    })();
    compared.map_err(|answers| text_difference::Difference::new(text, answers))
}
