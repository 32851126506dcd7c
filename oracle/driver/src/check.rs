//! The comparison over many drawings.

use crate::blocks::in_blocks;
use crate::case::Difference;
use crate::compare::compare;
use crate::damage::damaged;
use crate::generate::{Generator, JOINED, SCATTERED};
use crate::placement;
use crate::random::Random;
use crate::refusals;
use crate::shrink::shrunk;
use crate::tally::{has_all, Tally};
use crate::trials;

/// Blocks of a thousand drawings have every generator by its share.
const BLOCK: usize = 1000;

pub const DEFAULT_DRAWINGS: usize = 160_000;
const LEAST_ACCEPTED: usize = 50_000;

/// Damaged copies of each drawing; of one with many segments, one.
const COPIES: usize = 2;

/// Compares the trial drawings, those with known faults, this many others and their damaged copies. False where
/// something differs or is missing.
pub fn check(seed: u64, drawings: usize) -> bool {
    let work = |block, tally: &mut Tally| match block {
        0 => check_fixed(seed, tally),
        _ => check_block(seed, block, tally),
    };
    let (tally, failure) = in_blocks(1 + drawings.div_ceil(BLOCK), work, Tally::merge);
    tally.print();
    if let Some(failure) = &failure {
        failure.print(seed);
    }
    failure.is_none() && is_enough(&tally, drawings)
}

fn is_enough(tally: &Tally, drawings: usize) -> bool {
    println!("{} drawings accepted", tally.accepted());
    let few = drawings >= DEFAULT_DRAWINGS && tally.accepted() < LEAST_ACCEPTED;
    if few {
        println!("TOO LITTLE: fewer than {LEAST_ACCEPTED} drawings accepted");
    }
    has_all(&tally.missing()) && !few
}

fn check_fixed(seed: u64, tally: &mut Tally) -> Result<(), String> {
    let trials = trials::slices().into_iter().map(|(_, numbers)| ("trial", numbers));
    let faults = refusals::faults().into_iter().map(|numbers| ("known fault or limit", numbers));
    trials.chain(faults).enumerate().try_for_each(|(place, (kind, numbers))| {
        let random = &mut Random::new(&[seed, place as u64]);
        check_drawing(kind, &numbers, true, random, tally).map_err(|found| found.report())
    })
}

fn check_block(seed: u64, block: usize, tally: &mut Tally) -> Result<(), String> {
    for (kind, generator) in SCATTERED.iter().chain(&JOINED).enumerate() {
        for place in 0..generator.share {
            let mut random = Random::new(&[seed, block as u64, kind as u64, place as u64]);
            let before = random.clone();
            // Every rule and area is tried, however large the drawing.
            let differs = |numbers: Vec<i32>| compare(&numbers, true, &mut before.clone(), &mut Tally::default()).err();
            check_one(generator, &mut random, tally).map_err(|found| {
                format!("generator {}, drawing {place}\n{}", generator.name, shrunk(found, differs).report())
            })?;
        }
    }
    Ok(())
}

/// One drawing and its damaged copies.
fn check_one(generator: &Generator, random: &mut Random, tally: &mut Tally) -> Result<(), Difference> {
    let (numbers, placement) = generator.drawing(random);
    tally.add_placement(placement::NAMES[placement]);
    check_drawing(generator.name, &numbers, false, random, tally)?;
    let copies = if numbers.len() > 1000 { 1 } else { COPIES };
    for _ in 0..copies {
        let copy = damaged(&numbers, random);
        check_drawing(generator.name, &copy, false, random, tally)?;
    }
    Ok(())
}

fn check_drawing(
    generator: &'static str,
    numbers: &[i32],
    thorough: bool,
    random: &mut Random,
    tally: &mut Tally,
) -> Result<(), Difference> {
    let refused = compare(numbers, thorough, random, tally)?;
    tally.add_drawing(generator, numbers, refused);
    Ok(())
}
