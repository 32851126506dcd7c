//! overlay_split on many lists of points.

use crate::blocks::in_blocks;
use crate::case::Difference;
use crate::drawing::{flat, FARTHEST, MOST_POINTS};
use crate::marks;
use crate::point_lists::{all_lists, KINDS};
use crate::random::Random;
use crate::shrink::{shorter, smallest};
use crate::split::{self, compare};
use crate::table::Table;
use crate::tally::has_all;
use crate::trials::{self, LETTERS};

/// Blocks of a hundred lists have every kind by its share.
const BLOCK: usize = 100;

pub const DEFAULT_LISTS: usize = 20_000;

/// What must occur: refusals, and numbers of points in lists that are split.
const REFUSALS: [u64; 3] = [2, 3, 11];
const SIZES: [usize; 3] = [0, 1, MOST_POINTS];

/// Every list of the letters is split that is no longer than this.
const LONGEST: usize = 7;

#[derive(Default)]
struct Tally {
    /// By columns: taken, refused 2, refused 3.
    kinds: Table<&'static str, 3>,
    runs: split::Tally,
}

impl Tally {
    fn merge(&mut self, other: Self) {
        self.kinds.merge(other.kinds);
        self.runs.calls.merge(other.runs.calls);
        self.runs.marks.merge(other.runs.marks);
        self.runs.sizes.merge(other.runs.sizes);
    }

    fn print(&self) {
        println!();
        self.kinds.print("list for overlay_split", ["taken", "refused 2", "refused 3"]);
        self.runs.calls.print("calls by the refusal due", ["overlay_split"]);
        self.runs.marks.print("split runs with", ["runs"]);
        let [taken, length, coordinate] = [0, 1, 2].map(|column| self.kinds.sum(column));
        let all = taken + length + coordinate;
        println!("{all} lists of points split: {taken} taken, {length} refused 2, {coordinate} refused 3");
    }

    fn missing(&self) -> Vec<String> {
        let refusals = self.runs.calls.lacking(&REFUSALS).map(|number| format!("refusal {number} of a split"));
        let sizes = self.runs.sizes.lacking(&SIZES).map(|size| format!("{size} points"));
        let marks = self.runs.marks.lacking(&marks::SPLIT).map(|name| name.to_string());
        refusals.chain(sizes).chain(marks).collect()
    }
}

/// Compares the named lists, all short ones of the letters, and this many others. False where something differs or is
/// missing.
pub fn check(seed: u64, lists: usize) -> bool {
    let work = |block, tally: &mut Tally| match block {
        0 => check_fixed(seed, tally),
        _ => check_block(seed, block, tally),
    };
    let (tally, failure) = in_blocks(1 + lists.div_ceil(BLOCK), work, Tally::merge);
    tally.print();
    if let Some(failure) = &failure {
        failure.print(seed);
    }
    failure.is_none() && has_all(&tally.missing())
}

fn check_fixed(seed: u64, tally: &mut Tally) -> Result<(), String> {
    let short = all_lists(&LETTERS, LONGEST).map(|list| ("all short lists", flat(&list)));
    let lists = named().into_iter().map(|list| ("named list", list)).chain(short);
    lists
        .enumerate()
        .try_for_each(|(place, (kind, list))| check_list(kind, list, Random::new(&[seed, place as u64]), tally))
}

fn check_block(seed: u64, block: usize, tally: &mut Tally) -> Result<(), String> {
    for (place, kind) in KINDS.iter().enumerate() {
        for list in 0..kind.share {
            let mut random = Random::new(&[seed, block as u64, place as u64, list as u64]);
            let numbers = kind.numbers(&mut random);
            check_list(kind.name, numbers, random, tally).map_err(|report| format!("list {list}, {report}"))?;
        }
    }
    Ok(())
}

fn check_list(kind: &'static str, numbers: Vec<i32>, random: Random, tally: &mut Tally) -> Result<(), String> {
    let compared = compare(&numbers, &mut random.clone(), &mut tally.runs);
    let number = compared.map_err(|found| format!("{kind}\n{}", shrunk(found, &random).report()))?;
    tally.kinds.add(kind, number.saturating_sub(1) as usize);
    Ok(())
}

/// Leaves out points as long as some difference remains.
fn shrunk(found: Difference, random: &Random) -> Difference {
    let differs = |numbers: Vec<i32>| compare(&numbers, &mut random.clone(), &mut split::Tally::default()).err();
    let cuts = |numbers: &[i32]| (0..numbers.len()).step_by(2).chain([numbers.len()]).collect();
    smallest(found, |found| Box::new(shorter(&found.numbers, cuts(&found.numbers))), differs)
}

/// The trial lists; coordinates at the ends of the range and past them, at every place; and lengths that are refused.
fn named() -> Vec<Vec<i32>> {
    let ends = [FARTHEST, FARTHEST + 1, -FARTHEST, -FARTHEST - 1, i32::MIN, i32::MAX];
    let with = |place: usize, end| {
        let mut numbers = vec![4, 0, 4, 4, 0, 0];
        numbers[place] = end;
        numbers
    };
    let far = ends.into_iter().flat_map(|end| (0..6).map(move |place| with(place, end)));
    let lengths = [1, 2 * MOST_POINTS, 2 * MOST_POINTS + 1, 2 * MOST_POINTS + 2].map(|length| vec![0; length]);
    trials::splits().into_iter().map(|(_, numbers)| numbers).chain(far).chain(lengths).collect()
}
