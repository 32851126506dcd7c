//! The clip program and overlay_read on many texts, beside what the prose says that they print and read.

use crate::answer::answer;
use crate::blocks::in_blocks;
use crate::case_texts;
use crate::program::Program;
use crate::random::Random;
use crate::reader::{self, Calls};
use crate::table::Table;
use crate::tally::has_all;
use crate::text_difference::Difference;
use crate::texts::{Kind, KINDS};

/// Blocks of a hundred texts have every kind by its share.
const BLOCK: usize = 100;

/// To start the program for each takes most of the time.
pub const DEFAULT_TEXTS: usize = 3000;

/// What a text must have been refused with. The lists that the program lends are always long enough.
const REFUSALS: [u64; 11] = [1, 2, 3, 4, 5, 6, 7, 8, 9, 10, 13];

#[derive(Default)]
struct Tally {
    /// By columns: good, refused 1, refused otherwise.
    kinds: Table<&'static str, 3>,
    refusals: Table<u64, 1>,
    reads: Calls,
}

impl Tally {
    fn add(&mut self, kind: &'static str, number: u64) {
        self.kinds.add(kind, number.min(2) as usize);
        if number > 0 {
            self.refusals.add(number, 0);
        }
    }

    fn merge(&mut self, other: Self) {
        self.kinds.merge(other.kinds);
        self.refusals.merge(other.refusals);
        self.reads.merge(other.reads);
    }

    fn print(&self) {
        println!();
        self.kinds.print("text for the clip program", ["good", "refused 1", "refused else"]);
        self.refusals.print("refusal due", ["texts"]);
        self.reads.print("overlay_read with", ["calls"]);
        let [good, malformed, otherwise] = [0, 1, 2].map(|column| self.kinds.sum(column));
        let all = good + malformed + otherwise;
        println!(
            "{all} texts given to the clip program and overlay_read: {good} good, {malformed} refused 1, {otherwise} refused otherwise"
        );
    }

    fn missing(&self) -> Vec<String> {
        let refusals = self.refusals.lacking(&REFUSALS).map(|number| format!("refusal {number} of a text"));
        let calls = reader::calls();
        let reads = self.reads.lacking(&calls).map(|name| format!("overlay_read with {name}"));
        refusals.chain(reads).collect()
    }
}

/// Gives the stored cases and about this many texts to the program. False where it is not there, or prints something
/// else, or something is missing.
pub fn check(seed: u64, texts: usize) -> bool {
    let Some(program) = Program::find("clip") else { return false };
    let work = |block, tally: &mut Tally| match block {
        0 => check_cases(&program, tally),
        _ => check_block(&program, seed, block, tally),
    };
    let (tally, failure) = in_blocks(1 + texts.div_ceil(BLOCK), work, Tally::merge);
    tally.print();
    if let Some(failure) = &failure {
        failure.print(seed);
    }
    failure.is_none() && has_all(&tally.missing())
}

fn check_cases(program: &Program, tally: &mut Tally) -> Result<(), String> {
    for (name, text) in case_texts::all() {
        let compared = compare(program, &text, &mut tally.reads);
        let number = compared.map_err(|found| format!("stored case {name}\n{}", found.report()))?;
        tally.add("stored case", number);
    }
    Ok(())
}

fn check_block(program: &Program, seed: u64, block: usize, tally: &mut Tally) -> Result<(), String> {
    for (place, Kind { name, make, share }) in KINDS.iter().enumerate() {
        for text in 0..*share {
            let mut random = Random::new(&[seed, block as u64, place as u64, text as u64]);
            let compared = compare(program, &make(&mut random), &mut tally.reads);
            let report = |found| format!("{name}, text {text}\n{}", shrunk(program, found).report());
            tally.add(name, compared.map_err(report)?);
        }
    }
    Ok(())
}

/// Returns the number of the refusal due, 0 for none.
fn compare(program: &Program, text: &[u8], reads: &mut Calls) -> Result<u64, Difference> {
    reader::compare(text, reads).map_err(|answers| Difference::new(text, answers))?;
    let due = answer(text);
    match program.printed(text) {
        Ok(printed) if printed == due.printed.as_bytes() => Ok(due.number),
        got => Err(Difference::of_printed(text, due.printed.as_bytes(), got)),
    }
}

fn shrunk(program: &Program, found: Difference) -> Difference {
    found.shrunk(|text| compare(program, &text, &mut Calls::default()).err())
}
