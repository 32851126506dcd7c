//! The programs that move texts, by themselves and piped into each other, beside what the prose says that they print.

use crate::blocks::in_blocks;
use crate::mover::Asked;
use crate::pipe_tasks::{all_tasks, Task, EXAMPLE, STORED};
use crate::program::Program;
use crate::table::Table;
use crate::tally::has_all;
use crate::text_difference::Difference;

/// Runs of programs in a block.
const BLOCK: usize = 100;

/// For so many drawings that are moved by the functions the programs run on a round of texts: to start them takes most
/// of the time.
const ROUND: usize = 2000;

/// By their columns; then a pipe that begins with each.
const NAMES: [&str; 2] = ["old_to_new", "new_to_old"];
const PIPES: [&str; 2] = ["old | new", "new | old"];

/// What must occur with each program; its own list is always long enough.
const REFUSALS: [&[u64]; 2] = [&[0, 1, 2, 3, 4, 5, 6, 7, 8, 9, 10], &[0, 1, 2, 3, 4, 5, 6, 7, 8, 9, 10, 13, 14]];

#[derive(Default)]
struct Tally {
    /// By the refusal due, 0 for none.
    runs: Table<u64, 2>,
    pipes: Table<&'static str, 2>,
}

impl Tally {
    fn merge(&mut self, other: Self) {
        self.runs.merge(other.runs);
        self.pipes.merge(other.pipes);
    }

    fn print(&self) {
        println!();
        self.runs.print("runs of a program by the refusal due", NAMES);
        self.pipes.print("pipes", PIPES);
        let (runs, pipes) = (self.runs.sum(0) + self.runs.sum(1), self.pipes.sum(0) + self.pipes.sum(1));
        println!("{runs} runs of old_to_new and new_to_old, {pipes} pipes of the two");
    }

    fn missing(&self) -> Vec<String> {
        let runs = self.runs.lacking_by_column(&REFUSALS.map(<[u64]>::to_vec));
        let runs = runs.into_iter().map(|(column, number)| format!("refusal {number} by {}", NAMES[column]));
        let pipes = [EXAMPLE, STORED].concat();
        runs.chain(self.pipes.lacking(&pipes).map(|name| format!("{name} by a pipe"))).collect()
    }
}

/// Runs the programs on the examples, the stored drawings and cases, and some texts where the functions move so many
/// drawings. False where a program is not there, or prints something else, or something is missing.
pub fn check(seed: u64, drawings: usize) -> bool {
    let [Some(up), Some(down)] = NAMES.map(Program::find) else { return false };
    let programs = [up, down];
    let tasks = match all_tasks(seed, drawings.div_ceil(ROUND)) {
        Ok(tasks) => tasks,
        Err(error) => {
            println!("the examples or the stored drawings cannot be read: {error}");
            return false;
        }
    };
    let blocks: Vec<&[Task]> = tasks.chunks(BLOCK).collect();
    let work = |block: usize, tally: &mut Tally| blocks[block].iter().try_for_each(|task| task.run(&programs, tally));
    let (tally, failure) = in_blocks(blocks.len(), work, Tally::merge);
    tally.print();
    if let Some(failure) = &failure {
        failure.print(seed);
    }
    failure.is_none() && has_all(&tally.missing())
}

impl Task {
    fn run(&self, programs: &[Program; 2], tally: &mut Tally) -> Result<(), String> {
        let compared = self.compare(programs, &self.text);
        let differs = |text: Vec<u8>| self.compare(programs, &text).err();
        let (number, is_restored) = compared.map_err(|found| {
            let (name, pipe) = (NAMES[self.first], if self.piped.is_some() { ", piped into the other" } else { "" });
            format!("{name}{pipe}\n{}", found.shrunk(differs).report())
        })?;
        match self.piped {
            Some(names) => tally.pipes.add(names[usize::from(!is_restored)], self.first),
            None => tally.runs.add(number, self.first),
        }
        Ok(())
    }

    /// Returns the number of the first program's refusal, 0 for none, and whether what comes out is what went in.
    fn compare(&self, programs: &[Program; 2], text: &[u8]) -> Result<(u64, bool), Difference> {
        let other = 1 - self.first;
        let due = asked(self.first, text.to_vec()).due();
        let number = due.refusals(due.needed()).first().map_or(0, |refusal| refusal.number);
        let (expected, got) = match self.piped {
            Some(_) => {
                let expected = asked(other, due.printed()).due().printed();
                (expected, programs[self.first].piped(&programs[other], text))
            }
            None => (due.printed(), programs[self.first].printed(text)),
        };
        match got {
            Ok(got) if got == expected => Ok((number, got == text)),
            got => Err(Difference::of_printed(text, &expected, got)),
        }
    }
}

fn asked(program: usize, text: Vec<u8>) -> Asked {
    [Asked::OldToNew as fn(Vec<u8>) -> Asked, Asked::NewToOld][program](text)
}
