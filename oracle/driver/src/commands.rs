//! The driver's commands.

#[cfg(feature = "rust")]
use crate::{bench, bench_texts, store};
use crate::{cases, check, check_moves, check_pipes, check_split, check_texts, stored, stored_checks, sweeps, theirs};
use std::path::Path;

pub const USAGE: &str = "\
driver check [--seed S] [--drawings N] [--lists N] [--texts N] [--moves N]
                                     compare with all that is stored, then on N drawings, N lists of points, N texts and
                                     N drawings to write and move
driver lists [--seed S] [--lists N]  compare overlay_split alone, on N lists of points
driver texts [--seed S] [--texts N]  compare the clip program and overlay_read alone, on N texts
driver moves [--seed S] [--moves N]  compare what writes and moves texts alone, on N drawings
driver replay [FOLDER]               compare with the stored answers, in oracle/stored if not said
driver store [FOLDER]                make the stored answers (needs the Rust)
driver cases [FOLDER]                make the cases of the clip program, in crates/clip_cases if not said
driver sweeps [FOLDER]               make the drawings that the definition of the sweep is computed on, in crates/sweep_cases if not said
driver bench                         time ours and the Rust (needs the Rust)
driver bench sheets                  time them on the nine sheets alone
driver bench alone                   time ours with nothing else between its calls
driver bench texts                   time the reading, writing and moving of texts";

struct Options {
    seed: u64,
    drawings: usize,
    lists: usize,
    texts: usize,
    moves: usize,
}

/// None where the words are no command.
pub fn run(words: &[&str]) -> Option<bool> {
    match words {
        ["check", options @ ..] => Some(check_all(options_of(options)?)),
        ["lists", options @ ..] => {
            let Options { seed, lists, .. } = options_of(options)?;
            Some(check_split::check(seed, lists))
        }
        ["texts", options @ ..] => {
            let Options { seed, texts, .. } = options_of(options)?;
            Some(check_texts::check(seed, texts))
        }
        ["moves", options @ ..] => {
            let Options { seed, moves, .. } = options_of(options)?;
            Some(check_moved(seed, moves))
        }
        ["replay"] => Some(stored::replay(&stored::folder())),
        ["replay", folder] => Some(stored::replay(Path::new(folder))),
        ["cases"] => Some(cases::store(&cases::folder())),
        ["cases", folder] => Some(cases::store(Path::new(folder))),
        ["sweeps"] => Some(sweeps::store(&sweeps::folder())),
        ["sweeps", folder] => Some(sweeps::store(Path::new(folder))),
        ["bench"] | ["bench", "sheets" | "alone" | "texts"] | ["store"] => {
            Some(with_rust(&words.join(" "), &stored::folder()))
        }
        ["store", folder] => Some(with_rust("store", Path::new(folder))),
        _ => None,
    }
}

fn check_all(Options { seed, drawings, lists, texts, moves }: Options) -> bool {
    println!("{}, seed {seed}", theirs::NOTE);
    let stored = [
        stored::replay(&stored::folder()),
        stored_checks::check(&stored::folder()),
        cases::check(&cases::folder()),
        sweeps::check(&sweeps::folder()),
    ];
    let made = [
        check::check(seed, drawings),
        check_split::check(seed, lists),
        check_texts::check(seed, texts),
        check_moved(seed, moves),
    ];
    stored == [true; 4] && made == [true; 4]
}

/// The functions that write and move texts, then the programs that move them.
fn check_moved(seed: u64, moves: usize) -> bool {
    [check_moves::check(seed, moves), check_pipes::check(seed, moves)] == [true; 2]
}

fn options_of(options: &[&str]) -> Option<Options> {
    let mut found = Options {
        seed: 1,
        drawings: check::DEFAULT_DRAWINGS,
        lists: check_split::DEFAULT_LISTS,
        texts: check_texts::DEFAULT_TEXTS,
        moves: check_moves::DEFAULT_MOVES,
    };
    for option in options.chunks(2) {
        match option {
            ["--seed", value] => found.seed = value.parse().ok()?,
            ["--drawings", value] => found.drawings = value.parse().ok()?,
            ["--lists", value] => found.lists = value.parse().ok()?,
            ["--texts", value] => found.texts = value.parse().ok()?,
            ["--moves", value] => found.moves = value.parse().ok()?,
            _ => return None,
        }
    }
    Some(found)
}

#[cfg(feature = "rust")]
fn with_rust(command: &str, folder: &Path) -> bool {
    match command {
        "store" => store::store(1, folder),
        "bench sheets" => bench::bench_sheets(),
        "bench alone" => bench::bench_alone(),
        "bench texts" => bench_texts::bench(),
        _ => bench::bench(),
    }
}

#[cfg(not(feature = "rust"))]
fn with_rust(command: &str, _: &Path) -> bool {
    println!("{command} needs the Rust: {}", theirs::NOTE);
    false
}
