//! The texts for the programs that move them, and for pipes of these.

use crate::case_texts;
use crate::drawing::comma_text;
use crate::forms::{with_lots, without_lots, OLD_WIDTH};
use crate::move_cases;
use crate::places::in_repository;
use crate::random::Random;
use crate::stored;
use crate::text::rows;
use crate::texts::{Kind, KINDS};
use crate::variants::{self, VARIANTS};
use std::{fs, io};

/// A text for one of the two programs, or for the pipe that begins with it.
pub struct Task {
    pub text: Vec<u8>,
    /// 0 is old_to_new, 1 is new_to_old.
    pub first: usize,
    /// How it is counted that a pipe restores the text, or refuses it.
    pub piped: Option<[&'static str; 2]>,
}

pub const EXAMPLE: [&str; 2] = ["example restored", "example refused"];
pub const STORED: [&str; 2] = ["stored drawing restored", "stored drawing refused"];

/// The examples, the stored drawings and cases, the fixed drawings, and so many rounds of texts.
pub fn all_tasks(seed: u64, rounds: usize) -> io::Result<Vec<Task>> {
    let mut tasks = Vec::new();
    for text in examples()? {
        tasks.extend(by_pipes(&variants::without(&text), EXAMPLE));
        tasks.extend([without_lots(&text), text].into_iter().flat_map(by_programs));
    }
    for (choices, numbers) in stored::drawings(&stored::folder())? {
        let text = comma_text(&numbers, choices).into_bytes();
        tasks.extend(by_pipes(&variants::without(&text), STORED));
    }
    let random = &mut Random::new(&[seed]);
    let mut fixed: Vec<_> = case_texts::all().into_iter().map(|(_, text)| text).collect();
    fixed.extend(move_cases::drawings().iter().map(|(choices, numbers)| comma_text(numbers, *choices).into_bytes()));
    tasks.extend(fixed.into_iter().flat_map(|text| by_variants(&text, random)).collect::<Vec<_>>());
    tasks.extend((0..rounds).flat_map(|round| random_texts(seed, round)));
    Ok(tasks)
}

/// A text of the new form and the same in the old one, each by the pipe that can take it.
fn by_pipes(text: &[u8], names: [&'static str; 2]) -> [Task; 2] {
    let task = |first, text| Task { text, first, piped: Some(names) };
    [task(0, without_lots(text)), task(1, text.to_vec())]
}

/// A text by each of the programs.
fn by_programs(text: Vec<u8>) -> [Task; 2] {
    [0, 1].map(|first| Task { text: text.clone(), first, piped: None })
}

fn by_variants(text: &[u8], random: &mut Random) -> Vec<Task> {
    VARIANTS.iter().flat_map(|(_, vary)| by_programs(vary(text, random))).collect()
}

/// A text of each kind by its share, each in one of its variants.
fn random_texts(seed: u64, round: usize) -> Vec<Task> {
    let of_kind = |(kind, &Kind { make, share, .. }): (usize, &Kind)| {
        (0..share).flat_map(move |text| {
            let mut random = Random::new(&[seed, round as u64, kind as u64, text as u64]);
            let made = make(&mut random);
            let (_, vary) = VARIANTS[random.below(VARIANTS.len())];
            by_programs(vary(&made, &mut random))
        })
    };
    KINDS.iter().enumerate().flat_map(of_kind).collect()
}

/// The texts among the files there, whose names have no ending: those of the old form are taken in the new one.
fn examples() -> io::Result<Vec<Vec<u8>>> {
    let files: io::Result<Vec<_>> = fs::read_dir(in_repository("examples"))?.map(|entry| Ok(entry?.path())).collect();
    let mut files = files?;
    files.retain(|path| path.extension().is_none());
    files.sort();
    let in_new_form = |text: Vec<u8>| if rows::<OLD_WIDTH>(&text).is_ok() { with_lots(&text) } else { text };
    files.iter().map(|path| fs::read(path).map(in_new_form)).collect()
}
