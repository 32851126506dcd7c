//! Lent lists that show what a run did to them.

use crate::drawing::commas;
use crate::output::Room;
use crate::random::Random;

/// Entries beside a lent list, which no run may touch.
const MARGIN: usize = 8;

/// How long a list is beside what is needed.
pub const LENGTHS: [&str; 5] = [
    "a list exactly long enough",
    "a longer list",
    "a list too short by one",
    "an empty list, too short",
    "a list too short by more",
];

/// Which of these it is.
pub fn length(lent: usize, needed: usize) -> &'static str {
    let kind = match needed.checked_sub(lent) {
        Some(0) => 0,
        None => 1,
        Some(1) => 2,
        Some(_) if lent == 0 => 3,
        Some(_) => 4,
    };
    LENGTHS[kind]
}

/// One of each, those too short where entries are needed at all.
pub fn lengths(needed: usize, random: &mut Random) -> Vec<usize> {
    let longer = needed + 1 + random.below(20);
    let short = needed.checked_sub(1).map(|by_one| [by_one, 0, random.below(needed)]);
    [needed, longer].into_iter().chain(short.into_iter().flatten()).collect()
}

/// Exactly as many entries as are needed, or more.
pub fn long_enough(needed: Room, random: &mut Random) -> Room {
    needed.map(|needed| {
        let more = random.below(20);
        needed + random.pick(&[0, more])
    })
}

/// One or more of the lists that are needed: by one, empty, or anything between. None where no list is needed.
pub fn too_short(needed: Room, random: &mut Random) -> Option<Room> {
    let lists: Vec<_> = (0..needed.len()).filter(|&list| needed[list] > 0).collect();
    if lists.is_empty() {
        return None;
    }
    let mut lent = long_enough(needed, random);
    let shortened = 1 + random.below((1 << lists.len()) - 1);
    for (_, list) in lists.into_iter().enumerate().filter(|(bit, _)| shortened >> bit & 1 == 1) {
        let between = random.below(needed[list]);
        lent[list] = random.pick(&[needed[list] - 1, 0, between]);
    }
    Some(lent)
}

/// A list of noise, with more noise on both sides.
#[derive(Clone, PartialEq)]
pub struct Lent<T> {
    entries: Vec<T>,
    noise: Vec<T>,
}

impl<T: Copy + PartialEq + ToString> Lent<T> {
    pub fn new(length: usize, random: &mut Random, entry: fn(u64) -> T) -> Self {
        let noise: Vec<T> = (0..length + 2 * MARGIN).map(|_| entry(random.next())).collect();
        Self { entries: noise.clone(), noise }
    }

    /// The part that is lent.
    pub fn list(&mut self) -> &mut [T] {
        let end = self.entries.len() - MARGIN;
        &mut self.entries[MARGIN..end]
    }

    /// Whether the answer is at the front, and all else as it was.
    pub fn holds(&self, answer: &[T]) -> bool {
        let end = MARGIN + answer.len();
        self.entries[MARGIN..end] == *answer
            && self.entries[..MARGIN] == self.noise[..MARGIN]
            && self.entries[end..] == self.noise[end..]
    }

    /// What was written, with its place.
    pub fn changed(&self) -> String {
        let [_, changed] = self.show(&[]);
        changed
    }

    /// What should be written from its front, and what is changed or should be.
    pub fn show(&self, answer: &[T]) -> [String; 2] {
        let end = MARGIN + answer.len();
        let changed = (0..self.noise.len()).filter(|&at| self.entries[at] != self.noise[at]);
        let from = changed.clone().min().unwrap_or(MARGIN).min(MARGIN);
        let to = changed.max().map_or(end, |last| end.max(last + 1));
        let length = self.noise.len() - 2 * MARGIN;
        let place = from as isize - MARGIN as isize;
        [
            format!("[{}]", commas(answer)),
            format!("[{}] from place {place} in a list of {length}", commas(&self.entries[from..to])),
        ]
    }
}
