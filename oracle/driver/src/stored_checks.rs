//! The checks alone on the stored drawings of fills and slices: each says what the run says, whose answers are stored.
//! The lists are long enough for any drawing, just long enough, and each of them one entry short.

use crate::drawing::{MOST_SEGMENTS, WIDTH};
use crate::measure::{check_fills, check_slice, Verdict};
use crate::output::SLICE_EACH;
use crate::stored;
use jumperclay::raw;
use std::path::Path;

/// A walk without a move is found by the run alone.
const NO_MOVE: u64 = 12;

/// False where a check says otherwise than its run, or a refusal or an acceptance never occurs.
pub fn check(folder: &Path) -> bool {
    let Ok(questions) = stored::questions(folder) else {
        println!("the stored drawings are not in {}", folder.display());
        return false;
    };
    let calls: Vec<(Verdict, Verdict)> = questions.lines().filter_map(verdicts).flatten().collect();
    let wrong = calls.iter().filter(|(run, alone)| run != alone).count();
    let refused = calls.iter().filter(|(run, _)| run.number != 0).count();
    println!("{} checks alone, {refused} refused, {wrong} say otherwise than their runs", calls.len());
    wrong == 0 && 0 < refused && refused < calls.len()
}

/// What the run and the check alone say of a line, with each set of lists. None of a line of another run.
fn verdicts(question: &str) -> Option<Vec<(Verdict, Verdict)>> {
    let (run, numbers) = stored::parsed(question)?;
    match (run, &numbers[..]) {
        ("f", &[rule, ref segments @ ..]) => {
            Some(rooms([1, 0, 0], segments).map(|[fills, ..]| of_fills(segments, rule, fills)).collect())
        }
        ("s", &[rule, direction, _, ref segments @ ..]) => {
            Some(rooms(SLICE_EACH, segments).map(|room| of_slice(segments, rule, direction, room)).collect())
        }
        _ => None,
    }
}

/// Entries of the lists, each needing so many for a segment.
fn rooms(each: [usize; 3], segments: &[i32]) -> impl Iterator<Item = [usize; 3]> {
    let just = each.map(|each| each * (segments.len() / WIDTH));
    let short = move |list: usize| {
        let mut room = just;
        room[list] = room[list].saturating_sub(1);
        room
    };
    [each.map(|each| each * MOST_SEGMENTS), just]
        .into_iter()
        .chain((0..each.len()).filter(move |&list| each[list] > 0).map(short))
}

fn of_fills(segments: &[i32], rule: i32, fills: usize) -> (Verdict, Verdict) {
    let mut fills = vec![0; fills];
    let raw::Filled { number, place, .. } = raw::fills(segments, rule, &mut fills);
    (Verdict { number, place }, check_fills(segments, rule, &fills))
}

fn of_slice(segments: &[i32], rule: i32, direction: i32, room: [usize; 3]) -> (Verdict, Verdict) {
    let [points, lengths, roles] = room;
    let (mut points, mut lengths, mut roles) = (vec![0; points], vec![0; lengths], vec![0; roles]);
    let sliced = raw::slice(segments, rule, direction, 0, &mut points, &mut lengths, &mut roles);
    let run = match sliced.number {
        NO_MOVE => Verdict { number: 0, place: 0 },
        number => Verdict { number, place: sliced.place },
    };
    (run, check_slice(segments, rule, direction, &points, &lengths, &roles))
}
