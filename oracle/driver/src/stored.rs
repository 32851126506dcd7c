//! The stored answers: a drawing, a list of points or a text a line in one file, its answer in the same line of another.
//! `f,rule,ax,ay,bx,by,winding,bits,lot,...` has the answer `number,place,count,fill,...`,
//! `c,rule,invert,boundary,ax,...` has `number,place,paths,points,steps,travel,length,...,x,y,...`,
//! `s,rule,direction,area,ax,...` has `number,place,contours,points,length,...,role,...,x,y,...`, and
//! `l,area,x,y,...` has `number,place,loops,points,length,...,x,y,...`. Those of texts stand in `stored_texts.rs`.

use crate::choices::Choices;
use crate::drawing::{commas, MOST_POINTS, MOST_SEGMENTS};
use crate::output::{Output, CLIP_EACH, SLICE_EACH};
use crate::places::in_repository;
use crate::stored_texts;
use jumperclay::raw;
use std::path::{Path, PathBuf};
use std::{fs, io};

/// The two files, line by line.
pub const QUESTIONS: &str = "questions";
pub const ANSWERS: &str = "answers";

/// Where they stand.
pub fn folder() -> PathBuf {
    in_repository("oracle/stored")
}

pub fn questions(folder: &Path) -> io::Result<String> {
    fs::read_to_string(folder.join(QUESTIONS))
}

fn read(folder: &Path) -> io::Result<(String, String)> {
    Ok((questions(folder)?, fs::read_to_string(folder.join(ANSWERS))?))
}

/// The drawings to fill, clip and slice, each with the choices of a clip run.
pub fn drawings(folder: &Path) -> io::Result<Vec<(Choices, Vec<i32>)>> {
    let drawing = |question| {
        let (run, numbers) = parsed(question)?;
        let (choices, segments) = match (run, &numbers[..]) {
            ("f", &[rule, ref segments @ ..]) => ([rule, 0, 1], segments),
            ("c", &[rule, invert, boundary, ref segments @ ..]) => ([rule, invert, boundary], segments),
            ("s", &[rule, direction, _, ref segments @ ..]) => ([rule, direction, 1], segments),
            _ => return None,
        };
        Some((choices.into(), segments.to_vec()))
    };
    Ok(questions(folder)?.lines().filter_map(drawing).collect())
}

pub fn fills_answer(number: u64, place: u64, fills: &[u8]) -> String {
    let head = [number, place, fills.len() as u64];
    let all: Vec<u64> = head.into_iter().chain(fills.iter().map(|&fill| fill.into())).collect();
    commas(&all)
}

/// Runs every stored line. False where an answer differs or none is stored.
pub fn replay(folder: &Path) -> bool {
    let (questions, answers) = match read(folder) {
        Ok(files) => files,
        Err(error) => {
            println!("the stored answers are not in {}: {error}", folder.display());
            return false;
        }
    };
    let lines = questions.lines().count();
    let same = lines == answers.lines().count();
    let pairs = questions.lines().zip(answers.lines());
    let wrong: Vec<_> = pairs.filter(|(asked, due)| ours(asked).as_deref() != Some(due)).collect();
    println!("{lines} stored answers replayed, {} differ", wrong.len());
    if let Some((asked, due)) = wrong.first() {
        println!("DIFFERENCE\n{asked}\nexpected {due}\ngot      {:?}", ours(asked));
    }
    same && lines > 0 && wrong.is_empty()
}

/// The letter and the numbers of a question; none where something else follows the letter.
pub fn parsed(question: &str) -> Option<(&str, Vec<i32>)> {
    let (run, numbers) = question.split_once(',')?;
    let numbers: Result<Vec<i32>, _> = numbers.split(',').map(str::parse).collect();
    Some((run, numbers.ok()?))
}

/// None where the question cannot be read, or more is counted than was lent.
fn ours(question: &str) -> Option<String> {
    stored_texts::ours(question).or_else(|| of_numbers(question))
}

fn of_numbers(question: &str) -> Option<String> {
    let (run, numbers) = parsed(question)?;
    match (run, &numbers[..]) {
        ("f", &[rule, ref segments @ ..]) => {
            let mut list = [0; MOST_SEGMENTS];
            let filled = raw::fills(segments, rule, &mut list);
            Some(fills_answer(filled.number, filled.place, list.get(..filled.count as usize)?))
        }
        ("c", &[rule, invert, boundary, ref segments @ ..]) => {
            let room = CLIP_EACH.map(|each| each * MOST_SEGMENTS);
            let call = |points: &mut [_], lengths: &mut [_], _: &mut [_]| {
                raw::clip(segments, rule, invert, boundary, points, lengths)
            };
            Output::of_call(room, call).line()
        }
        ("s", &[rule, direction, area, ref segments @ ..]) => {
            let room = SLICE_EACH.map(|each| each * MOST_SEGMENTS);
            let min_area = area.try_into().ok()?;
            let call = |points: &mut [_], lengths: &mut [_], roles: &mut [_]| {
                raw::slice(segments, rule, direction, min_area, points, lengths, roles)
            };
            Output::of_call(room, call).line()
        }
        ("l", &[area, ref points @ ..]) => {
            let min_area = area.try_into().ok()?;
            let call = |out: &mut [_], lengths: &mut [_], _: &mut [_]| raw::split(points, min_area, out, lengths);
            Output::of_call([2 * MOST_POINTS, MOST_POINTS, 0], call).line()
        }
        _ => None,
    }
}
