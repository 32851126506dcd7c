//! Makes the stored answers: fills, paths, contours and loops by the unchanged Rust, refusals by the prose check. Steps
//! and travel of paths are counted here, as the Rust does not count them. What is written and moved is by the prose.

use crate::areas::areas;
use crate::case::Case;
use crate::choices::{known, known_but, unknown, Choices, SliceChoices, MOST, RULES, SLICE_MOST};
use crate::counts::Counts;
use crate::damage::damaged;
use crate::drawing::{comma_text, commas, pairs, MOST_POINTS, MOST_SEGMENTS, WIDTH};
use crate::forms::{with_lots, without_lots};
use crate::generate::{accepted, Generator, JOINED, SCATTERED};
use crate::loops::Loops;
use crate::move_cases;
use crate::mover::Asked;
use crate::output::{Output, CLIP_EACH, SLICE_EACH};
use crate::point_lists;
use crate::prose::{of_split, Checked, Refusal};
use crate::random::Random;
use crate::refusals;
use crate::stored::{self, fills_answer};
use crate::stored_texts;
use crate::theirs::{self, Theirs};
use crate::trials;
use jumperclay::raw::{Clipped, Looped};
use std::ops::RangeInclusive;
use std::path::Path;
use std::{fs, io};

/// A question and its answer.
type Line = (String, String);

/// Makes the line of a place among those of its kind.
type MakeLine = fn(usize, &mut Random) -> Line;

/// How many lines there are of each kind. The trials and the refusals are as many as there are.
fn kinds() -> [(usize, MakeLine); 15] {
    [
        (320, accepted_fills),
        (80, refused_fills),
        (240, accepted_clip),
        (60, refused_clip),
        (trials::slices().len(), |place, _| slice_line(&trials::slices()[place])),
        (81, accepted_slice),
        (27, refused_slice),
        (trials::splits().len(), |place, _| split_line(&trials::splits()[place])),
        (52, accepted_split),
        (12, refused_split),
        (refusals::fills().len(), |place, _| fills_line(&refusals::fills()[place])),
        (refusals::clips().len(), |place, _| clip_line(&refusals::clips()[place])),
        (refusals::slices().len(), |place, _| slice_line(&refusals::slices()[place])),
        (move_cases::stored().len(), |place, _| text_line(&move_cases::stored()[place])),
        (18, accepted_text),
    ]
}

/// What a run can be refused with that lends lists long enough.
const NUMBERS: [u64; 10] = [2, 3, 4, 5, 6, 7, 8, 9, 10, 13];

/// Random lines stay short: those of drawings, and of lists of points.
const MOST_NUMBERS: usize = 150 * WIDTH;
const MOST_COORDINATES: usize = 150;

pub fn store(seed: u64, folder: &Path) -> bool {
    let makers = kinds().into_iter().flat_map(|(count, make)| (0..count).map(move |place| (make, place)));
    let lines = makers.enumerate().map(|(line, (make, place))| make(place, &mut Random::new(&[seed, line as u64])));
    let (questions, answers): (Vec<_>, Vec<_>) = lines.unzip();
    match write(folder, &text(&questions), &text(&answers)) {
        Ok(()) => {
            println!("{} answers stored in {}", answers.len(), folder.display());
            true
        }
        Err(error) => {
            println!("the answers could not be stored: {error}");
            false
        }
    }
}

fn write(folder: &Path, questions: &str, answers: &str) -> io::Result<()> {
    fs::create_dir_all(folder)?;
    fs::write(folder.join(stored::QUESTIONS), questions)?;
    fs::write(folder.join(stored::ANSWERS), answers)
}

fn text(lines: &[String]) -> String {
    lines.iter().map(|line| format!("{line}\n")).collect()
}

fn question(letter: &str, choices: &[i32], numbers: &[i32]) -> String {
    format!("{letter},{}", commas(&[choices, numbers].concat()))
}

/// The answer to a fills run, refused or not.
fn fills_line((rule, numbers): &(i32, Vec<i32>)) -> Line {
    let answer = match Checked::new(numbers).refusals(&[(*rule, MOST[0])], &[]).first() {
        Some(&Refusal { number, place }) => fills_answer(number, place, &[]),
        None => fills_answer(0, 0, Theirs::new(numbers).fills(*rule)[0].1),
    };
    (question("f", &[*rule], numbers), answer)
}

/// The first has no segments, a few have many.
fn accepted_fills(place: usize, random: &mut Random) -> Line {
    let sizes = match place {
        0 => 0..=0,
        _ if place.is_multiple_of(41) => 60..=128,
        _ if place.is_multiple_of(5) => 20..=40,
        _ => 1..=16,
    };
    fills_line(&(RULES[place % RULES.len()], accepted(&SCATTERED, sizes, random)))
}

/// The answer to a clip run, refused or not.
fn clip_line((choices, numbers): &(Choices, Vec<i32>)) -> Line {
    let room = CLIP_EACH.map(|each| each * MOST_SEGMENTS);
    let output: Output<Clipped> = match Case::new(numbers).clip_refusals(*choices, room).first() {
        Some(&refusal) => Output::refused(refusal),
        None => Output::of_paths(&Theirs::new(numbers).clip(*choices)[0].1),
    };
    (question("c", &choices.list(), numbers), line(&output))
}

/// Every rule and filter in turn. The first has no segments, a few have many. In some anything goes; in others the
/// boundary makes a difference, and in the rest there are paths.
fn accepted_clip(place: usize, random: &mut Random) -> Line {
    let sizes = match place {
        0 => 0..=0,
        _ if place.is_multiple_of(29) => 20..=40,
        _ if place.is_multiple_of(9) => 7..=14,
        _ => 1..=6,
    };
    let [rule, invert, boundary] = [place % 4, place / 4 % 2, place / 8 % 2].map(|choice| choice as i32);
    let choices = Choices { rule, invert, boundary };
    loop {
        let generators: &[Generator] = if place.is_multiple_of(5) { &SCATTERED } else { &JOINED };
        let numbers = accepted(generators, sizes.clone(), random);
        let mut theirs = Theirs::new(&numbers);
        let mut paths = |boundary| theirs.clip(Choices { boundary, ..choices }).remove(0).1;
        let (paths, other) = (paths(boundary), paths(1 - boundary));
        let wanted = if place % 3 == 1 { paths != other } else { !paths.is_empty() };
        if wanted || place.is_multiple_of(11) {
            return clip_line(&(choices, numbers));
        }
    }
}

fn refused_fills(place: usize, random: &mut Random) -> Line {
    let number = NUMBERS[place % NUMBERS.len()];
    let rule = |random: &mut Random| match number {
        10 => [random.pick(&unknown(MOST[0]))],
        _ => [RULES[place % RULES.len()]],
    };
    let ([rule], numbers) = refused(number, 1..=20, rule, random);
    fills_line(&(rule, numbers))
}

fn refused_clip(place: usize, random: &mut Random) -> Line {
    let number = NUMBERS[place % NUMBERS.len()];
    let choices = |random: &mut Random| match number {
        10 => known_but(place / NUMBERS.len() % MOST.len(), MOST, random),
        _ => known(MOST, random),
    };
    let (choices, numbers) = refused(number, 1..=6, choices, random);
    clip_line(&(choices.into(), numbers))
}

fn line<C: Counts>(output: &Output<C>) -> String {
    output.line().expect("its lists are whole")
}

/// The answer to a slice, refused or not.
fn slice_line((choices, numbers): &(SliceChoices, Vec<i32>)) -> Line {
    let room = SLICE_EACH.map(|each| each * MOST_SEGMENTS);
    let output = match Case::new(numbers).slice_refusals(*choices, room).first() {
        Some(&refusal) => Output::refused(refusal),
        None => {
            let (_, contours) = Theirs::new(numbers).slice(*choices).remove(0);
            Output::of_contours(&contours.expect("a move is found"))
        }
    };
    let SliceChoices { rule, direction, min_area } = *choices;
    (question("s", &[rule, direction, field(min_area)], numbers), line(&output))
}

/// Every rule and direction in turn. In some drawings there is a contour, in others a hole, a walk that does more than
/// go round once, or a contour that is too small.
fn accepted_slice(place: usize, random: &mut Random) -> Line {
    let sizes = if place.is_multiple_of(9) { 20..=40 } else { 3..=14 };
    let [rule, direction] = [place % 4, place / 4 % 2].map(|choice| choice as i32);
    loop {
        let numbers = accepted(&SCATTERED, sizes.clone(), random);
        let walks = Case::new(&numbers).walks(rule).expect("a move is found");
        let loops: Vec<_> = walks.iter().flat_map(|walk| &walk.loops.all).collect();
        let min_area = if place % 3 == 2 { stored_area(&areas(&loops, random), random) } else { 0 };
        let choices = SliceChoices { rule, direction, min_area };
        let (_, contours) = Theirs::new(&numbers).slice(choices).remove(0);
        let contours = contours.expect("a move is found");
        let wanted = match place % 3 {
            0 => contours.iter().any(|contour| contour.role == 1),
            1 => walks.iter().any(|walk| walk.returns || walk.loops.all.len() > 1) && !contours.is_empty(),
            _ => contours.len() < loops.len() && (!contours.is_empty() || place.is_multiple_of(5)),
        };
        if wanted {
            return slice_line(&(choices, numbers));
        }
    }
}

fn refused_slice(place: usize, random: &mut Random) -> Line {
    let number = NUMBERS[place % NUMBERS.len()];
    let choices = |random: &mut Random| match number {
        10 => known_but(place / NUMBERS.len() % SLICE_MOST.len(), SLICE_MOST, random),
        _ => known(SLICE_MOST, random),
    };
    let (choices, numbers) = refused(number, 1..=6, choices, random);
    slice_line(&(SliceChoices::new(choices, 0), numbers))
}

/// The answer to a split, refused or not.
fn split_line((min_area, numbers): &(u64, Vec<i32>)) -> Line {
    let output: Output<Looped> = match of_split(numbers, [2 * MOST_POINTS, MOST_POINTS, 0]) {
        Some(refusal) => Output::refused(refusal),
        None => Output::of_paths(&theirs::split(&pairs(numbers), *min_area)[0].1),
    };
    (question("l", &[field(*min_area)], numbers), line(&output))
}

/// With loops; in every third one some area is asked for.
fn accepted_split(place: usize, random: &mut Random) -> Line {
    let numbers = short_list(0, random);
    let loops = Loops::of(&pairs(&numbers)).all;
    let areas = areas(&loops.iter().collect::<Vec<_>>(), random);
    let min_area = if place.is_multiple_of(3) { stored_area(&areas, random) } else { 0 };
    if loops.is_empty() && !place.is_multiple_of(13) {
        return accepted_split(place, random);
    }
    split_line(&(min_area, numbers))
}

fn refused_split(place: usize, random: &mut Random) -> Line {
    split_line(&(0, short_list([2, 3][place % 2], random)))
}

/// A list of points with this refusal's number, 0 for none.
fn short_list(number: u64, random: &mut Random) -> Vec<i32> {
    loop {
        let kind = &point_lists::KINDS[random.below(point_lists::KINDS.len())];
        let numbers = kind.numbers(random);
        let refused = of_split(&numbers, [2 * MOST_POINTS, MOST_POINTS, 0]);
        if numbers.len() <= MOST_COORDINATES && refused.map_or(0, |refusal| refusal.number) == number {
            return numbers;
        }
    }
}

/// The answer of a function that writes or moves a text, refused or not.
fn text_line((asked, lent): &(Asked, usize)) -> Line {
    stored_texts::line(asked, *lent)
}

/// Each function in turn, with a list exactly long enough or longer.
fn accepted_text(place: usize, random: &mut Random) -> Line {
    let numbers = accepted(&SCATTERED, 1..=8, random);
    let choices = Choices::known(random);
    let old = without_lots(comma_text(&numbers, choices).as_bytes());
    let asked = match place % 3 {
        0 => Asked::Write(numbers, choices),
        1 => Asked::OldToNew(old),
        _ => Asked::NewToOld(with_lots(&old)),
    };
    let needed = asked.due().needed();
    text_line(&(asked, needed + place % 2))
}

/// One of the areas that a field of a line can hold.
fn stored_area(areas: &[u64], random: &mut Random) -> u64 {
    let small: Vec<_> = areas.iter().copied().filter(|&area| i32::try_from(area).is_ok()).collect();
    random.pick(&small)
}

fn field(min_area: u64) -> i32 {
    min_area.try_into().expect("stored areas are small")
}

/// Choices and a damaged drawing that are refused with this number.
fn refused<const N: usize>(
    number: u64,
    sizes: RangeInclusive<usize>,
    choose: impl Fn(&mut Random) -> [i32; N],
    random: &mut Random,
) -> ([i32; N], Vec<i32>) {
    loop {
        let good = accepted(&SCATTERED, sizes.clone(), random);
        let numbers = damaged(&good, random);
        let choices = choose(random);
        let limited: Vec<_> = choices.iter().copied().zip(MOST).collect();
        let due = Checked::new(&numbers).refusals(&limited, &[]).first().map(|refusal| refusal.number);
        if due == Some(number) && numbers.len() <= MOST_NUMBERS {
            return (choices, numbers);
        }
    }
}
