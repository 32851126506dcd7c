//! Random texts for the programs and the functions that take one, good and bad ones.

use crate::choices::{Choices, MOST};
use crate::damage;
use crate::damage_text::{damaged, ALPHABET};
use crate::drawing::{comma_text, commas, lines, MOST_SEGMENTS, WIDTH};
use crate::forms::{without_lots, OLD_WIDTH};
use crate::generate::{JOINED, SCATTERED};
use crate::grow::{grown, LONGEST, SHORTEST};
use crate::random::Random;
use crate::text::MOST_BYTES;

type Make = fn(&mut Random) -> Vec<u8>;

pub struct Kind {
    pub name: &'static str,
    pub make: Make,
    /// How many of a hundred texts.
    pub share: usize,
}

const fn kind(name: &'static str, make: Make, share: usize) -> Kind {
    Kind { name, make, share }
}

pub const KINDS: [Kind; 10] = [
    kind("drawing", of_drawing, 18),
    kind("damaged drawing", of_damaged_drawing, 18),
    kind("unknown choice", with_unknown_choice, 4),
    kind("damaged text", damaged_text, 40),
    kind("six or eight fields", with_other_fields, 2),
    kind("1,024 segments or more", with_many_segments, 2),
    kind("65,536 bytes or so", |random| with_many_bytes::<WIDTH>(of_drawing(random), random), 4),
    kind("long field or line", with_one_byte, 2),
    kind("any bytes of good texts", |random| bytes(random, |random| random.pick(ALPHABET)), 6),
    kind("any bytes", |random| bytes(random, |random| random.next() as u8), 4),
];

/// One more for the functions that move a text: lines without lots are added here.
pub const OLD_KIND: Kind =
    kind("65,536 bytes or so, old", |random| with_many_bytes::<OLD_WIDTH>(of_old_drawing(random), random), 4);

/// Good lines before bytes that may be bad.
const STARTS: [&str; 3] = ["", "1,0,1\n", "1,0,1\n0,0,1,0,0,1,7\n"];

pub fn drawing(random: &mut Random) -> Vec<i32> {
    let place = random.below(SCATTERED.len() + JOINED.len());
    let generator = SCATTERED.iter().chain(&JOINED).nth(place).expect("there are so many");
    generator.drawing(random).0
}

fn written(numbers: &[i32], choices: Choices) -> Vec<u8> {
    comma_text(numbers, choices).into_bytes()
}

fn of_drawing(random: &mut Random) -> Vec<u8> {
    written(&drawing(random), Choices::known(random))
}

fn of_old_drawing(random: &mut Random) -> Vec<u8> {
    without_lots(&of_drawing(random))
}

fn of_damaged_drawing(random: &mut Random) -> Vec<u8> {
    let numbers = damage::damaged(&drawing(random), random);
    written(&numbers, Choices::known(random))
}

fn with_unknown_choice(random: &mut Random) -> Vec<u8> {
    let place = random.below(MOST.len());
    written(&drawing(random), Choices::unknown(place, random))
}

fn damaged_text(random: &mut Random) -> Vec<u8> {
    let make = random.pick(&[of_drawing as Make, of_damaged_drawing]);
    damaged(&make(random), random)
}

/// Lines without the lot, as they were before there were lots, or with a field more.
fn with_other_fields(random: &mut Random) -> Vec<u8> {
    let numbers = drawing(random);
    let fields = random.pick(&[OLD_WIDTH, WIDTH + 1]);
    let line = |segment: &[i32]| segment.iter().copied().chain([0]).take(fields).collect::<Vec<_>>();
    let others: Vec<i32> = numbers.chunks(WIDTH).flat_map(line).collect();
    lines(&commas(&Choices::known(random).list()), &others, fields).into_bytes()
}

/// Lines are added up to the most segments or one more; then perhaps a bad one.
fn with_many_segments(random: &mut Random) -> Vec<u8> {
    let mut text = of_drawing(random);
    let lines = text.iter().filter(|&&byte| byte == b'\n').count();
    let most = 1 + MOST_SEGMENTS + random.pick(&[0, 1, 1]);
    let zeros = commas(&[0; WIDTH]);
    text.extend(format!("{zeros}\n").repeat(most.saturating_sub(lines)).as_bytes());
    text.extend(random.pick(&["", "\n", "0\n", &zeros]).as_bytes());
    text
}

/// Lines are added up to the most bytes or a few more or less; then half of the texts are damaged.
fn with_many_bytes<const FIELDS: usize>(text: Vec<u8>, random: &mut Random) -> Vec<u8> {
    let bytes = random.pick(&[MOST_BYTES - 1, MOST_BYTES, MOST_BYTES, MOST_BYTES + 1, MOST_BYTES + 1, 4 * MOST_BYTES]);
    let each = FIELDS * random.pick(&[SHORTEST, 8, LONGEST]);
    let long = grown::<FIELDS>(text, bytes, each);
    if random.chance(50) {
        damaged(&long, random)
    } else {
        long
    }
}

/// The same byte again and again.
fn with_one_byte(random: &mut Random) -> Vec<u8> {
    let start = random.pick(&STARTS);
    let few = 10 + random.below(100);
    let bytes = random.pick(&[few, MOST_BYTES - start.len(), MOST_BYTES]);
    let byte = random.pick(b"09,-\n ");
    [start.as_bytes(), &vec![byte; bytes]].concat()
}

/// A few bytes, each for itself.
fn bytes(random: &mut Random, byte: fn(&mut Random) -> u8) -> Vec<u8> {
    let start = random.pick(&STARTS);
    let more = random.below(40);
    start.bytes().chain((0..more).map(|_| byte(random))).collect()
}
