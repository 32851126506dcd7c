//! How fast texts are read, written and moved, beside a plain copy of their bytes. Not a test.

use crate::bench::mesh;
use crate::choices::Choices;
use crate::drawing::{comma_text, numbers, read, Segment, MOST_SEGMENTS, WIDTH};
use crate::forms::without_lots;
use crate::lines;
use crate::prose::Checked;
use crate::random::Random;
use crate::refusals::KNOWN;
use crate::text::MOST_BYTES;
use crate::timing::least;
use jumperclay::raw;
use std::hint::black_box;

const SIZES: [usize; 2] = [10, MOST_SEGMENTS];

/// A side of the squares: a metre, so that coordinates have about as many digits as those of a dough sheet.
const SIDE: i32 = 100_000;

const NOTE: &str = "\
Texts of squares with a diagonal each and lines on most segments, without lots: the least of one call in microseconds,
and MB (1,000,000 bytes) of text a second. That is the text which comes in, and for write the one which goes out.
Writing and moving do every check, reading and the copy none.";

/// What there is of one drawing.
struct Texts {
    numbers: Vec<i32>,
    new: Vec<u8>,
    old: Vec<u8>,
}

/// What is lent.
struct Lists {
    numbers: Vec<i32>,
    text: Vec<u8>,
}

type Call = fn(&Texts, &mut Lists);

/// The text whose bytes are counted.
type Counted = fn(&Texts) -> &[u8];

const CALLS: [(&str, Counted, Call); 5] = [
    ("copy", |texts| &texts.new, |texts, lists| lists.text[..texts.new.len()].copy_from_slice(&texts.new)),
    ("read", |texts| &texts.new, |texts, lists| _ = black_box(raw::read(&texts.new, &mut lists.numbers))),
    ("write", |texts| &texts.new, write),
    ("old_to_new", |texts| &texts.old, |texts, lists| _ = black_box(raw::old_to_new(&texts.old, &mut lists.text))),
    ("new_to_old", |texts| &texts.new, |texts, lists| _ = black_box(raw::new_to_old(&texts.new, &mut lists.text))),
];

fn write(Texts { numbers, .. }: &Texts, lists: &mut Lists) {
    let Choices { rule, invert, boundary } = KNOWN;
    black_box(raw::write(numbers, rule, invert, boundary, &mut lists.text));
}

pub fn bench() -> bool {
    println!(
        "{NOTE}\n\n{:<12}{:>6}{:>8}{:>14}{:>12}{:>14}",
        "texts", "n", "bytes", "microseconds", "MB/second", "times a copy"
    );
    for n in SIZES {
        let texts = texts(n);
        let mut copy = None;
        for (name, counted, call) in CALLS {
            let bytes = counted(&texts).len();
            let time = timed(&texts, n, call);
            // A byte in a microsecond is a million in a second.
            let speed = bytes as f64 / time;
            let times = time / *copy.get_or_insert(time);
            println!("{name:<12}{n:>6}{bytes:>8}{time:>14.3}{speed:>12.1}{times:>14.1}");
        }
    }
    true
}

fn timed(texts: &Texts, n: usize, call: Call) -> f64 {
    let mut lists = Lists { numbers: vec![0; MOST_SEGMENTS * WIDTH], text: vec![0; MOST_BYTES] };
    let at_once = 16 * (MOST_SEGMENTS / n) as u32;
    least(at_once, || {
        call(black_box(texts), &mut lists);
        black_box(&mut lists);
    })
}

fn texts(n: usize) -> Texts {
    let random = &mut Random::new(&[n as u64]);
    let plane = mesh(random, n).moved(|(x, y)| (SIDE * x, SIDE * y));
    let segments = read(&plane.drawing(lines::mixed, random));
    let numbers = numbers(&segments.iter().map(|segment| Segment { lot: 0, ..*segment }).collect::<Vec<_>>());
    assert_eq!(Checked::new(&numbers).refused, None);
    let new = comma_text(&numbers, KNOWN).into_bytes();
    Texts { numbers, old: without_lots(&new), new }
}
