//! Each call on a thread with just as much stack as `overlay.h` says that it needs.

use jumperclay::{
    clip, fills, new_to_old, old_to_new, read, slice, split, write, Choices, ClipRule, Direction, Rule, MOST_SEGMENTS,
    WIDTH,
};
use std::thread;

/// Bytes, as said in `overlay.h`: of a small drawing, with up to 128 segments, and of any.
const FILLS: [usize; 2] = [26 << 10, 54 << 10];
const CLIP: [usize; 2] = [29 << 10, 57 << 10];
const SLICE: [usize; 2] = [73 << 10, 78 << 10];
const SPLIT: [usize; 2] = [45 << 10; 2];
const READ: usize = 1 << 10;
const WRITE: [usize; 2] = [24 << 10, 52 << 10];
const MOVE: [usize; 2] = [76 << 10, 104 << 10];
/// What the thread and the safe function around the call take for themselves.
const BESIDE: usize = 8 << 10;

/// Segments of one square.
const EACH: usize = 4;
/// Of a drawing.
const SIZES: [usize; 2] = [128, MOST_SEGMENTS];

/// Squares side by side, each with a line along its bottom, of a lot of its own.
fn squares(segments: usize) -> Vec<i32> {
    let square = |x: i32| {
        [[x, 0, x, 2, -1, 0, 0], [x, 0, x + 2, 0, 1, 1, x], [x, 2, x + 2, 2, -1, 0, 0], [x + 2, 0, x + 2, 2, 1, 0, 0]]
            .concat()
    };
    (0..segments / EACH).flat_map(|k| square(3 * k as i32)).collect()
}

/// The same with one segment twice, so that two meet wrongly.
fn meeting(segments: usize) -> Vec<i32> {
    let mut drawing = squares(segments);
    let last = drawing.len() - WIDTH;
    drawing.copy_within(last - WIDTH..last, last);
    drawing
}

fn on_a_thread<T: Send + 'static>(stack: usize, call: impl FnOnce() -> T + Send + 'static) -> T {
    let thread = thread::Builder::new().stack_size(stack + BESIDE).spawn(call);
    thread.expect("a thread").join().expect("the call returns")
}

#[test]
fn drawings() {
    for (size, segments) in SIZES.into_iter().enumerate() {
        for (drawing, is_accepted) in [(squares(segments), true), (meeting(segments), false)] {
            let numbers = drawing.clone();
            let filled = on_a_thread(FILLS[size], move || fills(&numbers, Rule::NonZero).is_ok());
            let numbers = drawing.clone();
            let inside = ClipRule { invert: false, boundary_included: true };
            let clipped = on_a_thread(CLIP[size], move || clip(&numbers, Rule::NonZero, inside).is_ok());
            let sliced = on_a_thread(SLICE[size], move || {
                slice(&drawing, Rule::NonZero, Direction::CounterClockwise, 0).is_ok()
            });
            assert_eq!([filled, clipped, sliced], [is_accepted; 3]);
        }
    }
}

#[test]
fn points() {
    for (size, segments) in SIZES.into_iter().enumerate() {
        let points: Vec<i32> = (0..2 * segments as i32).flat_map(|k| [k % 7, k % 11]).collect();
        assert!(on_a_thread(SPLIT[size], move || split(&points, 0).is_ok()));
    }
}

/// The text of a drawing whose lots are 0, written, read, and moved there and back.
#[test]
fn texts() {
    let choices = Choices { rule: 1, invert: 0, boundary: 1 };
    for (size, segments) in SIZES.into_iter().enumerate() {
        let mut drawing = squares(segments);
        drawing.iter_mut().skip(WIDTH - 1).step_by(WIDTH).for_each(|lot| *lot = 0);
        let numbers = drawing.clone();
        let text = on_a_thread(WRITE[size], move || write(&numbers, choices)).expect("the drawing is accepted");
        let bytes = text.clone();
        let read = on_a_thread(READ, move || read(&bytes)).expect("the text is good");
        assert_eq!((read.segments, read.choices), (drawing, choices));
        let bytes = text.clone();
        let old = on_a_thread(MOVE[size], move || new_to_old(&bytes)).expect("no lot is lost");
        assert_eq!(on_a_thread(MOVE[size], move || old_to_new(&old)), Ok(text));
    }
}
