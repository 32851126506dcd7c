mod common;

use common::A;
use jumperclay::{
    raw, slice, slice_into, Contour, ContourTotals, Direction, Point, Reason, Refusal, Rule, MOST_SEGMENTS, WIDTH,
};

/// A square with a square hole.
const FRAME: [i32; 8 * WIDTH] = [
    0, 0, 0, 9, -1, 0, 0, 0, 0, 9, 0, 1, 0, 0, 0, 9, 9, 9, -1, 0, 0, 3, 3, 3, 6, 1, 0, 0, 3, 3, 6, 3, -1, 0, 0, 3, 6,
    6, 6, 1, 0, 0, 6, 3, 6, 6, -1, 0, 0, 9, 0, 9, 9, 1, 0, 0,
];

fn outer(points: &[Point]) -> Contour {
    Contour { points: points.into(), is_hole: false }
}

fn hole(points: &[Point]) -> Contour {
    Contour { points: points.into(), is_hole: true }
}

fn refused(drawing: &[i32], reason: Reason, place: usize) {
    let refusal = slice(drawing, Rule::NonZero, Direction::CounterClockwise, 0).unwrap_err();
    assert_eq!(refusal, Refusal { reason, place });
}

#[test]
fn case_a() {
    let lower = [(10, 0), (10, 5), (0, 5), (0, 0)];
    let upper = [(10, 5), (10, 10), (0, 10), (0, 5)];
    let counter_clockwise = slice(&A, Rule::NonZero, Direction::CounterClockwise, 0).unwrap();
    assert_eq!(counter_clockwise, [outer(&lower), outer(&upper)]);
    let reversed = [lower, upper].map(|points| outer(&points.into_iter().rev().collect::<Vec<_>>()));
    assert_eq!(slice(&A, Rule::NonZero, Direction::Clockwise, 0).unwrap(), reversed);
    assert_eq!(slice(&A, Rule::Negative, Direction::Clockwise, 0).unwrap(), []);
}

#[test]
fn a_hole_runs_the_other_way() {
    let around = [(9, 0), (9, 9), (0, 9), (0, 0)];
    let inside = [(3, 3), (3, 6), (6, 6), (6, 3)];
    let sliced = |min_area| slice(&FRAME, Rule::NonZero, Direction::CounterClockwise, min_area).unwrap();
    assert_eq!(sliced(0), [outer(&around), hole(&inside)]);
    assert_eq!(sliced(9), [outer(&around), hole(&inside)]);
    assert_eq!(sliced(10), [outer(&around)]);
    assert_eq!(sliced(u64::MAX), []);
}

#[test]
fn no_segments() {
    assert_eq!(slice(&[], Rule::NonZero, Direction::Clockwise, 0).unwrap(), []);
    let totals = slice_into(&[], Rule::NonZero, Direction::Clockwise, 0, &mut [], &mut [], &mut []);
    assert_eq!(totals, Ok(ContourTotals { contours: 0, points: 0 }));
}

#[test]
fn turned_down() {
    refused(&[0; WIDTH * (MOST_SEGMENTS + 1)], Reason::Length, 0);
    refused(&[0, 0, 2, 0, 0, 1, 0, 1, 0, 1, 1, 0, 1, 0], Reason::Meeting, 0);
    refused(&[0, 0, 1, 0, 0, 0, 0, 1, 0, 16_777_217, 0, 0, 0, 0], Reason::Coordinate, 1);
}

#[test]
fn lists_too_short_by_one_are_left_untouched() {
    for (points, lengths, roles) in [(35, 18, 18), (36, 17, 18), (36, 18, 17)] {
        let (mut points, mut lengths, mut roles) = (vec![99; points], vec![99; lengths], vec![99; roles]);
        let direction = Direction::CounterClockwise;
        let refusal = slice_into(&A, Rule::NonZero, direction, 0, &mut points, &mut lengths, &mut roles).unwrap_err();
        assert_eq!(refusal, Refusal { reason: Reason::ShortList, place: 0 });
        assert!(points.iter().all(|&entry| entry == 99));
        assert!(lengths.iter().all(|&entry| entry == 99) && roles.iter().all(|&entry| entry == 99));
    }
}

/// The safe functions pass known choices only.
#[test]
fn an_unknown_choice() {
    let (mut points, mut lengths, mut roles) = ([99; 36], [99; 18], [99; 18]);
    for [rule, direction] in [[4, 0], [-1, 1], [1, 2], [1, -1]] {
        let sliced = raw::slice(&A, rule, direction, 0, &mut points, &mut lengths, &mut roles);
        assert_eq!(sliced, raw::Sliced { number: 10, place: 0, contours: 0, points: 0 });
    }
    assert_eq!((points, lengths, roles), ([99; 36], [99; 18], [99; 18]));
}
