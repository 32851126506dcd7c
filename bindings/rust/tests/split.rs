use jumperclay::{split, split_into, ContourTotals, Point, Reason, Refusal};

const A: Point = (0, 0);
const B: Point = (1, 0);
const C: Point = (1, 1);
const D: Point = (0, 1);
const E: Point = (5, 5);
const F: Point = (6, 5);
const G: Point = (6, 6);

fn flat(points: &[Point]) -> Vec<i32> {
    points.iter().flat_map(|&(x, y)| [x, y]).collect()
}

fn loops<const N: usize>(points: &[Point], loops: [&[Point]; N]) {
    assert_eq!(split(&flat(points), 0).unwrap(), loops);
}

fn refused(points: &[i32], reason: Reason, place: usize, sentence: &str) {
    let refusal = split(points, 0).unwrap_err();
    assert_eq!(refusal, Refusal { reason, place });
    assert_eq!(refusal.to_string(), sentence);
}

#[test]
fn what_lies_between_is_a_loop() {
    loops(&[A, B, C, A, D], [&[B, C, A]]);
    loops(&[A, B, A, C, D], [&[A, C, D]]);
    loops(&[A, B, C, D], [&[A, B, C, D]]);
    loops(&[A, B], []);
    loops(&[], []);
}

/// What was seen first stays where it was seen, also after a cut.
#[test]
fn sightings_stay() {
    loops(&[A, B, C, A, E, F, B, G], [&[B, C, A], &[A, E, G]]);
    loops(&[A, A], []);
    loops(&[A, B, B], [&[A, B, B]]);
    loops(&[A, A, B], [&[A, A, B]]);
}

#[test]
fn an_area_is_halved_downward() {
    let triangle = flat(&[(4, 0), (4, 4), (0, 0)]);
    assert_eq!(split(&triangle, 8).unwrap(), [[(4, 0), (4, 4), (0, 0)]]);
    assert!(split(&triangle, 9).unwrap().is_empty());
    let smallest = flat(&[A, B, C]);
    assert!(split(&smallest, 1).unwrap().is_empty());
    assert_eq!(split(&smallest, 0).unwrap(), [[A, B, C]]);
}

#[test]
fn turned_down() {
    let length = "the length is odd, or there are over 2,048 points";
    refused(&[0; 3], Reason::PointsLength, 0, length);
    refused(&[0; 2 * 2049], Reason::PointsLength, 0, length);
    assert!(split(&[0; 2 * 2048], 1).unwrap().is_empty());
    assert!(split(&[0, 0, 16_777_216, -16_777_216], 0).unwrap().is_empty());
    let coordinate = "point 1: a coordinate is out of range";
    refused(&[0, 0, 16_777_217, 0], Reason::PointCoordinate, 1, coordinate);
    refused(&[0, 0, 0, i32::MIN], Reason::PointCoordinate, 1, coordinate);
}

#[test]
fn lists_too_short_by_one_are_left_untouched() {
    let points = flat(&[A, B, C]);
    for (out, lengths) in [(5, 3), (6, 2)] {
        let (mut out, mut lengths) = (vec![99; out], vec![99; lengths]);
        let refusal = split_into(&points, 0, &mut out, &mut lengths).unwrap_err();
        assert_eq!(refusal, Refusal { reason: Reason::ShortList, place: 0 });
        assert!(out.iter().all(|&entry| entry == 99) && lengths.iter().all(|&entry| entry == 99));
    }
}

#[test]
fn entries_past_the_answer_stay() {
    let (mut out, mut lengths) = ([99; 12], [99; 5]);
    let totals = split_into(&flat(&[A, B, C, A, D]), 0, &mut out, &mut lengths);
    assert_eq!(totals, Ok(ContourTotals { contours: 1, points: 3 }));
    assert_eq!(out, [1, 0, 1, 1, 0, 0, 99, 99, 99, 99, 99, 99]);
    assert_eq!(lengths, [3, 99, 99, 99, 99]);
}
