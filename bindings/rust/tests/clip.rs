mod common;

use common::A;
use jumperclay::{clip, clip_into, raw, Clip, ClipRule, Point, Reason, Refusal, Rule, Totals, MOST_SEGMENTS, WIDTH};

const INSIDE: ClipRule = ClipRule { invert: false, boundary_included: true };
const OUTSIDE: ClipRule = ClipRule { invert: true, boundary_included: true };

/// Checks the paths, and that the totals are theirs.
fn clipped<const N: usize>(drawing: &[i32], clip_rule: ClipRule, paths: [&[Point]; N], travel: u64) {
    let points: usize = paths.iter().map(|path| path.len()).sum();
    let totals = Totals { paths: N, points, steps: points - N, travel };
    assert_eq!(clip(drawing, Rule::NonZero, clip_rule), Ok(Clip { paths: paths.map(<[_]>::to_vec).into(), totals }));
}

#[test]
fn case_a() {
    clipped(&A, INSIDE, [&[(0, 5), (10, 5)]], 10);
    clipped(&A, OUTSIDE, [&[(-5, 5), (0, 5)], &[(10, 5), (15, 5)]], 10);
}

/// Case A without the ends of the cut, and with its square drawn as lines too.
#[test]
fn lines_on_the_boundary() {
    let mut drawing = A;
    drawing.chunks_exact_mut(WIDTH).filter(|segment| segment[4] != 0).for_each(|segment| segment[5] = 1);
    let drawing = &drawing[WIDTH..8 * WIDTH];
    let round = [(0, 0), (0, 5), (0, 10), (10, 10)];
    let rest = [(0, 0), (10, 0), (10, 5), (10, 10)];
    let cut = [(0, 5), (10, 5)];
    clipped(drawing, INSIDE, [&round, &rest, &cut], 50);
    clipped(drawing, ClipRule { boundary_included: false, ..INSIDE }, [&cut], 10);
    clipped(drawing, OUTSIDE, [], 0);
    clipped(drawing, ClipRule { boundary_included: false, ..OUTSIDE }, [&round, &rest], 40);
}

#[test]
fn a_line_drawn_both_ways() {
    clipped(&[0, 0, 1, 0, 0, 3, 0], OUTSIDE, [&[(0, 0), (1, 0), (0, 0)]], 2);
}

#[test]
fn a_path_drawn_backward() {
    clipped(&[0, 0, 1, 0, 0, 2, 0, 1, 0, 2, 0, 0, 2, 0], OUTSIDE, [&[(2, 0), (1, 0), (0, 0)]], 2);
}

#[test]
fn two_paths() {
    let drawing = [0, 0, 2, -1, 0, 1, 0, 0, 0, 2, 1, 0, 2, 0];
    clipped(&drawing, OUTSIDE, [&[(0, 0), (2, -1)], &[(2, 1), (0, 0)]], 6);
}

#[test]
fn no_segments() {
    clipped(&[], INSIDE, [], 0);
    assert_eq!(clip_into(&[], Rule::EvenOdd, OUTSIDE, &mut [], &mut []).unwrap().paths, 0);
}

#[test]
fn refused() {
    let meeting = [0, 0, 2, 0, 0, 1, 0, 1, 0, 1, 1, 0, 1, 0];
    let refusal = clip(&meeting, Rule::NonZero, INSIDE).unwrap_err();
    assert_eq!(refusal, Refusal { reason: Reason::Meeting, place: 0 });
    assert_eq!(clip(&[0; WIDTH * (MOST_SEGMENTS + 1)], Rule::NonZero, INSIDE).unwrap_err().reason, Reason::Length);
}

#[test]
fn lists_too_short_by_one_are_left_untouched() {
    for (points, lengths) in [(71, 18), (72, 17)] {
        let (mut points, mut lengths) = (vec![99; points], vec![99; lengths]);
        let refusal = clip_into(&A, Rule::NonZero, INSIDE, &mut points, &mut lengths).unwrap_err();
        assert_eq!(refusal, Refusal { reason: Reason::ShortList, place: 0 });
        assert!(points.iter().all(|&entry| entry == 99) && lengths.iter().all(|&entry| entry == 99));
    }
}

/// The safe functions pass known choices only.
#[test]
fn an_unknown_choice() {
    let (mut points, mut lengths) = ([99; 72], [99; 18]);
    for [rule, invert, boundary] in [[4, 0, 1], [1, 2, 1], [1, 0, -1]] {
        let clipped = raw::clip(&A, rule, invert, boundary, &mut points, &mut lengths);
        let due = raw::Clipped { number: 10, place: 0, paths: 0, points: 0, steps: 0, travel: 0 };
        assert_eq!(clipped, due);
    }
    assert_eq!((points, lengths), ([99; 72], [99; 18]));
}
