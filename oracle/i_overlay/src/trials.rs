//! Document 01's trial drawings: they show that the stand-ins are what it means.

use crate::core::fill_rule::FillRule;
use crate::runs::WIDTH;
use crate::string::clip::{ClipRule, IntClip};
use crate::{Contour, Drawing, Scan, split};
use i_float::int::point::IntPoint;

const A: [i32; 9 * WIDTH] = [
    -5, 5, 0, 5, 0, 1, 0, 0, 0, 0, 5, -1, 0, 0, 0, 0, 10, 0, 1, 0, 0, 0, 5, 0, 10, -1, 0, 0, 0, 5, 10, 5, 0, 1, 0, 0,
    10, 10, 10, -1, 0, 0, 10, 0, 10, 5, 1, 0, 0, 10, 5, 10, 10, 1, 0, 0, 10, 5, 15, 5, 0, 1, 0,
];

fn outside(numbers: &[i32]) -> Vec<Vec<(i32, i32)>> {
    Drawing::new(numbers, Scan::Chosen).clip(1, true, true)
}

#[test]
fn fills() {
    for scan in [Scan::Chosen, Scan::List, Scan::Tree] {
        assert_eq!(Drawing::new(&A, scan).fills(1), [4, 2, 1, 2, 7, 2, 1, 1, 4]);
    }
}

#[test]
fn clips() {
    let mut a = Drawing::new(&A, Scan::Chosen);
    assert_eq!(a.clip(1, false, true), [[(0, 5), (10, 5)]]);
    assert_eq!(a.clip(1, true, true), [[(-5, 5), (0, 5)], [(10, 5), (15, 5)]]);
    assert_eq!(outside(&[0, 0, 1, 0, 0, 3, 0]), [[(0, 0), (1, 0), (0, 0)]]);
    assert_eq!(outside(&[0, 0, 1, 0, 0, 2, 0, 1, 0, 2, 0, 0, 2, 0]), [[(2, 0), (1, 0), (0, 0)]]);
    assert_eq!(outside(&[0, 0, 2, -1, 0, 1, 0, 0, 0, 2, 1, 0, 2, 0]), [[(0, 0), (2, -1)], [(2, 1), (0, 0)]]);
    assert!(outside(&[]).is_empty());
}

#[test]
fn slices() {
    let whole = |points| Contour { points, role: 0 };
    let expected = [whole(vec![(10, 0), (10, 5), (0, 5), (0, 0)]), whole(vec![(10, 5), (10, 10), (0, 10), (0, 5)])];
    assert_eq!(Drawing::new(&A, Scan::Chosen).slice(1, false, 0).unwrap(), expected);
    assert_eq!(Drawing::new(&A, Scan::Chosen).slice(1, false, 50).unwrap(), expected);
    assert!(Drawing::new(&A, Scan::Chosen).slice(1, false, 51).unwrap().is_empty());
}

/// Outer contours run the way asked for, holes the other way.
#[test]
fn slices_with_a_hole() {
    let outline = [0, 0, 0, 9, -1, 0, 0, 0, 0, 9, 0, 1, 0, 0, 0, 9, 9, 9, -1, 0, 0];
    let hole = [3, 3, 3, 6, 1, 0, 0, 3, 3, 6, 3, -1, 0, 0, 3, 6, 6, 6, 1, 0, 0, 6, 3, 6, 6, -1, 0, 0];
    let frame = [&outline[..], &hole, &[9, 0, 9, 9, 1, 0, 0]].concat();
    let contours = |clockwise| Drawing::new(&frame, Scan::Chosen).slice(1, clockwise, 0).unwrap();
    let mut expected = [
        Contour { points: vec![(9, 0), (9, 9), (0, 9), (0, 0)], role: 0 },
        Contour { points: vec![(3, 3), (3, 6), (6, 6), (6, 3)], role: 1 },
    ];
    assert_eq!(contours(false), expected);
    expected.iter_mut().for_each(|contour| contour.points.reverse());
    assert_eq!(contours(true), expected);
}

#[test]
fn loops() {
    let [a, b, c, d] = [(0, 0), (1, 0), (1, 1), (0, 1)];
    let [e, f, g] = [(5, 5), (6, 5), (6, 6)];
    assert_eq!(split(&[a, b, c, a, d], 0), [[b, c, a]]);
    assert_eq!(split(&[a, b, a, c, d], 0), [[a, c, d]]);
    assert_eq!(split(&[a, b, c, a, e, f, b, g], 0), [[b, c, a], [a, e, g]]);
    assert!(split(&[a, a], 0).is_empty());
    assert_eq!(split(&[a, b, b], 0), [[a, b, b]]);
    assert_eq!(split(&[a, a, b], 0), [[a, a, b]]);
    let triangle = [(4, 0), (4, 4), (0, 0)];
    assert_eq!(split(&triangle, 8), [triangle]);
    assert!(split(&triangle, 9).is_empty());
}

/// The crate's own front door, over shapes that need no splitting.
#[test]
fn shapes_and_lines() {
    let point = |x, y| IntPoint::new(x, y);
    let square = [point(0, 0), point(4, 0), point(4, 4), point(0, 4)];
    let rule = ClipRule { invert: false, boundary_included: false };
    let line = [point(3, 1), point(1, 2)];
    assert_eq!(square[..].clip_line(line, FillRule::NonZero, rule), [line]);
    let path = vec![point(1, 1), point(2, 3), point(3, 1)];
    assert_eq!(square[..].clip_path(&path, FillRule::NonZero, rule), [path]);
}
