//! The lot of a segment: it is looked at directly after the line bits, and no answer depends on it.

mod common;

use common::A;
use jumperclay::{clip, fills, read, slice, ClipRule, Direction, Reason, Refusal, Rule, WIDTH};

const INSIDE: ClipRule = ClipRule { invert: false, boundary_included: true };
const OUTSIDE: ClipRule = ClipRule { invert: true, boundary_included: true };

/// The places of a segment's numbers.
const AY: usize = 1;
const BX: usize = 2;
const WINDING: usize = 4;
const LINE_BITS: usize = 5;
const LOT: usize = 6;

/// Case A with these numbers of its segments changed: the segment, which of its numbers, and to what.
fn changed(changes: &[(usize, usize, i32)]) -> [i32; A.len()] {
    let mut drawing = A;
    changes.iter().for_each(|&(segment, at, number)| drawing[segment * WIDTH + at] = number);
    drawing
}

/// Every run refuses the drawing alike.
fn refused(changes: &[(usize, usize, i32)], reason: Reason, place: usize) {
    let drawing = changed(changes);
    let due = Refusal { reason, place };
    assert_eq!(fills(&drawing, Rule::NonZero), Err(due));
    assert_eq!(clip(&drawing, Rule::NonZero, INSIDE), Err(due));
    assert_eq!(slice(&drawing, Rule::NonZero, Direction::Clockwise, 0), Err(due));
}

#[test]
fn no_answer_depends_on_lots() {
    let lots: [fn(usize) -> i32; 3] = [|_| 9999, |segment| segment as i32, |segment| 9999 - 1000 * segment as i32];
    for lot in lots {
        let drawing = changed(&[0, 1, 2, 3, 4, 5, 6, 7, 8].map(|segment| (segment, LOT, lot(segment))));
        for rule in [Rule::EvenOdd, Rule::NonZero, Rule::Positive, Rule::Negative] {
            assert_eq!(fills(&drawing, rule), fills(&A, rule));
            for clip_rule in [INSIDE, OUTSIDE] {
                assert!(clip(&A, rule, clip_rule).is_ok());
                assert_eq!(clip(&drawing, rule, clip_rule), clip(&A, rule, clip_rule));
            }
            for direction in [Direction::CounterClockwise, Direction::Clockwise] {
                assert_eq!(slice(&drawing, rule, direction, 0), slice(&A, rule, direction, 0));
            }
        }
    }
}

#[test]
fn a_lot_out_of_range_at_any_place() {
    for place in [0, 4, 8] {
        for lot in [-1, 10_000, i32::MIN, i32::MAX] {
            refused(&[(place, LOT, lot)], Reason::Lot, place);
        }
    }
}

/// The faults of a segment come in the order 3, 4, 5, 6, 13, 7.
#[test]
fn between_line_bits_and_order() {
    refused(&[(4, BX, 16_777_217), (4, LOT, -1)], Reason::Coordinate, 4);
    refused(&[(4, BX, -1), (4, LOT, -1)], Reason::Ends, 4);
    refused(&[(4, WINDING, 1001), (4, LOT, 10_000)], Reason::Winding, 4);
    refused(&[(4, LINE_BITS, 4), (4, LOT, 10_000)], Reason::LineBits, 4);
    refused(&[(4, LOT, 10_000), (4, AY, 4)], Reason::Lot, 4);
    refused(&[(4, AY, 4)], Reason::Order, 4);
}

/// Before 8 and 9, and before what is wrong at a higher place.
#[test]
fn the_lower_place_first() {
    refused(&[(3, LOT, -1), (4, BX, 16_777_217)], Reason::Lot, 3);
    refused(&[(3, BX, 16_777_217), (4, LOT, -1)], Reason::Coordinate, 3);
    refused(&[(4, AY, 4), (5, LOT, -1)], Reason::Order, 4);
    refused(&[(8, LOT, -1), (0, BX, 1)], Reason::Lot, 8);
    refused(&[(8, LOT, -1), (0, WINDING, 1)], Reason::Lot, 8);
}

#[test]
fn of_a_text() {
    let text = read(include_bytes!("../../../examples/lots")).unwrap();
    let lots: Vec<i32> = text.segments.chunks(WIDTH).map(|segment| segment[LOT]).collect();
    assert_eq!(lots, [12, 0, 0, 0, 7, 0, 0, 0, 0]);
    assert_eq!(text.clip(), clip(&A, Rule::NonZero, INSIDE));
    let text = read(b"1,1,1\n0,0,1,0,0,1,9999\n1,0,2,0,0,1,10000\n").unwrap();
    let refusal = text.clip().unwrap_err();
    assert_eq!((refusal, refusal.number()), (Refusal { reason: Reason::Lot, place: 1 }, 13));
}
