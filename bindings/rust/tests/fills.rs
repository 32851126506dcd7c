mod common;

use common::A;
use jumperclay::{fills, fills_into, raw, Reason, Refusal, Rule, MOST_SEGMENTS, WIDTH};

fn refused(drawing: &[i32], reason: Reason, place: usize, sentence: &str) {
    let refusal = fills(drawing, Rule::NonZero).unwrap_err();
    assert_eq!(refusal, Refusal { reason, place });
    assert_eq!(refusal.to_string(), sentence);
}

/// The places of a segment's numbers.
const AX: usize = 0;
const BY: usize = 3;
const WINDING: usize = 4;
const LINE_BITS: usize = 5;
const LOT: usize = 6;

/// Case A with one number of a segment changed.
fn changed(segment: usize, at: usize, number: i32) -> [i32; A.len()] {
    let mut drawing = A;
    drawing[segment * WIDTH + at] = number;
    drawing
}

#[test]
fn case_a_by_every_rule() {
    assert_eq!(fills(&A, Rule::EvenOdd).unwrap(), [4, 2, 1, 2, 7, 2, 1, 1, 4]);
    assert_eq!(fills(&A, Rule::NonZero).unwrap(), [4, 2, 1, 2, 7, 2, 1, 1, 4]);
    assert_eq!(fills(&A, Rule::Positive).unwrap(), [4, 2, 1, 2, 7, 2, 1, 1, 4]);
    assert_eq!(fills(&A, Rule::Negative).unwrap(), [4, 0, 0, 0, 4, 0, 0, 0, 4]);
}

#[test]
fn no_segments() {
    assert_eq!(fills(&[], Rule::EvenOdd).unwrap(), []);
    assert_eq!(fills_into(&[], Rule::EvenOdd, &mut []), Ok(0));
}

#[test]
fn one_number_too_many_or_one_segment() {
    let sentence = "the length is no multiple of seven, or there are over 1,024 segments";
    refused(&A[..A.len() - 1], Reason::Length, 0, sentence);
    assert_eq!(fills(&A[..A.len() - 1], Rule::NonZero).unwrap_err().number(), 2);
    refused(&[0; WIDTH * (MOST_SEGMENTS + 1)], Reason::Length, 0, sentence);
}

#[test]
fn one_number_out_of_range() {
    refused(&changed(2, AX, 16_777_217), Reason::Coordinate, 2, "segment 2: a coordinate is out of range");
    refused(&changed(1, AX, -6), Reason::Order, 1, "segment 1: a is less than the previous segment's a");
    refused(&changed(1, BY, 0), Reason::Ends, 1, "segment 1: a is not less than b");
    refused(&changed(1, WINDING, -1001), Reason::Winding, 1, "segment 1: the winding is out of range");
    refused(&changed(8, LINE_BITS, 4), Reason::LineBits, 8, "segment 8: the line bits are out of range");
    refused(&changed(4, LOT, 10_000), Reason::Lot, 4, "segment 4: the lot is out of range");
}

#[test]
fn segments_together() {
    let meeting = [0, 0, 2, 0, 0, 0, 0, 1, 0, 1, 1, 0, 0, 0];
    refused(&meeting, Reason::Meeting, 0, "segment 0: it and a later segment meet wrongly");
    let one = [0, 0, 1, 0, 1, 0, 0];
    refused(&one, Reason::Balance, 0, "segment 0: the drawing does not balance at one of its ends");
}

#[test]
fn a_list_too_short_by_one_is_left_untouched() {
    let mut list = [99; 8];
    let refusal = fills_into(&A, Rule::NonZero, &mut list).unwrap_err();
    assert_eq!(refusal, Refusal { reason: Reason::ShortList, place: 0 });
    assert_eq!(refusal.to_string(), "a lent list is too short");
    assert_eq!(list, [99; 8]);
}

/// The safe functions pass known rules only.
#[test]
fn an_unknown_rule() {
    let mut list = [99; 9];
    for rule in [-1, 4, i32::MIN, i32::MAX] {
        let filled = raw::fills(&A, rule, &mut list);
        assert_eq!(filled, raw::Filled { number: 10, place: 0, count: 0 });
    }
    assert_eq!(list, [99; 9]);
}
