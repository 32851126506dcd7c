use jumperclay::{Reason, Refusal};

/// Every reason, its number and its sentence at place 7.
const REASONS: [(Reason, u64, &str); 17] = [
    (Reason::Line, 1, "line 7: it is malformed"),
    (Reason::TextLength, 1, "the text has over 65,536 bytes"),
    (Reason::Length, 2, "the length is no multiple of seven, or there are over 1,024 segments"),
    (Reason::PointsLength, 2, "the length is odd, or there are over 2,048 points"),
    (Reason::Coordinate, 3, "segment 7: a coordinate is out of range"),
    (Reason::PointCoordinate, 3, "point 7: a coordinate is out of range"),
    (Reason::Ends, 4, "segment 7: a is not less than b"),
    (Reason::Winding, 5, "segment 7: the winding is out of range"),
    (Reason::LineBits, 6, "segment 7: the line bits are out of range"),
    (Reason::Lot, 13, "segment 7: the lot is out of range"),
    (Reason::Order, 7, "segment 7: a is less than the previous segment's a"),
    (Reason::Meeting, 8, "segment 7: it and a later segment meet wrongly"),
    (Reason::Balance, 9, "segment 7: the drawing does not balance at one of its ends"),
    (Reason::LotLost, 14, "segment 7: the lot is not 0, and the old form has no lots"),
    (Reason::Choice, 10, "a choice is unknown"),
    (Reason::ShortList, 11, "a lent list is too short"),
    (Reason::NoMove, 12, "a walk around a piece finds no way on"),
];

#[test]
fn every_reason_has_its_number_and_sentence() {
    for (reason, number, sentence) in REASONS {
        let refusal = Refusal { reason, place: 7 };
        assert_eq!((refusal.number(), reason.number()), (number, number));
        assert_eq!(refusal.to_string(), sentence);
    }
}

/// Products pass it on with their own errors.
#[test]
fn a_refusal_is_an_error() {
    let passed: Box<dyn std::error::Error + Send + Sync> = Refusal { reason: Reason::Order, place: 3 }.into();
    assert_eq!(passed.to_string(), "segment 3: a is less than the previous segment's a");
}
