//! Texts written, and moved between the old form, six numbers a segment, and the new one, which has lots.

mod common;

use common::A;
use jumperclay::{
    new_to_old, new_to_old_into, old_to_new, old_to_new_into, raw, read, write, write_into, Choices, Reason, Refusal,
    MOST_BYTES, MOST_SEGMENTS, WIDTH,
};

const CHOICES: Choices = Choices { rule: 1, invert: 0, boundary: 1 };

/// How many numbers a segment has in each form.
const OLD: usize = 6;
const NEW: usize = WIDTH;

/// Drawings that are turned down, with lots in range.
const FAULTY: [(&[i32], Reason, usize); 7] = [
    (&[0, 0, 1, 0, 0, 1, 7, 1, 0, 16_777_217, 0, 0, 1, 7], Reason::Coordinate, 1),
    (&[0, 0, 1, 0, 0, 1, 7, 1, 0, 1, 0, 0, 1, 7], Reason::Ends, 1),
    (&[0, 0, 1, 0, 0, 1, 7, 1, 0, 2, 0, -1001, 1, 7], Reason::Winding, 1),
    (&[0, 0, 1, 0, 0, 1, 7, 1, 0, 2, 0, 0, -1, 7], Reason::LineBits, 1),
    (&[1, 0, 2, 0, 0, 1, 7, 0, 0, 1, 0, 0, 1, 7], Reason::Order, 1),
    (&[0, 0, 1, 0, 0, 1, 7, 1, 0, 3, 0, 0, 1, 7, 2, 0, 2, 1, 0, 1, 7], Reason::Meeting, 1),
    (&[0, 0, 0, 1, 0, 1, 7, 1, 0, 2, 0, 1, 0, 7], Reason::Balance, 1),
];

/// Writes to a lent list.
type Call<'a> = &'a dyn Fn(&mut [u8]) -> Result<usize, Refusal>;

/// The text of a drawing in one of the forms.
fn text(Choices { rule, invert, boundary }: Choices, drawing: &[i32], form: usize) -> Vec<u8> {
    let line = |numbers: &[i32]| numbers.iter().map(i32::to_string).collect::<Vec<_>>().join(",") + "\n";
    let segments = drawing.chunks(WIDTH).map(|segment| line(&segment[..form]));
    [line(&[rule, invert, boundary])].into_iter().chain(segments).collect::<String>().into()
}

/// The drawing with other lots, by place.
fn with_lots(drawing: &[i32], lot: impl Fn(usize) -> i32) -> Vec<i32> {
    drawing.chunks(WIDTH).enumerate().flat_map(|(place, segment)| [&segment[..OLD], &[lot(place)]].concat()).collect()
}

/// Refused with a list of noise of this length, which is left as it is.
fn refused_at(length: usize, call: Call, reason: Reason, place: usize) {
    let mut list = vec![99; length];
    assert_eq!(call(&mut list), Err(Refusal { reason, place }));
    assert!(list.iter().all(|&entry| entry == 99));
}

/// Refused whether the list is too short or not.
fn refused(call: Call, reason: Reason, place: usize) {
    refused_at(0, call, reason, place);
    refused_at(MOST_BYTES, call, reason, place);
}

/// Written to every list that has room, with the entries past the text as they were.
fn written(call: Call, due: &[u8]) {
    for past in [0, 1, MOST_BYTES] {
        let mut list = vec![99; due.len() + past];
        assert_eq!(call(&mut list), Ok(due.len()));
        assert!(list[..due.len()] == *due && list[due.len()..].iter().all(|&entry| entry == 99));
    }
    refused_at(due.len() - 1, call, Reason::ShortList, 0);
    refused_at(0, call, Reason::ShortList, 0);
}

/// The drawing is written and read again; without its lots it is moved there and back.
fn taken(drawing: &[i32], choices: Choices) {
    let due = text(choices, drawing, NEW);
    assert!(write(drawing, choices).as_ref() == Ok(&due));
    written(&|list| write_into(drawing, choices, list), &due);
    let found = read(&due).unwrap();
    assert!(found.choices == choices && found.segments == drawing);

    let (old, new) = (text(choices, drawing, OLD), text(choices, &with_lots(drawing, |_| 0), NEW));
    assert_eq!(new.len(), old.len() + 2 * drawing.len() / WIDTH);
    assert!(old_to_new(&old).as_ref() == Ok(&new) && new_to_old(&new).as_ref() == Ok(&old));
    written(&|list| old_to_new_into(&old, list), &new);
    written(&|list| new_to_old_into(&new, list), &old);
}

/// Refused by the writer, and by both movers as a text.
fn refused_by_all(drawing: &[i32], choices: Choices, reason: Reason, place: usize) {
    refused(&|list| write_into(drawing, choices, list), reason, place);
    refused(&|list| old_to_new_into(&text(choices, drawing, OLD), list), reason, place);
    refused(&|list| new_to_old_into(&text(choices, drawing, NEW), list), reason, place);
}

#[test]
fn case_a() {
    let stored = include_bytes!("../../../examples/case-a");
    assert_eq!(write(&A, CHOICES).unwrap(), stored);
    assert_eq!(old_to_new(&new_to_old(stored).unwrap()).unwrap(), stored);
}

#[test]
fn by_every_choice() {
    for rule in 0..4 {
        for (invert, boundary) in [(0, 0), (0, 1), (1, 0), (1, 1)] {
            let choices = Choices { rule, invert, boundary };
            taken(&[], choices);
            taken(&with_lots(&A, |place| 9999 - 1111 * place as i32), choices);
        }
    }
}

#[test]
fn lines_of_the_fewest_bytes() {
    let drawing: Vec<i32> = (0..10).flat_map(|x| [x, 0, x, 1, 0, 1, 0]).collect();
    taken(&drawing, CHOICES);
    assert_eq!(new_to_old(&text(CHOICES, &drawing, NEW)).unwrap().len(), 6 + 10 * 12);
}

/// Triangles, as far off as may be.
#[test]
fn lines_of_the_most_bytes() {
    let triangle = |k: i32| {
        let (x, y) = (3 * k - 16_777_216, -16_777_216);
        let (ab, ac, bc) = ([x, y, x + 1, y], [x, y, x + 2, y + 1], [x + 1, y, x + 2, y + 1]);
        [&ab[..], &[-1000, 3, 9999], &ac, &[1000, 3, 9999], &bc, &[-1000, 3, 9999]].concat()
    };
    let triangles = MOST_SEGMENTS / 3;
    let drawing: Vec<i32> = (0..triangles as i32).flat_map(triangle).collect();
    taken(&drawing, CHOICES);
    assert_eq!(write(&drawing, CHOICES).unwrap().len(), 6 + triangles * (53 + 52 + 53));
}

/// Before 14, as the lots are not 0, and before 11.
#[test]
fn a_faulty_drawing() {
    for (drawing, reason, place) in FAULTY {
        refused_by_all(drawing, CHOICES, reason, place);
    }
}

#[test]
fn choices_before_faults_and_the_length_before_both() {
    let too_long = [0; WIDTH * (MOST_SEGMENTS + 1)];
    refused_by_all(&too_long, CHOICES, Reason::Length, 0);
    let others =
        [Choices { rule: 4, ..CHOICES }, Choices { invert: -1, ..CHOICES }, Choices { boundary: 2, ..CHOICES }];
    for choices in others {
        for (drawing, ..) in FAULTY {
            refused_by_all(drawing, choices, Reason::Choice, 0);
        }
        refused_by_all(&too_long, choices, Reason::Length, 0);
        refused(&|list| write_into(&A[1..], choices, list), Reason::Length, 0);
    }
}

#[test]
fn a_lot_that_would_be_lost() {
    for lowest in [0, 4, 8] {
        for lots in [[1, 0], [9999, 1]] {
            let drawing = with_lots(&A, |place| if place < lowest { 0 } else { lots[usize::from(place > lowest)] });
            refused(&|list| new_to_old_into(&text(CHOICES, &drawing, NEW), list), Reason::LotLost, lowest);
        }
    }
}

/// Before one that would be lost, also at a higher place.
#[test]
fn a_lot_out_of_range() {
    for lot in [-1, 10_000] {
        let drawing = with_lots(&A, |place| if place < 8 { 7 } else { lot });
        refused(&|list| write_into(&drawing, CHOICES, list), Reason::Lot, 8);
        refused(&|list| new_to_old_into(&text(CHOICES, &drawing, NEW), list), Reason::Lot, 8);
    }
}

#[test]
fn a_line_in_the_other_form() {
    refused(&|list| old_to_new_into(&text(CHOICES, &A, NEW), list), Reason::Line, 2);
    refused(&|list| new_to_old_into(&text(CHOICES, &A, OLD), list), Reason::Line, 2);
    let both = b"1,0,1\n0,0,1,0,0,1\n1,0,2,0,0,1,0\n";
    refused(&|list| old_to_new_into(both, list), Reason::Line, 3);
    refused(&|list| new_to_old_into(both, list), Reason::Line, 2);
}

/// Lines are looked at before all else, and how many bytes there are before them.
fn malformed(form: usize, into: fn(&[u8], &mut [u8]) -> Result<usize, Refusal>) {
    let refused = |text: &[u8], reason, place| refused(&|list| into(text, list), reason, place);
    refused(b"", Reason::Line, 1);
    refused(b"1,0\n", Reason::Line, 1);
    refused(b"1,0,1\n\n", Reason::Line, 2);

    let mut faulty = text(Choices { rule: 4, ..CHOICES }, &[0; WIDTH * (MOST_SEGMENTS + 1)], form);
    refused(&faulty[..faulty.len() - 1], Reason::Line, MOST_SEGMENTS + 2);
    faulty.resize(MOST_BYTES, b' ');
    refused(&faulty, Reason::Line, MOST_SEGMENTS + 3);
    faulty.push(b' ');
    refused(&faulty, Reason::TextLength, 0);
}

#[test]
fn a_malformed_text() {
    malformed(OLD, old_to_new_into);
    malformed(NEW, new_to_old_into);
}

/// The safe functions say nothing of it.
#[test]
fn a_refusal_counts_no_bytes() {
    let text = b"1,0,1\n0,0,1,0,0,1,0\n1,0,2,0,0,1,7\n";
    assert_eq!(raw::new_to_old(text, &mut [99; 99]), raw::Written { number: 14, place: 1, count: 0 });
    assert_eq!(raw::old_to_new(text, &mut [99; 99]), raw::Written { number: 1, place: 2, count: 0 });
    assert_eq!(raw::write(&A, 1, 0, 1, &mut [99; 99]), raw::Written { number: 11, place: 0, count: 0 });
}
