mod common;

use common::A;
use jumperclay::{read, read_into, Choices, ClipRule, Reason, Refusal, Rule, Text, MOST_BYTES, WIDTH};

const LINE: &str = "0,0,1,0,0,1,7\n";
const NUMBERS: [i32; WIDTH] = [0, 0, 1, 0, 0, 1, 7];

fn refused(text: &[u8], reason: Reason, place: usize, sentence: &str) {
    let refusal = read(text).unwrap_err();
    assert_eq!((refusal, refusal.number()), (Refusal { reason, place }, 1));
    assert_eq!(refusal.to_string(), sentence);
}

#[test]
fn case_a() {
    let text = read(include_bytes!("../../../examples/case-a")).unwrap();
    let choices = Choices { rule: 1, invert: 0, boundary: 1 };
    assert_eq!(text, Text { choices, segments: A.to_vec() });
    assert_eq!(text.clip().unwrap().paths, [[(0, 5), (10, 5)]]);
}

#[test]
fn no_segments() {
    let text = read(b"-999999999,999999999,0\n").unwrap();
    assert_eq!(text.choices, Choices { rule: -999_999_999, invert: 999_999_999, boundary: 0 });
    assert!(text.segments.is_empty());
    assert_eq!(text.clip().unwrap_err(), Refusal { reason: Reason::Choice, place: 0 });
}

#[test]
fn a_bad_line() {
    refused(b"", Reason::Line, 1, "line 1: it is malformed");
    refused(b"1,0\n", Reason::Line, 1, "line 1: it is malformed");
    let fields = ["0,0,1,0,0,1\n", "0,0,1,0,0,1,7,0\n", "0,0,1,0,0,1,\n", "0,0,1,0,0,1,07\n", "\n"];
    let others = ["0,0,1,0,0,1,7", "0,0,1,0,-0,1,7\n", "0,0,1,0,0,1,1000000000\n", "0,0,1,0,0,1,7\r\n"];
    for bad in fields.iter().chain(&others) {
        refused(format!("1,0,1\n{LINE}{bad}").as_bytes(), Reason::Line, 3, "line 3: it is malformed");
    }
}

#[test]
fn a_text_too_long_by_one() {
    let mut text = [b"1,0,1\n", LINE.repeat(4681).as_bytes()].concat();
    text.truncate(MOST_BYTES);
    refused(&text, Reason::Line, 4682, "line 4682: it is malformed");
    text.push(b'\n');
    refused(&text, Reason::TextLength, 0, "the text has over 65,536 bytes");
}

#[test]
fn entries_past_the_numbers_stay() {
    let text = format!("1,0,1\n{LINE}");
    let mut list = [99; WIDTH + 2];
    assert_eq!(read_into(text.as_bytes(), &mut list).unwrap().1, WIDTH);
    assert_eq!((&list[..WIDTH], &list[WIDTH..]), (&NUMBERS[..], &[99; 2][..]));
    let mut list = [99; WIDTH + 2];
    assert_eq!(read_into(text.trim_end().as_bytes(), &mut list).unwrap_err().reason, Reason::Line);
    assert_eq!(list, [99; WIDTH + 2]);
}

#[test]
fn a_list_too_short_is_left_untouched() {
    let text = format!("1,0,1\n{LINE}{LINE}");
    for length in [2 * WIDTH - 1, WIDTH, 1, 0] {
        let mut list = vec![99; length];
        let refusal = read_into(text.as_bytes(), &mut list).unwrap_err();
        assert_eq!((refusal, refusal.number()), (Refusal { reason: Reason::ShortList, place: 0 }, 11));
        assert!(list.iter().all(|&entry| entry == 99));
    }
    // The lines are looked at first.
    let refusal = read_into(text.trim_end().as_bytes(), &mut []).unwrap_err();
    assert_eq!(refusal, Refusal { reason: Reason::Line, place: 3 });
}

#[test]
fn any_text_is_read_whole() {
    let shortest = "0,0,0,0,0,0,0\n".repeat((MOST_BYTES - "0,0,0\n".len()) / (2 * WIDTH));
    let text = read(format!("0,0,0\n{shortest}").as_bytes()).unwrap();
    assert_eq!(text.segments.len(), shortest.len() / 2);
    assert_eq!(text.clip().unwrap_err().reason, Reason::Length);
}

#[test]
fn choices_by_name_and_by_number() {
    for rule in [Rule::EvenOdd, Rule::NonZero, Rule::Positive, Rule::Negative] {
        for (invert, boundary_included) in [(false, false), (false, true), (true, false), (true, true)] {
            let clip_rule = ClipRule { invert, boundary_included };
            assert_eq!(Choices::new(rule, clip_rule).named(), Ok((rule, clip_rule)));
        }
    }
    for (rule, invert, boundary) in [(4, 0, 0), (-1, 0, 0), (0, 2, 0), (0, 0, -1)] {
        assert_eq!(Choices { rule, invert, boundary }.named().unwrap_err().number(), 10);
    }
}
