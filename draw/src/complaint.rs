//! What a refusal names: segments, marks in the plane, and words beside the library's own.

use crate::meeting::{first_met, look_like_one, Meeting};
use crate::segment::Segment;
use crate::view::{place, Place};
use jumperclay::{Choices, Point, Reason, Refusal};

/// So many summands are listed.
const MOST_LISTED: usize = 6;

pub enum Sign {
    Ring,
    Dot,
}

pub struct Mark {
    pub at: Place,
    pub sign: Sign,
    pub label: String,
}

#[derive(Default)]
pub struct Complaint {
    /// The places of the segments that are shown in red.
    pub places: Vec<usize>,
    pub marks: Vec<Mark>,
    pub words: Vec<String>,
}

impl Complaint {
    pub fn new(refusal: Refusal, choices: Choices, segments: &[Segment]) -> Self {
        match refusal.reason {
            Reason::Length => Self::of_words(format!("It has {} segments.", segments.len())),
            Reason::Choice => Self { words: unknown(choices), ..Self::default() },
            _ => match segments.get(refusal.place) {
                Some(&segment) => Self::of_segment(refusal, segment, segments),
                None => Self::default(),
            },
        }
    }

    fn of_words(words: String) -> Self {
        Self { words: vec![words], ..Self::default() }
    }

    fn of_segment(Refusal { reason, place }: Refusal, segment: Segment, segments: &[Segment]) -> Self {
        let mut complaint = match reason {
            Reason::Coordinate => {
                Self { words: segment.out_of_range().into_iter().map(beyond).collect(), ..Self::default() }
            }
            Reason::Ends => of_ends(segment),
            Reason::Winding => {
                Self::of_words(format!("Its winding is {}, and must be from -1,000 to 1,000.", segment.winding))
            }
            Reason::LineBits => {
                Self::of_words(format!("Its line bits are {}, and must be from 0 to 3.", segment.line_bits))
            }
            Reason::Lot => Self::of_words(format!("Its lot is {}, and must be from 0 to 9,999.", segment.lot)),
            Reason::Order => of_order(segments, place),
            Reason::Meeting => of_meeting(segments, place),
            Reason::Balance => of_balance(segment, segments),
            _ => Self::default(),
        };
        complaint.places.insert(0, place);
        complaint
    }
}

fn beyond((name, coordinate): (&str, i32)) -> String {
    format!("Its {name} is {coordinate}, and must be from -16,777,216 to 16,777,216.")
}

fn unknown(Choices { rule, invert, boundary }: Choices) -> Vec<String> {
    let choices = [("rule", rule, 3), ("invert", invert, 1), ("boundary", boundary, 1)];
    let unknown = choices.into_iter().filter(|&(_, choice, most)| !(0..=most).contains(&choice));
    unknown
        .map(|(name, choice, most)| format!("The choice {name} is {choice}, and must be from 0 to {most}."))
        .collect()
}

fn shown((x, y): Point) -> String {
    format!("({x},{y})")
}

fn of_ends(Segment { a, b, .. }: Segment) -> Complaint {
    let dot = |end, label| Mark { at: place(end), sign: Sign::Dot, label };
    if a == b {
        let words = format!("Both ends are {}.", shown(a));
        return Complaint { marks: vec![dot(a, format!("a = b {}", shown(a)))], ..Complaint::of_words(words) };
    }
    let marks = vec![dot(a, format!("a {}", shown(a))), dot(b, format!("b {}", shown(b)))];
    let words = format!("a is {} and b is {}: exchanged they would be in order.", shown(a), shown(b));
    Complaint { marks, ..Complaint::of_words(words) }
}

fn of_order(segments: &[Segment], place_of_later: usize) -> Complaint {
    let places = [place_of_later, place_of_later.saturating_sub(1)];
    let start = |of: usize| shown(segments[of].a);
    let ring = |of: usize| Mark { at: place(segments[of].a), sign: Sign::Ring, label: format!("a of {of}") };
    let [later, previous] = places;
    let words = format!("Its a is {}, and that of segment {previous} is {}.", start(later), start(previous));
    Complaint { places: vec![previous], marks: places.map(ring).into(), words: vec![words] }
}

fn of_meeting(segments: &[Segment], lower: usize) -> Complaint {
    let Some(upper) = first_met(segments, lower) else { return Complaint::default() };
    let ring = |at| Mark { at, sign: Sign::Ring, label: String::new() };
    let (marks, words) = match Meeting::of(segments[lower], segments[upper]) {
        Meeting::Same => {
            let ends = segments[lower].ends();
            let words = format!("Segment {upper} has the same ends: {} and {}.", shown(ends[0]), shown(ends[1]));
            (ends.map(|end| ring(place(end))).into(), words)
        }
        Meeting::Touch(ends) => {
            let places: Vec<String> = ends.iter().map(|&end| shown(end)).collect();
            let words =
                format!("It meets segment {upper} at {}, strictly between the ends of one.", places.join(" and "));
            (ends.iter().map(|&end| ring(place(end))).collect(), words)
        }
        Meeting::Cross(at) => {
            let angle = if look_like_one(segments[lower], segments[upper]) { ", at a very small angle" } else { "" };
            (vec![ring(at)], format!("It crosses segment {upper} at about ({:.2},{:.2}){angle}.", at.0, at.1))
        }
    };
    Complaint { places: vec![upper], marks, words: vec![words] }
}

fn of_balance(segment: Segment, segments: &[Segment]) -> Complaint {
    let mut complaint = Complaint::default();
    for end in segment.ends() {
        let [starting, ending] = [sum(segments, |one| one.a == end), sum(segments, |one| one.b == end)];
        if starting.total != ending.total {
            let label = format!("starts {}, ends {}", starting.total, ending.total);
            complaint.marks.push(Mark { at: place(end), sign: Sign::Ring, label });
            let words = format!(
                "At {} the windings that start there make {starting}, those that end there {ending}.",
                shown(end)
            );
            complaint.words.push(words);
        }
    }
    complaint
}

/// A sum of windings, and of which segments.
struct Sum {
    total: i64,
    listed: Vec<String>,
}

fn sum(segments: &[Segment], is_one: impl Fn(&Segment) -> bool) -> Sum {
    let of = segments.iter().enumerate().filter(|(_, one)| one.is_outline() && is_one(one));
    let windings: Vec<(usize, i32)> = of.map(|(place, one)| (place, one.winding)).collect();
    let mut listed: Vec<String> =
        windings.iter().take(MOST_LISTED).map(|(place, winding)| format!("{winding} of segment {place}")).collect();
    if windings.len() > MOST_LISTED {
        listed.push(format!("{} more", windings.len() - MOST_LISTED));
    }
    Sum { total: windings.iter().map(|&(_, winding)| i64::from(winding)).sum(), listed }
}

impl std::fmt::Display for Sum {
    fn fmt(&self, f: &mut std::fmt::Formatter<'_>) -> std::fmt::Result {
        match self.listed.as_slice() {
            [] => write!(f, "0"),
            listed => write!(f, "{} ({})", self.total, listed.join(", ")),
        }
    }
}

#[cfg(test)]
mod tests {
    use super::*;
    use crate::segment::segments;
    use jumperclay::read;

    /// A rectangle with this first line, and this for its last segment.
    fn complaint(choices: &str, last: &str) -> Complaint {
        let text = format!("{choices}\n0,0,0,5,-1,0,0\n0,0,10,0,1,0,0\n0,5,10,5,-1,0,0\n{last}\n");
        let text = read(text.as_bytes()).unwrap();
        Complaint::new(text.clip().unwrap_err(), text.choices, &segments(&text.segments))
    }

    fn named(last: &str, places: &[usize], marks: usize, words: &str) {
        let complaint = complaint("1,0,1", last);
        assert_eq!(complaint.places, places);
        assert_eq!(complaint.marks.len(), marks);
        assert_eq!(complaint.words, [words]);
    }

    #[test]
    fn what_is_wrong_with_one_segment() {
        named("10,0,99999999,5,1,0,0", &[3], 0, "Its bx is 99999999, and must be from -16,777,216 to 16,777,216.");
        named("10,5,10,0,1,0,0", &[3], 2, "a is (10,5) and b is (10,0): exchanged they would be in order.");
        named("10,5,10,5,1,0,0", &[3], 1, "Both ends are (10,5).");
        named("10,0,10,5,-1001,0,0", &[3], 0, "Its winding is -1001, and must be from -1,000 to 1,000.");
        named("10,0,10,5,1,4,0", &[3], 0, "Its line bits are 4, and must be from 0 to 3.");
        named("10,0,10,5,1,0,10000", &[3], 0, "Its lot is 10000, and must be from 0 to 9,999.");
        named("10,0,10,5,1,4,-1", &[3], 0, "Its line bits are 4, and must be from 0 to 3.");
        named("0,4,10,5,1,0,-1", &[3], 0, "Its lot is -1, and must be from 0 to 9,999.");
    }

    #[test]
    fn what_is_wrong_with_two() {
        named("0,4,10,5,1,0,0", &[3, 2], 2, "Its a is (0,4), and that of segment 2 is (0,5).");
        named("5,-1,5,6,1,0,0", &[1, 3], 1, "It crosses segment 3 at about (5.00,0.00).");
        named("5,0,5,2,1,0,0", &[1, 3], 1, "It meets segment 3 at (5,0), strictly between the ends of one.");
        named("0,5,10,5,1,0,0", &[2, 3], 2, "Segment 3 has the same ends: (0,5) and (10,5).");
    }

    #[test]
    fn what_does_not_balance() {
        let words =
            "At (10,0) the windings that start there make 2 (2 of segment 3), those that end there 1 (1 of segment 1).";
        named("10,0,10,5,2,0,0", &[1], 1, words);
    }

    #[test]
    fn unknown_choices() {
        let complaint = complaint("4,0,-2", "10,0,10,5,1,0,0");
        let words =
            ["The choice rule is 4, and must be from 0 to 3.", "The choice boundary is -2, and must be from 0 to 1."];
        assert_eq!(complaint.words, words);
        assert!(complaint.places.is_empty());
    }
}
