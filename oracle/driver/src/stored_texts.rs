//! The stored answers of the functions that write and move texts, each with how many bytes the list has that is lent:
//! `w,bytes,rule,invert,boundary,ax,...`, `o,bytes,text` (old to new) and `n,bytes,text` (new to old) have the answer
//! `number,place,count`, and then what is written. In a text ; stands for LF.

use crate::drawing::commas;
use crate::mover::Asked;
use crate::prose::Refusal;
use jumperclay::raw::Written;

/// The question of a call with a list of so many bytes, and the answer by the prose.
pub fn line(asked: &Asked, lent: usize) -> (String, String) {
    let (letter, what) = match asked {
        Asked::Write(numbers, choices) => ("w", commas(&[&choices.list()[..], numbers].concat())),
        Asked::OldToNew(text) => ("o", in_a_line(text)),
        Asked::NewToOld(text) => ("n", in_a_line(text)),
    };
    let answer = match asked.due().answer(lent) {
        Ok(text) => answer(Written { number: 0, place: 0, count: text.len() as u64 }, text),
        Err(Refusal { number, place }) => answer(Written { number, place, count: 0 }, &[]),
    };
    (format!("{letter},{lent},{what}"), answer)
}

/// The answer of ours. None where the question is another or cannot be read, or more is counted than was lent.
pub fn ours(question: &str) -> Option<String> {
    let (letter, rest) = question.split_once(',')?;
    let (lent, what) = rest.split_once(',')?;
    let asked = match letter {
        "w" => {
            let numbers: Result<Vec<i32>, _> = what.split(',').map(str::parse).collect();
            let (&choices, segments) = numbers.as_deref().ok()?.split_first_chunk::<3>()?;
            Asked::Write(segments.to_vec(), choices.into())
        }
        "o" => Asked::OldToNew(from_a_line(what)),
        "n" => Asked::NewToOld(from_a_line(what)),
        _ => return None,
    };
    let mut list = vec![0; lent.parse().ok()?];
    let written = asked.on(&mut list);
    Some(answer(written, list.get(..written.count as usize)?))
}

fn answer(Written { number, place, count }: Written, text: &[u8]) -> String {
    let head = commas(&[number, place, count]);
    if text.is_empty() {
        head
    } else {
        format!("{head},{}", in_a_line(text))
    }
}

fn in_a_line(text: &[u8]) -> String {
    String::from_utf8_lossy(text).replace('\n', ";")
}

fn from_a_line(line: &str) -> Vec<u8> {
    line.replace(';', "\n").into_bytes()
}
