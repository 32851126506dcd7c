//! The words above the picture.

use crate::layers::{arrow, LINE_WIDTH, OUTLINE_WIDTH};
use crate::svg;
use crate::view::Spot;
use jumperclay::{Choices, Clip};

pub const LEFT: f64 = 20.0;
const AFTER_SAMPLE: f64 = 72.0;
const SIZE: f64 = 15.0;
const HEADING_SIZE: f64 = 20.0;

/// How many letters a line holds.
const LETTERS: usize = 116;
const HEADING_LETTERS: usize = 78;

const QUOTED: &str = r#"font-family="monospace""#;

pub enum Entry {
    /// In a colour.
    Heading(&'static str, String),
    Words(String),
    /// What stands in the text, letter by letter.
    Quoted(String),
    Area(&'static str, String),
    Outline(&'static str, String),
    Path(&'static str, String),
}

impl Entry {
    /// The elements, and how high they stand together.
    pub fn put(&self, top: f64, elements: &mut Vec<String>) -> f64 {
        let sample = (LEFT, top + 6.0);
        match self {
            Self::Heading(colour, words) => {
                let style = format!(r#"font-size="{HEADING_SIZE}" font-weight="bold" fill="{colour}""#);
                lines(LEFT, top, HEADING_SIZE, &style, &wrapped(words, HEADING_LETTERS), elements)
            }
            Self::Words(words) => plain(LEFT, top, words, elements),
            Self::Quoted(words) => lines(LEFT, top, SIZE, QUOTED, std::slice::from_ref(words), elements),
            Self::Area(colour, words) => {
                elements.push(area(sample, colour));
                plain(AFTER_SAMPLE, top, words, elements)
            }
            Self::Outline(colour, words) => {
                elements.push(stroke(sample, colour, OUTLINE_WIDTH));
                plain(AFTER_SAMPLE, top, words, elements)
            }
            Self::Path(colour, words) => {
                elements.push(stroke(sample, colour, LINE_WIDTH));
                let (from, to) = sample_ends(sample);
                let head = arrow(from, to).unwrap_or_default();
                elements.push(format!(r#"<g fill="{colour}">{head}{}</g>"#, svg::circle(from, 3.5)));
                plain(AFTER_SAMPLE, top, words, elements)
            }
        }
    }
}

fn sample_ends((x, y): Spot) -> (Spot, Spot) {
    ((x + 4.0, y + 5.0), (x + 40.0, y + 5.0))
}

fn area((x, y): Spot, colour: &str) -> String {
    let (x, y) = (svg::number(x + 2.0), svg::number(y - 2.0));
    format!(r##"<rect x="{x}" y="{y}" width="40" height="14" fill="{colour}" stroke="#cccccc"/>"##)
}

fn stroke(sample: Spot, colour: &str, width: f64) -> String {
    let (from, to) = sample_ends(sample);
    format!(r#"<g stroke="{colour}" stroke-width="{}">{}</g>"#, svg::number(width), svg::line(from, to))
}

fn plain(left: f64, top: f64, words: &str, elements: &mut Vec<String>) -> f64 {
    lines(left, top, SIZE, "", &wrapped(words, LETTERS), elements)
}

fn lines(left: f64, top: f64, size: f64, style: &str, lines: &[String], elements: &mut Vec<String>) -> f64 {
    let step = size * 1.45;
    let mut baseline = top + size;
    for line in lines {
        let text = svg::text((left, baseline), line);
        elements.push(if style.is_empty() { text } else { format!("<g {style}>{text}</g>") });
        baseline += step;
    }
    step * lines.len() as f64
}

/// Broken between words.
fn wrapped(words: &str, letters: usize) -> Vec<String> {
    let mut lines: Vec<String> = Vec::new();
    for word in words.split(' ') {
        match lines.last_mut() {
            Some(line) if line.chars().count() + 1 + word.chars().count() <= letters => {
                line.push(' ');
                line.push_str(word);
            }
            _ => lines.push(word.to_string()),
        }
    }
    lines
}

/// One and many.
pub fn counted(count: usize, noun: &str) -> String {
    format!("{count} {noun}{}", if count == 1 { "" } else { "s" })
}

pub fn totals(run: &str, Clip { totals, .. }: &Clip) -> String {
    let (paths, points) = (counted(totals.paths, "path"), counted(totals.points, "point"));
    format!("{run}: {paths}, {points}, {}, travel {}", counted(totals.steps, "step"), totals.travel)
}

pub fn choices(Choices { rule, invert, boundary }: Choices) -> String {
    let name = |names: &[&str], choice: i32| {
        let name = usize::try_from(choice).ok().and_then(|choice| names.get(choice).copied());
        format!("{choice} ({})", name.unwrap_or("unknown"))
    };
    let rule = name(&["even-odd", "nonzero", "positive", "negative"], rule);
    let invert = name(&["inside", "outside"], invert);
    format!("rule {rule}, invert {invert}, boundary {}", name(&["excluded", "included"], boundary))
}

#[cfg(test)]
mod tests {
    use super::*;

    #[test]
    fn words_are_broken_between_words() {
        assert_eq!(wrapped("one two three", 7), ["one two", "three"]);
        assert_eq!(wrapped("", 7), [""]);
        assert_eq!(wrapped("longerthanthis a", 7), ["longerthanthis", "a"]);
    }

    #[test]
    fn unknown_choices_are_told() {
        let told = choices(Choices { rule: -1, invert: 2, boundary: 0 });
        assert_eq!(told, "rule -1 (unknown), invert 2 (unknown), boundary 0 (excluded)");
    }
}
