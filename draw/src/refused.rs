//! The picture of a drawing that is turned down: all of it in grey, and in red what the refusal names.

use crate::complaint::{Complaint, Mark, Sign};
use crate::labels::Labels;
use crate::layers::{seen, segment_lines, Layer, GREY, PALE_RED, RED};
use crate::legend::{choices, counted, Entry};
use crate::page::{Page, Panel};
use crate::places::{keep_free, place_labels, small_print, MOST_LABELLED};
use crate::segment::{seen_ends, segments, Segment};
use crate::svg;
use crate::view::{place, Bounds, View, HIGHEST};
use jumperclay::{Refusal, Text};

const GREY_WIDTH: f64 = 1.5;
const RED_WIDTH: f64 = 3.0;

/// Behind a named segment that is not the refusal's own: it is seen also where one lies on the other.
const BAND_WIDTH: f64 = 11.0;
const RING: f64 = 13.0;
const RING_WIDTH: f64 = 2.0;
const DOT: f64 = 5.0;
const RED_LABEL: f64 = 16.0;

/// What is smaller than this in the picture is shown once more, larger.
const SMALL: f64 = 110.0;
const HIGHEST_NEAR: f64 = 500.0;

pub fn page(text: &Text, refusal: Refusal) -> Page {
    let segments = segments(&text.segments);
    let complaint = Complaint::new(refusal, text.choices, &segments);
    let panels = panels(&segments, &complaint, MOST_LABELLED);
    let mut legend = told(refusal);
    legend.extend(complaint.words.iter().cloned().map(Entry::Words));
    if panels.first().is_some_and(|panel| is_out_of(&panel.view, &segments, &complaint)) {
        legend.push(Entry::Words("No part of it is in the picture.".to_string()));
    }
    legend.push(Entry::Words(format!("{}; {}", counted(segments.len(), "segment"), choices(text.choices))));
    Page { title: title(refusal), legend, panels }
}

fn is_out_of(view: &View, segments: &[Segment], complaint: &Complaint) -> bool {
    !complaint.places.is_empty() && complaint.places.iter().all(|&at| seen(view, segments[at]).is_none())
}

pub fn title(refusal: Refusal) -> String {
    format!("refused,{},{}: {refusal}", refusal.number(), refusal.place)
}

/// The answer as the program `clip` prints it, and the library's sentence.
pub fn told(refusal: Refusal) -> Vec<Entry> {
    let answer = format!("refused,{},{}", refusal.number(), refusal.place);
    vec![Entry::Heading(RED, answer), Entry::Heading(RED, refusal.to_string())]
}

/// All that can be drawn, and once more what is named where that is small. Up to so many segments are labelled.
pub fn panels(segments: &[Segment], complaint: &Complaint, most_labelled: usize) -> Vec<Panel> {
    let Some(bounds) = Bounds::around(seen_ends(segments).into_iter().map(place)) else { return Vec::new() };
    let whole = View::new(bounds, HIGHEST);
    let near = near(&whole, segments, complaint).map(|bounds| View::new(bounds, HIGHEST_NEAR));
    let panel = |view, about| panel(view, about, segments, complaint, most_labelled);
    [panel(whole, "")].into_iter().chain(near.map(|view| panel(view, "Larger: "))).collect()
}

/// About the smallest of the named segments and the marks, where these are small in the picture.
fn near(view: &View, segments: &[Segment], complaint: &Complaint) -> Option<Bounds> {
    let size = |bounds: Bounds| {
        let (width, height) = view.size_of(bounds);
        width.max(height)
    };
    let of_named = |&at: &usize| Bounds::around(seen_ends(&segments[at..=at]).into_iter().map(place));
    let smallest =
        complaint.places.iter().filter_map(of_named).min_by(|one, other| size(*one).total_cmp(&size(*other)))?;
    let bounds =
        Bounds::around([smallest.low, smallest.high].into_iter().chain(complaint.marks.iter().map(|mark| mark.at)))?;
    let is_small = size(bounds) < SMALL && bounds.size() != (0.0, 0.0);
    is_small.then(|| bounds.widened(0.5))
}

fn panel(view: View, about: &str, segments: &[Segment], complaint: &Complaint, most_labelled: usize) -> Panel {
    let is_named = |at: &usize| complaint.places.contains(at);
    let (red, grey): (Vec<_>, Vec<_>) = segments.iter().copied().enumerate().partition(|(at, _)| is_named(at));
    let lines = |of: &[(usize, Segment)]| segment_lines(&view, of.iter().map(|(_, segment)| segment));
    let (red_lines, grey_lines) = (lines(&red), lines(&grey));
    let is_labelled = red_lines.len() + grey_lines.len() <= most_labelled;
    let beside = segment_lines(&view, complaint.places.iter().skip(1).map(|&at| &segments[at]));
    let mut layers = vec![
        Layer::of_lines(PALE_RED, BAND_WIDTH, beside),
        Layer::of_lines(GREY, GREY_WIDTH, grey_lines),
        Layer::of_lines(RED, RED_WIDTH, red_lines),
    ];
    let mut labels = Labels::new(&view);
    keep_free(&view, segments, &mut labels);
    layers.extend(mark_layers(&view, &complaint.marks, &red, &mut labels));
    if is_labelled {
        layers.push(small_print(&view, &grey, &mut labels));
    }
    Panel::new(view, layers, about)
}

/// Rings and dots, what is written at them, and the places of the red segments.
fn mark_layers(view: &View, marks: &[Mark], red: &[(usize, Segment)], labels: &mut Labels) -> [Layer; 3] {
    marks.iter().for_each(|mark| labels.keep_spot_free(view.spot(mark.at), radius(mark)));
    let mut words = place_labels(view, red, RED_LABEL, labels);
    let labelled = marks.iter().filter(|mark| !mark.label.is_empty());
    words.extend(labelled.map(|mark| labels.about(view.spot(mark.at), radius(mark), &mark.label, RED_LABEL)));
    let mut words = Layer::of_words(RED, RED_LABEL, words);
    words.attributes += r#" font-weight="bold""#;
    let (rings, dots): (Vec<_>, Vec<_>) = marks.iter().partition(|mark| matches!(mark.sign, Sign::Ring));
    let circles = |of: Vec<&Mark>| of.iter().map(|mark| svg::circle(view.spot(mark.at), radius(mark))).collect();
    [Layer::of_lines(RED, RING_WIDTH, circles(rings)), Layer::filled(RED, circles(dots)), words]
}

fn radius(mark: &Mark) -> f64 {
    match mark.sign {
        Sign::Ring => RING,
        Sign::Dot => DOT,
    }
}
