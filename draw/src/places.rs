//! The places of segments and the lots of lines, written beside them.

use crate::labels::Labels;
use crate::layers::{seen, Layer, SMALL_PRINT};
use crate::segment::Segment;
use crate::view::View;

/// Where up to so many segments are seen, each has its place in small print, a line with its lot.
pub const MOST_LABELLED: usize = 60;
const SIZE: f64 = 11.0;

/// Keeps labels off the segments.
pub fn keep_free(view: &View, segments: &[Segment], labels: &mut Labels) {
    segments.iter().filter_map(|&segment| seen(view, segment)).for_each(|line| labels.keep_line_free(line));
}

/// The places of segments and the lots of lines, beside what is seen of them.
pub fn place_labels(view: &View, of: &[(usize, Segment)], size: f64, labels: &mut Labels) -> Vec<String> {
    let lines = of.iter().filter_map(|&(place, segment)| Some((label(place, segment), seen(view, segment)?)));
    lines.map(|(label, line)| labels.beside(line, &label, size)).collect()
}

fn label(place: usize, segment: Segment) -> String {
    match segment.line_lot() {
        Some(lot) => format!("{place}, lot {lot}"),
        None => place.to_string(),
    }
}

pub fn small_print(view: &View, of: &[(usize, Segment)], labels: &mut Labels) -> Layer {
    Layer::of_words(SMALL_PRINT, SIZE, place_labels(view, of, SIZE, labels))
}

#[cfg(test)]
mod tests {
    use super::*;
    use crate::segment::segments;

    #[test]
    fn a_line_is_labelled_with_its_lot() {
        let of = segments(&[0, 0, 1, 0, 0, 1, 12, 1, 0, 2, 0, 0, 3, 9999, 2, 0, 3, 0, 0, 2, 0, 3, 0, 4, 0, 0, 0, 7]);
        let labels: Vec<String> = of.into_iter().enumerate().map(|(place, one)| label(place, one)).collect();
        assert_eq!(labels, ["0, lot 12", "1, lot 9999", "2", "3"]);
    }
}
