//! The picture of a drawing that is accepted.

use crate::dough::borders;
use crate::labels::Labels;
use crate::layers::{path_layers, segment_lines, spots, Layer};
use crate::layers::{DOUGH, INK, INSIDE, OUTLINE, OUTLINE_WIDTH, OUTSIDE, SMALL_PRINT};
use crate::legend::{choices, counted, totals, Entry};
use crate::page::{Page, Panel};
use crate::pieces;
use crate::places::{keep_free, small_print, MOST_LABELLED};
use crate::segment::{seen_ends, segments, Segment};
use crate::svg;
use crate::view::{place, Bounds, View, HIGHEST};
use jumperclay::{clip, fills, slice, Clip, ClipRule, Contour, Direction, Refusal, Rule, Text};

/// What the library found.
struct Found {
    segments: Vec<Segment>,
    fills: Vec<u8>,
    inside: Clip,
    outside: Clip,
    /// Where asked for.
    pieces: Option<Result<Vec<Contour>, Refusal>>,
}

pub fn page(text: &Text, with_slice: bool) -> Result<Page, Refusal> {
    // Refused as by the program `clip`, before the choices are looked at by themselves.
    text.clip()?;
    let (rule, asked) = text.choices.named()?;
    let found = find(&text.segments, rule, asked, with_slice)?;
    let title = format!("A drawing of {}", counted(found.segments.len(), "segment"));
    let legend = legend(text, &found, asked);
    Ok(Page { title, legend, panels: vec![panel(&found)] })
}

fn find(numbers: &[i32], rule: Rule, asked: ClipRule, with_slice: bool) -> Result<Found, Refusal> {
    Ok(Found {
        segments: segments(numbers),
        fills: fills(numbers, rule)?,
        inside: clip(numbers, rule, ClipRule { invert: false, ..asked })?,
        outside: clip(numbers, rule, ClipRule { invert: true, ..asked })?,
        pieces: with_slice.then(|| slice(numbers, rule, Direction::CounterClockwise, 0)),
    })
}

fn legend(text: &Text, found: &Found, asked: ClipRule) -> Vec<Entry> {
    let outlines = found.segments.iter().filter(|segment| segment.is_outline()).count();
    let [inside, outside] =
        if asked.invert { ["inside", "outside, as asked"] } else { ["inside, as asked", "outside"] };
    vec![
        Entry::Heading(INK, counted(found.segments.len(), "segment")),
        Entry::Words(choices(text.choices)),
        Entry::Area(DOUGH, about_dough(found)),
        Entry::Outline(OUTLINE, format!("outline: {}", counted(outlines, "segment"))),
        Entry::Path(INSIDE, totals(inside, &found.inside)),
        Entry::Path(OUTSIDE, totals(outside, &found.outside)),
    ]
}

fn about_dough(found: &Found) -> String {
    match &found.pieces {
        None => "dough".to_string(),
        Some(Err(refusal)) => format!("dough; its slice is refused,{},{}: {refusal}", refusal.number(), refusal.place),
        Some(Ok(contours)) => {
            let holes = contours.iter().filter(|contour| contour.is_hole).count();
            let (pieces, holes) = (counted(contours.len() - holes, "piece"), counted(holes, "hole"));
            format!("dough, sliced and tinted: {}, of {pieces} and {holes}", counted(contours.len(), "contour"))
        }
    }
}

fn panel(found: &Found) -> Panel {
    let Some(bounds) = Bounds::around(seen_ends(&found.segments).into_iter().map(place)) else { return empty_sheet() };
    let view = View::new(bounds, HIGHEST);
    let mut labels = Labels::new(&view);
    keep_free(&view, &found.segments, &mut labels);
    let mut layers = filled(&view, found, &mut labels);
    let outline = found.segments.iter().filter(|segment| segment.is_outline());
    layers.push(Layer::of_lines(OUTLINE, OUTLINE_WIDTH, segment_lines(&view, outline)));
    layers.extend(path_layers(&view, [(&found.outside.paths, OUTSIDE), (&found.inside.paths, INSIDE)]));
    if found.segments.len() <= MOST_LABELLED {
        let all: Vec<(usize, Segment)> = found.segments.iter().copied().enumerate().collect();
        layers.push(small_print(&view, &all, &mut labels));
    }
    Panel::new(view, layers, "")
}

fn empty_sheet() -> Panel {
    let view = View::new(Bounds { low: (0.0, 0.0), high: (0.0, 0.0) }, HIGHEST);
    let words = svg::text(view.spot((0.0, 0.0)), "The drawing has no segments: the sheet is empty.");
    Panel { view, layers: vec![Layer::of_words(SMALL_PRINT, 18.0, vec![words])], caption: String::new() }
}

/// The dough, or the pieces that it is cut into.
fn filled(view: &View, found: &Found, labels: &mut Labels) -> Vec<Layer> {
    if let Some(Ok(contours)) = &found.pieces {
        return pieces::layers(view, contours, labels);
    }
    let borders = borders(&found.segments, &found.fills);
    let data: Vec<String> = borders.iter().map(|border| svg::through(&spots(view, border)) + "Z").collect();
    let area = if data.is_empty() { Vec::new() } else { vec![svg::path(&data.concat())] };
    let mut dough = Layer::filled(DOUGH, area);
    dough.attributes += r#" fill-rule="evenodd""#;
    vec![dough]
}
