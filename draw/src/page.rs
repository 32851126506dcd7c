//! A whole picture: words, and below them frames.

use crate::layers::{Layer, SMALL_PRINT};
use crate::legend::{Entry, LEFT};
use crate::svg;
use crate::view::{Bounds, View, WIDTH};

const PAGE_WIDTH: f64 = WIDTH + 2.0 * LEFT;
const ABOVE: f64 = 12.0;
const BETWEEN: f64 = 8.0;
const BELOW: f64 = 8.0;
const CAPTION: f64 = 20.0;
const SMALL: f64 = 12.0;
const LETTERS: &str = r##"font-family="sans-serif" font-size="15" fill="#222222""##;

pub struct Panel {
    pub view: View,
    pub layers: Vec<Layer>,
    pub caption: String,
}

impl Panel {
    /// With a caption that tells what part of the plane is seen, and how.
    pub fn new(view: View, layers: Vec<Layer>, about: &str) -> Self {
        let Bounds { low, high } = view.bounds;
        let [left, right, bottom, top] = [low.0, high.0, low.1, high.1].map(svg::number);
        let mut caption = format!("{about}x from {left} to {right}, y from {bottom} to {top}");
        let stretch = view.stretch();
        if stretch > 1.0 {
            caption += &format!("; not to scale: y is drawn {stretch:.0} times as large as x");
        } else if stretch < 1.0 {
            caption += &format!("; not to scale: x is drawn {:.0} times as large as y", 1.0 / stretch);
        }
        Self { view, layers, caption }
    }

    fn put(&self, top: f64, lines: &mut Vec<String>) {
        let height = self.view.height;
        lines.push(format!(r#"<g transform="translate({},{})">"#, svg::number(LEFT), svg::number(top)));
        let size = format!(r#"width="{}" height="{}""#, svg::number(WIDTH), svg::number(height));
        lines.push(format!(r##"<rect {size} fill="none" stroke="#cccccc"/>"##));
        for Layer { attributes, elements } in self.layers.iter().filter(|layer| !layer.elements.is_empty()) {
            lines.push(format!("<g {attributes}>"));
            lines.extend_from_slice(elements);
            lines.push("</g>".to_string());
        }
        if !self.caption.is_empty() {
            let caption = svg::text((0.0, height + SMALL + 5.0), &self.caption);
            lines.push(format!(r#"<g fill="{SMALL_PRINT}" font-size="{SMALL}">{caption}</g>"#));
        }
        lines.push("</g>".to_string());
    }
}

pub struct Page {
    pub title: String,
    pub legend: Vec<Entry>,
    pub panels: Vec<Panel>,
}

impl Page {
    pub fn svg(&self) -> String {
        let mut lines = Vec::new();
        let top = self.put_legend(&mut lines);
        let bottom = self.put_panels(top, &mut lines);
        let (width, height) = (svg::number(PAGE_WIDTH), svg::number(bottom.ceil() + BELOW));
        let opening = [
            format!(r#"<svg xmlns="http://www.w3.org/2000/svg" viewBox="0 0 {width} {height}" {LETTERS}>"#),
            format!("<title>{}</title>", svg::escaped(&self.title)),
            format!(r##"<rect width="{width}" height="{height}" fill="#ffffff"/>"##),
        ];
        let closing = ["</svg>".to_string(), String::new()];
        opening.into_iter().chain(lines).chain(closing).collect::<Vec<_>>().join("\n")
    }

    /// Returns where it ends.
    fn put_legend(&self, lines: &mut Vec<String>) -> f64 {
        let mut top = ABOVE;
        for entry in &self.legend {
            top += entry.put(top, lines);
        }
        top
    }

    /// Returns where the last one ends.
    fn put_panels(&self, mut top: f64, lines: &mut Vec<String>) -> f64 {
        for panel in &self.panels {
            panel.put(top + BETWEEN, lines);
            top += BETWEEN + panel.view.height + CAPTION;
        }
        top
    }
}
