//! Elements as text.

use crate::view::Spot;

/// At most two decimals, and no zeros at the end.
pub fn number(z: f64) -> String {
    let all = format!("{z:.2}");
    match all.trim_end_matches('0').trim_end_matches('.') {
        "-0" => "0".to_string(),
        short => short.to_string(),
    }
}

pub fn escaped(text: &str) -> String {
    text.replace('&', "&amp;").replace('<', "&lt;").replace('>', "&gt;")
}

fn pair((x, y): Spot) -> String {
    format!("{},{}", number(x), number(y))
}

/// What goes through spots in turn, as the data of a path.
pub fn through(spots: &[Spot]) -> String {
    let pairs: Vec<String> = spots.iter().copied().map(pair).collect();
    format!("M{}", pairs.join(" "))
}

pub fn path(data: &str) -> String {
    format!(r#"<path d="{data}"/>"#)
}

pub fn line(a: Spot, b: Spot) -> String {
    path(&through(&[a, b]))
}

pub fn circle((x, y): Spot, radius: f64) -> String {
    format!(r#"<circle cx="{}" cy="{}" r="{}"/>"#, number(x), number(y), number(radius))
}

pub fn text((x, y): Spot, words: &str) -> String {
    format!(r#"<text x="{}" y="{}">{}</text>"#, number(x), number(y), escaped(words))
}

#[cfg(test)]
mod tests {
    use super::*;

    #[test]
    fn numbers_are_short() {
        let shown = [0.0, -0.001, 5.0, -12.5, 100.0, 1.0 / 3.0, 999.999].map(number);
        assert_eq!(shown, ["0", "0", "5", "-12.5", "100", "0.33", "1000"]);
    }

    #[test]
    fn words_are_escaped() {
        assert_eq!(text((1.0, 2.0), "a<b & c>"), r#"<text x="1" y="2">a&lt;b &amp; c&gt;</text>"#);
    }
}
