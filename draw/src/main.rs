//! Reads the comma text of a drawing on standard input and writes a picture of it on standard output, as SVG: the dough, the
//! outline and the cut lines inside and outside; of a drawing that is turned down, what it is turned down for.

mod answered;
mod complaint;
mod dough;
mod labels;
mod layers;
mod legend;
mod malformed;
mod meeting;
mod page;
mod pieces;
mod places;
mod refused;
mod segment;
mod svg;
mod view;

use page::Page;
use std::io::{self, Read, Write};
use std::process::ExitCode;

const USAGE: &str = "usage: draw [--slice] < TEXT > PICTURE.svg";

/// A text of one byte more is seen to be too long.
const MOST_READ: u64 = jumperclay::MOST_BYTES as u64 + 1;

fn main() -> ExitCode {
    let arguments: Vec<_> = std::env::args_os().skip(1).collect();
    let with_slice = match arguments.as_slice() {
        [] => false,
        [option] if option == "--slice" => true,
        _ => {
            eprintln!("{USAGE}");
            return ExitCode::from(2);
        }
    };
    match run(with_slice) {
        Ok(()) => ExitCode::SUCCESS,
        Err(failure) => {
            eprintln!("draw: {failure}");
            ExitCode::FAILURE
        }
    }
}

fn run(with_slice: bool) -> Result<(), String> {
    let mut text = Vec::new();
    let read = io::stdin().take(MOST_READ).read_to_end(&mut text);
    read.map_err(|error| format!("the text could not be read to its end: {error}"))?;
    let written = io::stdout().write_all(picture(&text, with_slice).as_bytes());
    written.map_err(|error| format!("the picture could not be written: {error}"))
}

fn picture(text: &[u8], with_slice: bool) -> String {
    page(text, with_slice).svg()
}

fn page(text: &[u8], with_slice: bool) -> Page {
    match jumperclay::read(text) {
        Ok(drawing) => answered::page(&drawing, with_slice).unwrap_or_else(|refusal| refused::page(&drawing, refusal)),
        Err(refusal) => malformed::page(text, refusal),
    }
}

#[cfg(test)]
mod tests {
    use super::*;

    /// Numbers that only look random.
    struct Random(u64);

    impl Random {
        fn below(&mut self, end: usize) -> usize {
            self.0 = self.0.wrapping_mul(6_364_136_223_846_793_005).wrapping_add(1_442_695_040_888_963_407);
            (self.0 >> 33) as usize % end
        }

        fn number(&mut self) -> i64 {
            let small = self.below(9) as i64 - 4;
            [small, small, small, small, small, small, small, 16_777_216, -16_777_217, 999_999_999][self.below(10)]
        }

        /// A text that can be read as a rule, of up to eight segments, which often meet wrongly or do not balance.
        fn text(&mut self) -> Vec<u8> {
            let mut text = format!("{},{},{}\n", self.below(5), self.below(2), self.below(2));
            for _ in 0..self.below(9) {
                let [ax, ay, bx, by] = [0; 4].map(|_| self.number());
                let (winding, line_bits) = (self.below(3) as i64 - 1, self.below(4));
                let lot = [0, 0, 0, 0, 0, 7, 12, 12, 9999, 10_000][self.below(10)];
                text += &format!("{ax},{ay},{bx},{by},{winding},{line_bits},{lot}\n");
            }
            text.into_bytes()
        }
    }

    fn is_picture(text: &[u8]) {
        for with_slice in [false, true] {
            let picture = picture(text, with_slice);
            assert!(picture.starts_with("<svg ") && picture.ends_with("</svg>\n"), "{}", text.escape_ascii());
            assert!(!picture.contains("NaN") && !picture.contains("inf\""), "{}", text.escape_ascii());
        }
    }

    #[test]
    fn any_text_gives_a_picture() {
        let mut random = Random(1);
        for _ in 0..3000 {
            is_picture(&random.text());
        }
    }

    #[test]
    fn any_bytes_give_a_picture() {
        let mut random = Random(2);
        for _ in 0..1000 {
            let length = random.below(60);
            let byte = |random: &mut Random| [b"0123456789,,,--\n\n\n\n\n"[random.below(20)], random.below(256) as u8];
            is_picture(&(0..length).map(|_| byte(&mut random)[usize::from(random.below(30) == 0)]).collect::<Vec<_>>());
        }
    }

    #[test]
    fn the_longest_texts_give_a_picture() {
        let mut text = [b"1,0,1\n", "0,0,1,0,0,1,0\n".repeat(4700).as_bytes()].concat();
        is_picture(&text);
        text.truncate(jumperclay::MOST_BYTES);
        is_picture(&text);
        is_picture(&vec![b'\n'; jumperclay::MOST_BYTES]);
    }

    #[test]
    fn a_picture_tells_what_the_library_says() {
        let page = |text: &str| picture(text.as_bytes(), false);
        assert!(
            page("1,0,1\n0,0,2,0,0,1,0\n1,0,1,1,0,1,0\n").contains("segment 0: it and a later segment meet wrongly")
        );
        assert!(page("1,0,1\n0,0,2,0,0,1,10000\n").contains("segment 0: the lot is out of range"));
        assert!(page("1,0,1\n0,0,2,0,0,1\n").contains("refused,1,2"));
        assert!(page("1,0,1\n").contains("The drawing has no segments"));
    }
}
