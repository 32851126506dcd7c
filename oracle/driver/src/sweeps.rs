//! Small drawings with their fills, in the language of the definitions: the sweep's definition is computed on them.

use crate::choices::RULES;
use crate::drawing::WIDTH;
use crate::generate::{accepted, Generator, JOINED, SCATTERED};
use crate::places::in_repository;
use crate::random::Random;
use crate::ray::Ray;
use crate::theirs::{agree, Theirs};
use std::path::{Path, PathBuf};
use std::{fs, io};

const DRAWINGS: usize = 48;
const MOST: usize = 12;
const FILE: &str = "proofs/Drawings.antt";

const HEAD: &str = "\
-- Small drawings, each with a rule and its fills by the unchanged Rust. The driver makes this file (`driver sweeps`).
use mathlib.Core.List.{List, [], ◌∷◌, ◌++◌}
use Prim.Native.Nat.{ℕ}
use lib.IntN.{ℤ, pos, negsuc}
use Rattle.segm.specs.CaseA.{segment}

pub record Drawn : Type 0 where
  pub rule : ℤ
  pub numbers : List ℤ
  pub fills : List ℕ
";

/// Where the crate that computes them has them.
pub fn folder() -> PathBuf {
    in_repository("crates/sweep_cases")
}

pub fn store(folder: &Path) -> bool {
    if let Err(error) = write(&folder.join(FILE), &text()) {
        println!("the drawings could not be stored: {error}");
    }
    check(folder)
}

fn write(path: &Path, text: &str) -> io::Result<()> {
    fs::create_dir_all(path.parent().expect("it lies in a folder"))?;
    fs::write(path, text)
}

/// False where the file is another than the one that is made, or missing.
pub fn check(folder: &Path) -> bool {
    let path = folder.join(FILE);
    let same = fs::read_to_string(&path).ok() == Some(text());
    println!(
        "{DRAWINGS} drawings for the sweep's definition compared, {}",
        if same { "as made" } else { "DIFFERENCE" }
    );
    same
}

fn text() -> String {
    let drawings: Vec<_> = (0..DRAWINGS).map(drawn).collect();
    let names: Vec<_> = (0..DRAWINGS).map(|place| format!("drawn{place}")).collect();
    format!("{HEAD}{}\nabbrev pub drawings : List Drawn\ndrawings = {} ∷ []\n", drawings.concat(), names.join(" ∷ "))
}

/// One drawing: of one segment, of two, and so on, by each rule in turn; from four segments on something is filled.
fn drawn(place: usize) -> String {
    let random = &mut Random::new(&[1, place as u64]);
    let generators: &[Generator] = if place.is_multiple_of(3) { &JOINED } else { &SCATTERED };
    let size = 1 + place % MOST;
    let rule = RULES[place / MOST];
    let (numbers, fills) = loop {
        let numbers = accepted(generators, size..=size, random);
        let fills = fills(&numbers, rule);
        if size < 4 || fills.iter().any(|fill| fill % 4 != 0) {
            break (numbers, fills);
        }
    };
    // Without their lots, which no sweep looks at.
    let segment = |of: &[i32]| format!("segment {}", words(&of[..WIDTH - 1]));
    let segments: Vec<_> = numbers.chunks_exact(WIDTH).map(segment).collect();
    let fills: Vec<_> = fills.iter().map(|fill| format!("{fill} ∷ ")).collect();
    format!(
        "\nabbrev drawn{place} : Drawn\ndrawn{place} = record {{\n  rule = pos {rule};\n  numbers = {};\n  fills = {}[];\n}}\n",
        segments.join("\n      ++ "),
        fills.concat()
    )
}

/// Of the Rust where it is here, which are those of the ray.
fn fills(numbers: &[i32], rule: i32) -> Vec<u8> {
    let fills = Ray::new(numbers).fills(rule);
    let mut theirs = Theirs::new(numbers);
    agree(&fills[..], || theirs.fills(rule)).expect("the Rust has the ray's fills");
    fills
}

fn words(numbers: &[i32]) -> String {
    let word = |&number: &i32| match number {
        0.. => format!("(pos {number})"),
        _ => format!("(negsuc {})", -(number + 1)),
    };
    numbers.iter().map(word).collect::<Vec<_>>().join(" ")
}
