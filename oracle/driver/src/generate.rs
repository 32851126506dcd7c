//! Random drawings that should be accepted.

use crate::drawing::{MOST_SEGMENTS, WIDTH};
use crate::lines::{both_ways, joined, scattered, Draw};
use crate::placement::{self, placed};
use crate::plane::Plane;
use crate::prose::Checked;
use crate::random::Random;
use crate::shapes;
use std::ops::RangeInclusive;

/// Makes a shape of about so many segments.
pub type Make = fn(&mut Random, usize) -> Plane;

pub struct Generator {
    pub name: &'static str,
    make: Make,
    size: fn(&mut Random) -> i32,
    placements: usize,
    draw: Draw,
    /// How many of a thousand drawings.
    pub share: usize,
}

const fn free(name: &'static str, make: Make, share: usize) -> Generator {
    Generator { name, make, size: usual, placements: placement::NAMES.len(), draw: scattered, share }
}

/// For a shape that has the full range already.
const fn fixed(name: &'static str, make: Make, share: usize) -> Generator {
    Generator { placements: 1, ..free(name, make, share) }
}

/// Lines here and there.
pub const SCATTERED: [Generator; 15] = [
    free("grid", shapes::grid, 144),
    free("lattice", shapes::lattice, 70),
    free("fan", shapes::fan, 50),
    free("wheel", shapes::wheel, 30),
    free("stars", shapes::stars, 70),
    free("touching", shapes::touching, 80),
    free("dangling", shapes::dangling, 50),
    free("row", shapes::row, 40),
    free("nested", shapes::nested, 50),
    free("strips", shapes::strips, 80),
    fixed("extremes", shapes::extremes, 50),
    fixed("needles", shapes::needles, 60),
    Generator { size: |random| random.within(0, 3), ..free("tiny", shapes::grid, 20) },
    Generator { size: |random| random.within(140, 300), ..free("heaped", shapes::heaped, 4) },
    free("full", full, 1),
];

/// Lines that go on from segment to segment.
pub const JOINED: [Generator; 3] = [
    Generator { draw: joined, ..free("strings", any, 100) },
    Generator { draw: joined, size: |random| random.within(1, 10), ..free("short strings", any, 100) },
    Generator { draw: both_ways, size: long, ..fixed("long strings", shapes::zigzag, 1) },
];

impl Generator {
    /// A drawing's numbers and the place of its placement.
    pub fn drawing(&self, random: &mut Random) -> (Vec<i32>, usize) {
        let size = (self.size)(random) as usize;
        let plane = (self.make)(random, size);
        let placement = random.below(self.placements);
        (placed(plane, placement, random).drawing(self.draw, random), placement)
    }
}

/// One in sixteen is larger.
fn usual(random: &mut Random) -> i32 {
    let most = if random.below(16) == 0 { 128 } else { 44 };
    random.within(3, most)
}

/// Long enough that a zigzag's travel needs more than 32 bits. One in sixteen has as many segments as may be.
fn long(random: &mut Random) -> i32 {
    match random.below(16) {
        0 => MOST_SEGMENTS as i32,
        _ => random.within(200, 240),
    }
}

/// Shapes with many points of many edges.
fn any(random: &mut Random, size: usize) -> Plane {
    let make: Make = random.pick(&[
        shapes::grid as Make,
        shapes::lattice,
        shapes::fan,
        shapes::wheel,
        shapes::touching,
        shapes::dangling,
        shapes::nested,
    ]);
    make(random, size)
}

/// As many segments as a drawing may have.
fn full(random: &mut Random, _: usize) -> Plane {
    let make: Make =
        random.pick(&[shapes::lattice as Make, shapes::wheel, shapes::touching, shapes::row, shapes::nested]);
    let mut plane = make(random, 2 * MOST_SEGMENTS);
    random.shuffle(&mut plane.edges);
    plane.edges.truncate(MOST_SEGMENTS);
    plane
}

/// An accepted drawing of so many segments.
pub fn accepted(generators: &[Generator], sizes: RangeInclusive<usize>, random: &mut Random) -> Vec<i32> {
    loop {
        let generator = &generators[random.below(generators.len())];
        let (numbers, _) = generator.drawing(random);
        if sizes.contains(&(numbers.len() / WIDTH)) && Checked::new(&numbers).refused.is_none() {
            return numbers;
        }
    }
}
