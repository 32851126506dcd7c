//! The string overlay of i_overlay 9.1.0: 22 of its files compiled unchanged, from beside the
//! repository, over stand-ins for what is missing. What stands in for what: docs/DIFFERENCES.md.

extern crate alloc;

#[allow(dead_code)]
mod bind;
#[allow(dead_code)]
mod build;
#[allow(dead_code)]
mod core;
#[allow(dead_code)]
mod geom;
#[allow(dead_code)]
mod segm;
#[allow(dead_code)]
mod split;
#[allow(dead_code)]
mod string;
#[allow(dead_code)]
mod util;

mod runs;
#[cfg(test)]
mod trials;

pub use runs::{Contour, Drawing, Scan, split};
