//! Stands in for the crate i_shape: paths, contours, shapes and their shoelace sum.

pub mod int;
pub mod source;
