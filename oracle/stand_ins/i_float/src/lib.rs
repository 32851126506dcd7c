//! Stands in for the crate i_float: integer points, vectors and the turn of three points, for i32.
//! Only what the listed files of i_overlay use.

pub mod int;
pub mod triangle;
