pub mod area;
pub mod path;
pub mod shape;
