pub mod exp;
mod keys;
pub mod list;
pub mod tree;
