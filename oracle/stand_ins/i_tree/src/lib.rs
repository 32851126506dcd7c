//! Stands in for the crate i_tree: the two collections of the sweep's ordered scan.
//! A stored key expires at a time of its own; expired ones are never found.

pub mod key;

pub trait Expiration: Copy + Ord {}

impl Expiration for i32 {}

pub trait ExpiredKey<E: Expiration>: Copy + Ord {
    /// The key is found before this time only.
    fn expiration(&self) -> E;
}
