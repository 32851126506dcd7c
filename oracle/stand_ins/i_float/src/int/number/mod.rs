pub mod int;
pub mod uint;
pub mod wide_int;
