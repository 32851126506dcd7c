use i_float::int::point::IntPoint;

pub type IntContour<I> = Vec<IntPoint<I>>;
pub type IntShape<I> = Vec<IntContour<I>>;
pub type IntShapes<I> = Vec<IntShape<I>>;
