use super::number::int::IntNumber;
use super::vector::IntVector;
use core::ops::Sub;

/// A point; points compare by x, then y.
#[derive(Debug, Clone, Copy, PartialEq, Eq, PartialOrd, Ord)]
pub struct IntPoint<I: IntNumber> {
    pub x: I,
    pub y: I,
}

impl<I: IntNumber> IntPoint<I> {
    pub const ZERO: Self = Self { x: I::ZERO, y: I::ZERO };

    /// Fills places that hold no point yet.
    pub const EMPTY: Self = Self { x: I::MAX, y: I::MAX };

    #[inline(always)]
    pub fn new(x: I, y: I) -> Self {
        Self { x, y }
    }
}

impl<I: IntNumber> Sub for IntPoint<I> {
    type Output = IntVector<I>;

    #[inline(always)]
    fn sub(self, other: Self) -> IntVector<I> {
        IntVector { x: self.x.to_wide() - other.x.to_wide(), y: self.y.to_wide() - other.y.to_wide() }
    }
}
