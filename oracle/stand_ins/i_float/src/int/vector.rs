use super::number::int::IntNumber;

#[derive(Debug, Clone, Copy, PartialEq, Eq)]
pub struct IntVector<I: IntNumber> {
    pub x: I::Wide,
    pub y: I::Wide,
}

impl<I: IntNumber> IntVector<I> {
    /// x1·y2 - x2·y1.
    #[inline(always)]
    pub fn cross_product(self, other: Self) -> I::Wide {
        self.x * other.y - other.x * self.y
    }
}
