use crate::int::number::int::IntNumber;
use crate::int::number::wide_int::WideIntNumber;
use crate::int::point::IntPoint;
use core::cmp::Ordering;

pub struct Triangle;

impl Triangle {
    /// The turn from p0 over p1 to p2: clockwise is `Less`.
    #[inline(always)]
    pub fn clock_order<I: IntNumber>(p0: IntPoint<I>, p1: IntPoint<I>, p2: IntPoint<I>) -> Ordering {
        (p1 - p0).cross_product(p2 - p0).cmp(&I::Wide::ZERO)
    }

    #[inline(always)]
    pub fn is_clockwise<I: IntNumber>(p0: IntPoint<I>, p1: IntPoint<I>, p2: IntPoint<I>) -> bool {
        Self::clock_order(p0, p1, p2) == Ordering::Less
    }
}
