use super::area::UnsafeArea;
use i_float::int::number::int::IntNumber;
use i_float::int::number::wide_int::WideIntNumber;
use i_float::int::point::IntPoint;
use std::cell::RefCell;

pub type IntPath<I> = Vec<IntPoint<I>>;

thread_local! {
    static MADE: RefCell<Vec<usize>> = const { RefCell::new(Vec::new()) };
}

/// The addresses of the contours asked for their order since the last call, in the order of asking.
/// A slice asks each contour once, when it is made, and sorts it into one of two lists afterwards:
/// by its address its place among all is found again.
pub fn take_made() -> Vec<usize> {
    MADE.with_borrow_mut(core::mem::take)
}

pub trait ContourExtension {
    /// A negative shoelace sum; zero counts as counter-clockwise.
    fn is_clockwise_ordered(&self) -> bool;
}

impl<I: IntNumber> ContourExtension for [IntPoint<I>] {
    fn is_clockwise_ordered(&self) -> bool {
        MADE.with_borrow_mut(|made| made.push(self.as_ptr() as usize));
        self.iter().copied().unsafe_area() < I::Wide::ZERO
    }
}
