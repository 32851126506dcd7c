use i_float::int::number::int::IntNumber;
use i_float::int::point::IntPoint;

/// Whatever can be read as paths.
pub trait IntShapeResource<I: IntNumber> {
    fn iter_paths(&self) -> impl Iterator<Item = &[IntPoint<I>]>;
}

impl<I: IntNumber> IntShapeResource<I> for [IntPoint<I>] {
    fn iter_paths(&self) -> impl Iterator<Item = &[IntPoint<I>]> {
        core::iter::once(self)
    }
}

impl<I: IntNumber> IntShapeResource<I> for [Vec<IntPoint<I>>] {
    fn iter_paths(&self) -> impl Iterator<Item = &[IntPoint<I>]> {
        self.iter().map(Vec::as_slice)
    }
}

impl<I: IntNumber> IntShapeResource<I> for Vec<Vec<IntPoint<I>>> {
    fn iter_paths(&self) -> impl Iterator<Item = &[IntPoint<I>]> {
        self.as_slice().iter_paths()
    }
}

impl<I: IntNumber> IntShapeResource<I> for [Vec<Vec<IntPoint<I>>>] {
    fn iter_paths(&self) -> impl Iterator<Item = &[IntPoint<I>]> {
        self.iter().flatten().map(Vec::as_slice)
    }
}
