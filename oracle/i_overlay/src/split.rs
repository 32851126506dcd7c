//! Stands in for split/: segments come in split, so nothing is left to do.

pub(crate) mod solver {
    use crate::core::solver::Solver;
    use crate::segm::segment::Segment;
    use core::marker::PhantomData;
    use i_float::int::number::int::IntNumber;

    pub(crate) struct SplitSolver<I: IntNumber> {
        coordinate: PhantomData<I>,
    }

    impl<I: IntNumber> SplitSolver<I> {
        pub(crate) fn new() -> Self {
            Self { coordinate: PhantomData }
        }

        /// Sorts, as the sweep asks for it.
        pub(crate) fn split_segments<C>(&mut self, segments: &mut [Segment<C, I>], _solver: &Solver) {
            segments.sort();
        }
    }
}
