//! Stands in for bind/: hole binding is outside the scope, so the holes are only collected.

pub(crate) mod solver {
    use i_float::int::number::int::IntNumber;
    use i_shape::int::shape::{IntContour, IntShape};

    pub(crate) trait JoinHoles<I: IntNumber> {
        fn join_unsorted_holes(&mut self, holes: Vec<IntContour<I>>, clockwise: bool);
    }

    impl<I: IntNumber> JoinHoles<I> for Vec<IntShape<I>> {
        /// The holes become one more shape, the last, also where there are none.
        fn join_unsorted_holes(&mut self, holes: Vec<IntContour<I>>, _clockwise: bool) {
            self.push(holes);
        }
    }
}
