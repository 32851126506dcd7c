use i_float::int::number::int::IntNumber;
use i_float::int::number::wide_int::WideIntNumber;
use i_float::int::point::IntPoint;

pub trait UnsafeArea<I: IntNumber> {
    /// The sum of x1·y2 - x2·y1 over neighbouring points, last to first included.
    fn unsafe_area(self) -> I::Wide;
}

impl<I: IntNumber, It: Iterator<Item = IntPoint<I>>> UnsafeArea<I> for It {
    fn unsafe_area(mut self) -> I::Wide {
        let Some(first) = self.next() else {
            return I::Wide::ZERO;
        };
        let mut last = first;
        let mut sum = I::Wide::ZERO;
        for point in self.chain([first]) {
            sum = sum + (last.x.to_wide() * point.y.to_wide() - point.x.to_wide() * last.y.to_wide());
            last = point;
        }
        sum
    }
}
