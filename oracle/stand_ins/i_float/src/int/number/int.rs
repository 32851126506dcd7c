use super::uint::UIntNumber;
use super::wide_int::WideIntNumber;
use core::fmt::Debug;

/// A coordinate. Its wide number holds every product of two differences.
pub trait IntNumber: Copy + Ord + Debug + Send + Sync + 'static {
    type Wide: WideIntNumber<UInt = Self::WideUInt>;
    type WideUInt: UIntNumber;

    const ZERO: Self;
    const MAX: Self;

    fn to_wide(self) -> Self::Wide;
}

impl IntNumber for i32 {
    type Wide = i64;
    type WideUInt = u64;

    const ZERO: Self = 0;
    const MAX: Self = i32::MAX;

    #[inline(always)]
    fn to_wide(self) -> i64 {
        self as i64
    }
}
