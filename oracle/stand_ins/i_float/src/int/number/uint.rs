use core::fmt::Debug;
use core::ops::Shr;

pub trait UIntNumber: Copy + Ord + Debug + Send + Sync + Shr<u32, Output = Self> + 'static {
    const ZERO: Self;
}

impl UIntNumber for u64 {
    const ZERO: Self = 0;
}
