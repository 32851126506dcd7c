use super::uint::UIntNumber;
use core::fmt::Debug;
use core::ops::{Add, BitAnd, Mul, Neg, Sub};

pub trait WideIntNumber:
    Copy
    + Ord
    + Debug
    + Send
    + Sync
    + Add<Output = Self>
    + Sub<Output = Self>
    + Mul<Output = Self>
    + Neg<Output = Self>
    + BitAnd<Output = Self>
    + 'static
{
    type UInt: UIntNumber;

    const ZERO: Self;
    const ONE: Self;

    fn from_usize(value: usize) -> Self;
    fn to_usize(self) -> usize;
    fn wrapping_add(self, other: Self) -> Self;
    fn wrapping_mul(self, other: Self) -> Self;
    fn unsigned_abs(self) -> Self::UInt;
}

impl WideIntNumber for i64 {
    type UInt = u64;

    const ZERO: Self = 0;
    const ONE: Self = 1;

    #[inline(always)]
    fn from_usize(value: usize) -> Self {
        value as i64
    }

    #[inline(always)]
    fn to_usize(self) -> usize {
        self as usize
    }

    #[inline(always)]
    fn wrapping_add(self, other: Self) -> Self {
        self.wrapping_add(other)
    }

    #[inline(always)]
    fn wrapping_mul(self, other: Self) -> Self {
        self.wrapping_mul(other)
    }

    #[inline(always)]
    fn unsigned_abs(self) -> u64 {
        self.unsigned_abs()
    }
}
