//! The types of coordinates and of double areas.

use crate::erased::i_shape_core::number as proved;
use core::fmt::{Debug, Display};
use core::hash::Hash;
use core::ops::{Add, Div, Mul, Neg, Shl, Shr, Sub};

/// A number as the proved functions take it. It is private, so no other crate can add a number.
pub trait Number: Copy {
    /// The same number there.
    type Proved: proved::IntNumber<Wide = Self::Double>;
    /// The type of a double area there.
    type Double;

    /// The same number there.
    fn proved(self) -> Self::Proved;
}

/// Seals `WideIntNumber`.
pub trait Sealed {}

/// A coordinate: `i16`, `i32` or `i64`. Its operators are those of the type.
///
/// This trait is sealed: no other crate can implement it.
pub trait IntNumber:
    Number<Double = <Self as IntNumber>::Wide>
    + Ord
    + Hash
    + Debug
    + Display
    + Default
    + Add<Output = Self>
    + Sub<Output = Self>
    + Mul<Output = Self>
    + Div<Output = Self>
    + Neg<Output = Self>
    + Shl<u32, Output = Self>
    + Shr<u32, Output = Self>
    + Send
    + Sync
    + 'static
{
    /// The type of a double area, in which products of coordinates fit: `i32`, `i64` or `i128`.
    type Wide: WideIntNumber;
    /// The coordinate 0.
    const ZERO: Self;
    /// The coordinate 1.
    const ONE: Self;
    /// The least coordinate.
    const MIN: Self;
    /// The greatest coordinate.
    const MAX: Self;
    /// The number of bits.
    const BITS: u32;

    /// Returns the same number in the wider type.
    #[must_use]
    fn to_wide(self) -> Self::Wide;
}

/// The type of a double area: `i32`, `i64` or `i128`. Its operators are those of the type.
///
/// This trait is sealed: no other crate can implement it.
pub trait WideIntNumber:
    Sealed
    + Copy
    + Ord
    + Hash
    + Debug
    + Display
    + Default
    + Add<Output = Self>
    + Sub<Output = Self>
    + Mul<Output = Self>
    + Div<Output = Self>
    + Neg<Output = Self>
    + Send
    + Sync
    + 'static
{
    /// The number 0.
    const ZERO: Self;
    /// The number 1.
    const ONE: Self;
    /// The number 2.
    const TWO: Self;

    /// Returns the sum. One that doesn't fit wraps.
    #[must_use]
    fn wrapping_add(self, other: Self) -> Self;

    /// Returns the difference. One that doesn't fit wraps.
    #[must_use]
    fn wrapping_sub(self, other: Self) -> Self;

    /// Returns the product. One that doesn't fit wraps.
    #[must_use]
    fn wrapping_mul(self, other: Self) -> Self;

    /// Returns -1, 0 or 1 for a number below, equal to or above 0.
    #[must_use]
    fn signum(self) -> Self;
}

macro_rules! numbers {
    ($($number:ident $wide:ident),*) => {
        $(
            impl Number for $number {
                type Proved = $number;
                type Double = $wide;

                fn proved(self) -> $number {
                    self
                }
            }

            impl IntNumber for $number {
                type Wide = $wide;
                const ZERO: $number = 0;
                const ONE: $number = 1;
                const MIN: $number = $number::MIN;
                const MAX: $number = $number::MAX;
                const BITS: u32 = $number::BITS;

                fn to_wide(self) -> $wide {
                    self.into()
                }
            }

            impl Sealed for $wide {}

            impl WideIntNumber for $wide {
                const ZERO: $wide = 0;
                const ONE: $wide = 1;
                const TWO: $wide = 2;

                fn wrapping_add(self, other: $wide) -> $wide {
                    self.wrapping_add(other)
                }

                fn wrapping_sub(self, other: $wide) -> $wide {
                    self.wrapping_sub(other)
                }

                fn wrapping_mul(self, other: $wide) -> $wide {
                    self.wrapping_mul(other)
                }

                fn signum(self) -> $wide {
                    self.signum()
                }
            }
        )*
    };
}

numbers!(i16 i32, i32 i64, i64 i128);
