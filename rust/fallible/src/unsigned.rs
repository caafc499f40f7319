//! Signed numbers whose bits are read as unsigned ones. Rust's own call for this is newer than 1.85.

/// Reinterprets the bits of a signed number as an unsigned one.
pub trait Unsigned {
    /// Rattle's `i128::cast_unsigned`: the unsigned number with the same bits.
    fn to_unsigned(self) -> u128;
}

impl Unsigned for i128 {
    fn to_unsigned(self) -> u128 {
        self as u128
    }
}
