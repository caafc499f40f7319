//! The safe range.

use super::IntNumber;
use crate::calls::are_safe;
use crate::source::int::resource::IntShapeResource;

/// The test that calls make of their points.
pub trait IntSafeRange<I: IntNumber> {
    /// Returns whether both coordinates of each point lie strictly between -2^(W-2) and 2^(W-2),
    /// where W is their number of bits.
    #[must_use]
    fn is_in_safe_range(&self) -> bool;
}

impl<I: IntNumber, R: IntShapeResource<I> + ?Sized> IntSafeRange<I> for R {
    fn is_in_safe_range(&self) -> bool {
        self.iter_paths().all(are_safe)
    }
}
