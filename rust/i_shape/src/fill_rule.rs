//! The fill rules of overlays.

/// Which points the contours of a shape fill, by the sum of their winding numbers, which are positive
/// counterclockwise.
#[derive(Clone, Copy, Debug, PartialEq, Eq, Hash)]
#[repr(i32)] // the codes of the C library, from 0 on
pub enum FillRule {
    /// Those with an odd winding number.
    EvenOdd,
    /// Those with a winding number other than zero.
    NonZero,
    /// Those with a winding number above zero.
    Positive,
    /// Those with a winding number below zero.
    Negative,
}

impl FillRule {
    /// Returns whether the rule fills a point about which the contours have this winding number.
    #[must_use]
    pub fn fills(self, winding: isize) -> bool {
        match self {
            FillRule::EvenOdd => winding % 2 != 0,
            FillRule::NonZero => winding != 0,
            FillRule::Positive => winding > 0,
            FillRule::Negative => winding < 0,
        }
    }
}
