//! Where points lie.

/// Where a point lies relative to the edges of contours, and by a fill rule. What lies further inside
/// is greater.
#[derive(Clone, Copy, Debug, PartialEq, Eq, PartialOrd, Ord, Hash)]
#[repr(i8)] // the numbers of the C library
pub enum Location {
    /// On no edge, and the rule doesn't fill it.
    Outside = -1,
    /// On an edge, its ends included.
    OnBoundary = 0,
    /// On no edge, and the rule fills it.
    Inside = 1,
}
