//! Numbers of points.

use super::IntNumber;
use super::shape::{IntContour, IntShape};
use alloc::vec::Vec;

pub use super::shape::IntShapes;

/// The number of points of a shape or a list.
pub trait PointsCount {
    /// Returns the number of points of all its contours together.
    #[must_use]
    fn points_count(&self) -> usize;
}

impl<I: IntNumber> PointsCount for [IntContour<I>] {
    fn points_count(&self) -> usize {
        self.iter().map(Vec::len).sum()
    }
}

impl<I: IntNumber> PointsCount for [IntShape<I>] {
    fn points_count(&self) -> usize {
        self.iter().map(|shape| shape.points_count()).sum()
    }
}
