//! The types of contours, shapes and shape lists.

use super::IntPoint;
use alloc::vec::Vec;

/// Points read as a cycle: the last one isn't the first one again.
pub type IntContour<I> = Vec<IntPoint<I>>;
/// A polygon: its outer contour, and then its holes.
pub type IntShape<I> = Vec<IntContour<I>>;
/// A list of polygons.
pub type IntShapes<I> = Vec<IntShape<I>>;
