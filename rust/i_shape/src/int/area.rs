//! Signed areas.

use super::shape::{IntContour, IntShape};
use super::{IntNumber, IntPoint, WideIntNumber};
use crate::Error;
use crate::both_forms::both_forms;
use crate::calls;

/// Signed areas, positive for a contour that runs counterclockwise. The points needn't be safe; a
/// sum that doesn't fit the wide type wraps.
///
/// The area of a shape or of a list is the sum over its contours, so holes count as they turn.
///
/// ```
/// use i_shape::{int::area::Area, int_path, int_shape};
///
/// let mut triangle = int_path![[0_i32, 0], [3, 0], [3, 3]];
/// assert_eq!((triangle.area_two(), triangle.area()), (9_i64, 4));
/// triangle.reverse();
/// assert_eq!(triangle.area_two(), -9);
///
/// let with_hole = int_shape![[[0_i32, 0], [9, 0], [9, 9], [0, 9]], [[1, 1], [1, 3], [3, 1]]];
/// assert_eq!(with_hole.area_two(), 162 - 4);
/// ```
pub trait Area<I: IntNumber> {
    both_forms! {
        /// Returns twice the area.
        area_two, must_use;
        /// Returns [`Error::NoPoint`] if a contour has no point.
        fn try_area_two(&self) -> Result<I::Wide, Error>;

        /// Returns the area, a half rounded towards zero.
        area, must_use;
        /// Returns [`Error::NoPoint`] if a contour has no point.
        fn try_area(&self) -> Result<I::Wide, Error> {
            Ok(self.try_area_two()? / I::Wide::TWO)
        }
    }
}

impl<I: IntNumber> Area<I> for [IntPoint<I>] {
    fn try_area_two(&self) -> Result<I::Wide, Error> {
        calls::area_two(self).ok_or(Error::NoPoint)
    }
}

impl<I: IntNumber> Area<I> for [IntContour<I>] {
    fn try_area_two(&self) -> Result<I::Wide, Error> {
        self.iter().try_fold(I::Wide::ZERO, |sum, contour| {
            Ok(sum.wrapping_add(contour.try_area_two()?))
        })
    }
}

impl<I: IntNumber> Area<I> for [IntShape<I>] {
    fn try_area_two(&self) -> Result<I::Wide, Error> {
        self.iter().try_fold(I::Wide::ZERO, |sum, shape| {
            Ok(sum.wrapping_add(shape.try_area_two()?))
        })
    }
}

/// The double area of the points that an iterator has left, by its name of the original crate.
pub trait UnsafeArea<I: IntNumber>: Iterator<Item = IntPoint<I>> + Sized {
    both_forms! {
        /// Returns twice the signed area, as [`Area::area_two`] does for a contour of these points.
        unsafe_area, must_use;
        /// Returns [`Error::NoPoint`] if no point is left.
        fn try_unsafe_area(self) -> Result<I::Wide, Error> {
            calls::area_two_of(self).ok_or(Error::NoPoint)
        }
    }
}

impl<I: IntNumber, T: Iterator<Item = IntPoint<I>>> UnsafeArea<I> for T {}

/// The area of the points that an iterator has left.
///
/// ```
/// use i_shape::int::{IntPoint, area::IteratorArea};
///
/// let corners = [(0, 0), (0, 5), (7, 5)].map(IntPoint::<i16>::from);
/// assert_eq!(corners.into_iter().area_two(), -35);
/// assert_eq!(corners.into_iter().rev().area(), 17);
/// ```
pub trait IteratorArea<I: IntNumber>: Iterator<Item = IntPoint<I>> + Sized {
    both_forms! {
        /// Returns twice the signed area.
        area_two, must_use;
        /// Returns [`Error::NoPoint`] if no point is left.
        fn try_area_two(self) -> Result<I::Wide, Error> {
            calls::area_two_of(self).ok_or(Error::NoPoint)
        }

        /// Returns the signed area, a half rounded towards zero.
        area, must_use;
        /// Returns [`Error::NoPoint`] if no point is left.
        fn try_area(self) -> Result<I::Wide, Error> {
            Ok(self.try_area_two()? / I::Wide::TWO)
        }
    }
}

impl<I: IntNumber, T: Iterator<Item = IntPoint<I>>> IteratorArea<I> for T {}
