//! The winding numbers of a shape about points, which points a fill rule fills by them, and which
//! lie on an edge.

use super::shape::IntContour;
use super::simple::of_each;
use super::{IntNumber, IntPoint};
use crate::both_forms::both_forms;
use crate::flat::OwnedContours;
use crate::int::path::ContourExtension;
use crate::{Error, FillRule, Location};
use alloc::vec::Vec;

/// The winding numbers of a shape about points, which points a fill rule fills by them, and which lie
/// on an edge.
///
/// Calls about many points copy the contours.
pub trait ShapeExtension<I: IntNumber> {
    both_forms! {
        /// Returns the sum of the contours' winding numbers about `point`.
        winding_number, must_use;
        /// Returns [`Error::UnsafeAbout`] if that point isn't safe, [`Error::UnsafePoint`] if one of
        /// the shape isn't.
        fn try_winding_number(&self, point: IntPoint<I>) -> Result<isize, Error>;

        /// Returns whether a fill rule fills `point`.
        contains_by, must_use;
        /// Returns [`Error::UnsafeAbout`] if that point isn't safe, [`Error::UnsafePoint`] if one of
        /// the shape isn't.
        fn try_contains_by(&self, point: IntPoint<I>, rule: FillRule) -> Result<bool, Error> {
            Ok(rule.fills(self.try_winding_number(point)?))
        }

        /// Returns the sum of the contours' winding numbers about each of the points.
        winding_numbers, must_use;
        /// Returns [`Error::UnsafeAbout`] if one of these points isn't safe, [`Error::UnsafePoint`] if
        /// one of the shape isn't, [`Error::NoMemory`] if an allocation fails.
        fn try_winding_numbers(&self, points: &[IntPoint<I>]) -> Result<Vec<isize>, Error>;

        /// Returns of each of the points whether a fill rule fills it.
        contains_points, must_use;
        /// Returns [`Error::UnsafeAbout`] if one of these points isn't safe, [`Error::UnsafePoint`] if
        /// one of the shape isn't, [`Error::NoMemory`] if an allocation fails.
        fn try_contains_points(&self, points: &[IntPoint<I>], rule: FillRule) -> Result<Vec<bool>, Error>;

        /// Returns whether `point` lies on an edge of a contour, its ends included.
        is_on_boundary, must_use;
        /// Returns [`Error::UnsafeAbout`] if that point isn't safe, [`Error::UnsafePoint`] if one of
        /// the shape isn't.
        fn try_is_on_boundary(&self, point: IntPoint<I>) -> Result<bool, Error>;

        /// Returns where each of the points lies, by a fill rule: also whether on an edge, which
        /// takes longer than `contains_points` does.
        locate, must_use;
        /// Returns [`Error::UnsafeAbout`] if one of these points isn't safe, [`Error::UnsafePoint`] if
        /// one of the shape isn't, [`Error::NoMemory`] if an allocation fails.
        fn try_locate(&self, points: &[IntPoint<I>], rule: FillRule) -> Result<Vec<Location>, Error>;
    }
}

impl<I: IntNumber> ShapeExtension<I> for [IntContour<I>] {
    fn try_winding_number(&self, point: IntPoint<I>) -> Result<isize, Error> {
        if !point.is_in_safe_range() {
            return Err(Error::UnsafeAbout(0));
        }
        of_each(self, Vec::len, |contour| contour.try_winding_number(point)).sum()
    }

    fn try_winding_numbers(&self, points: &[IntPoint<I>]) -> Result<Vec<isize>, Error> {
        OwnedContours::try_from_contours(self)?
            .as_contours()
            .try_winding_numbers(points)
    }

    fn try_contains_points(
        &self,
        points: &[IntPoint<I>],
        rule: FillRule,
    ) -> Result<Vec<bool>, Error> {
        OwnedContours::try_from_contours(self)?
            .as_contours()
            .try_contains_points(points, rule)
    }

    fn try_is_on_boundary(&self, point: IntPoint<I>) -> Result<bool, Error> {
        if !point.is_in_safe_range() {
            return Err(Error::UnsafeAbout(0));
        }
        // also behind an edge that the point lies on, each contour has to be safe
        of_each(self, Vec::len, |contour| contour.try_is_on_boundary(point))
            .try_fold(false, |is_on, is_on_it| Ok(is_on_it? || is_on))
    }

    fn try_locate(&self, points: &[IntPoint<I>], rule: FillRule) -> Result<Vec<Location>, Error> {
        OwnedContours::try_from_contours(self)?
            .as_contours()
            .try_locate(points, rule)
    }
}
