//! Tests of a contour as a whole, and its winding numbers about points.

use super::area::Area;
use super::{IntNumber, IntPoint, WideIntNumber};
use crate::both_forms::both_forms;
use crate::calls::{Bulging, contains, contains_by, passes, winding};
use crate::flat::Contours;
use crate::{Error, FillRule, Location};
use alloc::vec::Vec;

pub use super::shape::IntContour as IntPath;

/// Paths in order.
pub type IntPaths<I> = Vec<IntPath<I>>;

/// Tests of a contour as a whole, and its winding numbers about points.
///
/// Calls about many points need memory for their results, the others none. Where there is more,
/// they and `is_on_boundary` take it, and are faster.
///
/// ```
/// use i_shape::{FillRule, Location, int::IntPoint, int::path::ContourExtension, int_path};
///
/// // it winds twice about its middle
/// let star = int_path![[0_i32, 9], [-6, -8], [9, 3], [-9, 3], [6, -8]];
/// let about = [IntPoint::new(0, 0), IntPoint::new(0, 8), IntPoint::new(9, 9)];
/// assert_eq!(star.winding_numbers(&about), [2, 1, 0]);
/// assert_eq!(star.contains_points(&about, FillRule::NonZero), [true, true, false]);
/// assert_eq!(star.contains_points(&about, FillRule::EvenOdd), [false, true, false]);
/// assert_eq!(star.locate(&star, FillRule::NonZero), [Location::OnBoundary; 5]);
/// ```
pub trait ContourExtension<I: IntNumber> {
    both_forms! {
        /// Returns whether the contour is convex: it has at most two points, or it never turns back
        /// on itself and doesn't turn left at one point and right at another. Consecutive duplicates
        /// count once, also across the closing edge. A contour that winds around more than once,
        /// such as a pentagram, may be convex.
        is_convex, must_use;
        /// Returns [`Error::UnsafePoint`] if a point isn't safe.
        fn try_is_convex(&self) -> Result<bool, Error>;

        /// Returns whether twice the area is at most 0.
        is_clockwise_ordered, must_use;
        /// Returns [`Error::NoPoint`] if there is no point. The points needn't be safe.
        fn try_is_clockwise_ordered(&self) -> Result<bool, Error>;

        /// Returns whether `point` is inside by the even-odd rule: an odd number of edges pass its
        /// height strictly to the right of it.
        contains_point, must_use;
        /// Returns the errors of [`try_winding_number`](ContourExtension::try_winding_number).
        fn try_contains_point(&self, point: IntPoint<I>) -> Result<bool, Error>;

        /// Returns the winding number about `point`, counterclockwise positive: the number of edges
        /// that pass its height upwards and strictly to the right of it, less those that do so
        /// downwards.
        winding_number, must_use;
        /// Returns [`Error::UnsafeAbout`] if that point isn't safe, [`Error::UnsafePoint`] if one
        /// of the contour isn't.
        fn try_winding_number(&self, point: IntPoint<I>) -> Result<isize, Error>;

        /// Returns whether a fill rule fills `point`.
        contains_by, must_use;
        /// Returns the errors of [`try_winding_number`](ContourExtension::try_winding_number).
        fn try_contains_by(&self, point: IntPoint<I>, rule: FillRule) -> Result<bool, Error>;

        /// Returns the winding number about each of the points.
        winding_numbers, must_use;
        /// Returns the errors of [`try_winding_number`](ContourExtension::try_winding_number), and
        /// [`Error::NoMemory`] if there is none for the result. It takes more memory where that
        /// saves time, and does without it if the allocation fails.
        fn try_winding_numbers(&self, points: &[IntPoint<I>]) -> Result<Vec<isize>, Error>;

        /// Returns of each of the points whether a fill rule fills it.
        contains_points, must_use;
        /// Returns the errors of [`try_winding_numbers`](ContourExtension::try_winding_numbers).
        fn try_contains_points(&self, points: &[IntPoint<I>], rule: FillRule) -> Result<Vec<bool>, Error>;

        /// Returns whether `point` lies on an edge, its ends included.
        is_on_boundary, must_use;
        /// Returns the errors of [`try_winding_number`](ContourExtension::try_winding_number).
        fn try_is_on_boundary(&self, point: IntPoint<I>) -> Result<bool, Error>;

        /// Returns where each of the points lies, by a fill rule: also whether on an edge, which
        /// takes longer than [`contains_points`](ContourExtension::contains_points) does.
        locate, must_use;
        /// Returns the errors of [`try_winding_numbers`](ContourExtension::try_winding_numbers).
        fn try_locate(&self, points: &[IntPoint<I>], rule: FillRule) -> Result<Vec<Location>, Error>;
    }
}

impl<I: IntNumber> ContourExtension<I> for [IntPoint<I>] {
    fn try_is_convex(&self) -> Result<bool, Error> {
        passes(self, Bulging {})
    }

    fn try_is_clockwise_ordered(&self) -> Result<bool, Error> {
        Ok(self.try_area_two()? <= I::Wide::ZERO)
    }

    fn try_contains_point(&self, point: IntPoint<I>) -> Result<bool, Error> {
        contains(self, point)
    }

    fn try_contains_by(&self, point: IntPoint<I>, rule: FillRule) -> Result<bool, Error> {
        contains_by(self, point, rule)
    }

    fn try_winding_number(&self, point: IntPoint<I>) -> Result<isize, Error> {
        winding(self, point)
    }

    fn try_winding_numbers(&self, points: &[IntPoint<I>]) -> Result<Vec<isize>, Error> {
        Contours::try_new(self, &[0, self.len()])?.try_winding_numbers(points)
    }

    fn try_contains_points(
        &self,
        points: &[IntPoint<I>],
        rule: FillRule,
    ) -> Result<Vec<bool>, Error> {
        Contours::try_new(self, &[0, self.len()])?.try_contains_points(points, rule)
    }

    fn try_is_on_boundary(&self, point: IntPoint<I>) -> Result<bool, Error> {
        Contours::try_new(self, &[0, self.len()])?.try_is_on_boundary(point)
    }

    fn try_locate(&self, points: &[IntPoint<I>], rule: FillRule) -> Result<Vec<Location>, Error> {
        Contours::try_new(self, &[0, self.len()])?.try_locate(points, rule)
    }
}
