//! Tests and areas of many contours.

use super::Contours;
use crate::Error;
use crate::both_forms::both_forms;
use crate::calls::{Bulging, DoubleArea, Passes, SafeRange, Simple, Spikeless, Tested, measured};
use crate::int::{IntNumber, WideIntNumber};
use alloc::vec::Vec;

impl<I: IntNumber> Contours<'_, I> {
    both_forms! {
        /// Returns of each contour, in order, whether it has at least three points, and none of them
        /// is a [zero turn](crate::int::simple).
        are_simple, must_use;
        /// Returns [`Error::UnsafePoint`] if a point of a contour isn't safe, [`Error::NoMemory`]
        /// if there is none for the result.
        pub fn try_are_simple(self) -> Result<Vec<bool>, Error> {
            let test = Passes(Tested { test: Simple {} });
            measured(self.points, self.offsets, test, false)
        }

        /// Returns of each contour, in order, whether it has at least three points and nowhere turns
        /// back on itself. Consecutive duplicates count once, also across the closing edge.
        have_no_spikes, must_use;
        /// Returns [`Error::UnsafePoint`] if a point of a contour isn't safe, [`Error::NoMemory`]
        /// if there is none for the result.
        pub fn try_have_no_spikes(self) -> Result<Vec<bool>, Error> {
            let test = Passes(Tested { test: Spikeless {} });
            measured(self.points, self.offsets, test, false)
        }

        /// Returns of each contour, in order, whether it is
        /// [convex](crate::int::path::ContourExtension::is_convex).
        are_convex, must_use;
        /// Returns [`Error::UnsafePoint`] if a point of a contour isn't safe, [`Error::NoMemory`]
        /// if there is none for the result.
        pub fn try_are_convex(self) -> Result<Vec<bool>, Error> {
            let test = Passes(Tested { test: Bulging {} });
            measured(self.points, self.offsets, test, false)
        }

        /// Returns of each contour, in order, whether each of its points is safe.
        are_in_safe_range, must_use;
        /// Returns [`Error::NoMemory`] if there is none for the result.
        pub fn try_are_in_safe_range(self) -> Result<Vec<bool>, Error> {
            measured(self.points, self.offsets, Passes(SafeRange {}), false)
        }

        /// Returns twice the area of each contour, in order: positive if it runs counterclockwise, 0
        /// if it has no point. The points needn't be safe; a sum that doesn't fit the wide type
        /// wraps.
        ///
        /// ```
        /// use i_shape::flat::Contours;
        /// use i_shape::int::IntPoint;
        ///
        /// let points = [[0, 0], [4, 0], [4, 4], [0, 0], [0, 3], [3, 0]];
        /// let points = points.map(|[x, y]| IntPoint::<i32>::new(x, y));
        /// let contours = Contours::new(&points, &[0, 3, 3, 6]);
        /// assert_eq!(contours.areas_two(), [16, 0, -9]);
        /// ```
        areas_two, must_use;
        /// Returns [`Error::NoMemory`] if there is none for the result.
        pub fn try_areas_two(self) -> Result<Vec<I::Wide>, Error> {
            measured(self.points, self.offsets, DoubleArea {}, I::Wide::ZERO)
        }
    }
}
