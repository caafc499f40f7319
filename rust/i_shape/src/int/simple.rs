//! The removal of zero turns. Nothing here looks at self-intersections, or at where holes lie.
//!
//! A point of a contour is a *zero turn* if the contour goes straight on there, turns back, or
//! repeats a point. A contour *collapses* if removing zero turns leaves fewer than three points. The
//! crate's [first page](crate#terms) has these terms too.

use super::count::PointsCount;
use super::shape::{IntContour, IntShape, IntShapes};
use super::{IntNumber, IntPoint};
use crate::Error;
use crate::both_forms::both_forms;
use crate::calls::{
    self, Canonicalizer, Simple, UnorientedCanonicalizer, clean_one, cleaned, cleaned_by, passes,
};
use crate::flat::OwnedShapes;
use alloc::vec::Vec;
use core::fmt;

/// The test and the removal of [zero turns](self), and the canonical forms.
pub trait SimpleContour<I: IntNumber> {
    both_forms! {
        /// Returns whether there are at least three points, and none of them is a
        /// [zero turn](self).
        is_simple, must_use;
        /// Returns [`Error::UnsafePoint`] if a point isn't safe.
        fn try_is_simple(&self) -> Result<bool, Error>;

        /// Returns the contour without zero turns, `None` if it [collapses](self). Whatever the
        /// order of removal, the result is the same up to rotation.
        #[doc(alias = "simplify")]
        simplified, must_use;
        /// Returns [`Error::UnsafePoint`] if a point isn't safe, [`Error::NoMemory`] if an allocation
        /// fails.
        fn try_simplified(&self) -> Result<Option<IntContour<I>>, Error>;

        /// Returns the contour without zero turns, from the start at which it is least, by x and
        /// then y, point by point. `None` if it [collapses](self).
        ///
        /// Two contours that have a form have the same one exactly if rotations, and zero turns
        /// lost or gained, lead from one to the other.
        canonical, must_use;
        /// Returns [`Error::UnsafePoint`] if a point isn't safe, [`Error::NoMemory`] if an allocation
        /// fails.
        fn try_canonical(&self) -> Result<Option<IntContour<I>>, Error>;

        /// Returns the lesser of the canonical forms of the contour and of the contour reversed.
        /// `None` if it [collapses](self).
        ///
        /// Two contours that have a form have the same one exactly if rotations, zero turns lost or
        /// gained, and reversals lead from one to the other.
        canonical_unoriented, must_use;
        /// Returns [`Error::UnsafePoint`] if a point isn't safe, [`Error::NoMemory`] if an allocation
        /// fails.
        fn try_canonical_unoriented(&self) -> Result<Option<IntContour<I>>, Error>;

        /// Writes the contour without zero turns, as [`simplified`](SimpleContour::simplified)
        /// returns it, to the front of `out`. Returns the number of these points, 0 if the contour
        /// [collapses](self).
        simplify_into;
        /// Returns [`Error::NoRoom`] if `out` is shorter than the contour, [`Error::UnsafePoint`] if
        /// a point isn't safe, [`Error::NoMemory`] if an allocation fails. A contour that is clean
        /// or has fewer than three points takes no memory.
        fn try_simplify_into(&self, out: &mut [IntPoint<I>]) -> Result<usize, Error>;

        /// Does the same as [`simplify_into`](SimpleContour::simplify_into) with the
        /// [canonical form](SimpleContour::canonical).
        canonical_into;
        /// Returns the errors of [`try_simplify_into`](SimpleContour::try_simplify_into).
        fn try_canonical_into(&self, out: &mut [IntPoint<I>]) -> Result<usize, Error>;

        /// Does the same as [`simplify_into`](SimpleContour::simplify_into) with the
        /// [canonical form without regard to direction](SimpleContour::canonical_unoriented).
        canonical_unoriented_into;
        /// Returns the errors of [`try_simplify_into`](SimpleContour::try_simplify_into).
        fn try_canonical_unoriented_into(&self, out: &mut [IntPoint<I>]) -> Result<usize, Error>;
    }
}

impl<I: IntNumber> SimpleContour<I> for [IntPoint<I>] {
    fn try_is_simple(&self) -> Result<bool, Error> {
        passes(self, Simple {})
    }

    fn try_simplified(&self) -> Result<Option<IntContour<I>>, Error> {
        cleaned::<calls::ContourSimplifier, I>(self)
    }

    fn try_canonical(&self) -> Result<Option<IntContour<I>>, Error> {
        cleaned::<Canonicalizer, I>(self)
    }

    fn try_canonical_unoriented(&self) -> Result<Option<IntContour<I>>, Error> {
        cleaned::<UnorientedCanonicalizer, I>(self)
    }

    fn try_simplify_into(&self, out: &mut [IntPoint<I>]) -> Result<usize, Error> {
        clean_one::<calls::ContourSimplifier, I>(self, out)
    }

    fn try_canonical_into(&self, out: &mut [IntPoint<I>]) -> Result<usize, Error> {
        clean_one::<Canonicalizer, I>(self, out)
    }

    fn try_canonical_unoriented_into(&self, out: &mut [IntPoint<I>]) -> Result<usize, Error> {
        clean_one::<UnorientedCanonicalizer, I>(self, out)
    }
}

/// The test and the removal of [zero turns](self), of a shape. The test ends at the first contour
/// that isn't simple, and reads none after it.
pub trait SimpleShape<I: IntNumber> {
    both_forms! {
        /// Returns whether each contour is [simple](SimpleContour::is_simple).
        is_simple, must_use;
        /// Returns [`Error::UnsafePoint`] if a point that the test reads isn't safe.
        fn try_is_simple(&self) -> Result<bool, Error>;

        /// Returns the shape without zero turns and without the holes that [collapse](self), `None`
        /// if its outer contour does. An empty shape stays an empty shape.
        simplified, must_use;
        /// Returns [`Error::UnsafePoint`] if a point isn't safe, [`Error::NoMemory`] if an allocation
        /// fails.
        fn try_simplified(&self) -> Result<Option<IntShape<I>>, Error>;
    }
}

impl<I: IntNumber> SimpleShape<I> for [IntContour<I>] {
    fn try_is_simple(&self) -> Result<bool, Error> {
        each(self, Vec::len, |contour| contour.try_is_simple())
    }

    fn try_simplified(&self) -> Result<Option<IntShape<I>>, Error> {
        let left = OwnedShapes::try_from_shapes(&[self])?
            .as_shapes()
            .try_simplified()?;
        Ok(left.try_to_shapes()?.pop())
    }
}

/// The test and the removal of [zero turns](self), of a list of shapes. The test ends at the first
/// contour that isn't simple, and reads none after it.
pub trait SimpleShapes<I: IntNumber> {
    both_forms! {
        /// Returns whether each contour of each shape is [simple](SimpleContour::is_simple).
        is_simple, must_use;
        /// Returns [`Error::UnsafePoint`] if a point that the test reads isn't safe.
        fn try_is_simple(&self) -> Result<bool, Error>;

        /// Returns the shapes that are left, in order, each as [`SimpleShape::simplified`] returns
        /// it.
        #[doc(alias = "simplify_shapes")]
        simplified, must_use;
        /// Returns [`Error::UnsafePoint`] if a point isn't safe, [`Error::NoMemory`] if an allocation
        /// fails.
        fn try_simplified(&self) -> Result<IntShapes<I>, Error>;
    }
}

impl<I: IntNumber> SimpleShapes<I> for [IntShape<I>] {
    fn try_is_simple(&self) -> Result<bool, Error> {
        each(
            self,
            |shape| shape.points_count(),
            |shape| shape.try_is_simple(),
        )
    }

    fn try_simplified(&self) -> Result<IntShapes<I>, Error> {
        OwnedShapes::try_from_shapes(self)?
            .as_shapes()
            .try_simplified()?
            .try_to_shapes()
    }
}

/// The removal of [zero turns](self) in place, of a contour, a shape or a list of shapes.
pub trait Simplify {
    both_forms! {
        /// Removes zero turns. A contour that [collapses](self), and a shape whose outer contour
        /// does, is empty afterwards; holes that collapse, and such shapes of a list, are taken out.
        /// Returns `false` if each contour is simple: then nothing changes.
        #[doc(alias = "simplify_shape")]
        #[doc(alias = "simplify_shapes")]
        simplify_contour;
        /// Returns [`Error::UnsafePoint`] if a point isn't safe, [`Error::NoMemory`] if an allocation
        /// fails. Then nothing changes.
        fn try_simplify_contour(&mut self) -> Result<bool, Error>;
    }
}

impl<I: IntNumber> Simplify for IntContour<I> {
    fn try_simplify_contour(&mut self) -> Result<bool, Error> {
        if self.try_is_simple()? {
            return Ok(false);
        }
        *self = self.try_simplified()?.unwrap_or_default();
        Ok(true)
    }
}

impl<I: IntNumber> Simplify for IntShape<I> {
    fn try_simplify_contour(&mut self) -> Result<bool, Error> {
        if self.try_is_simple()? {
            return Ok(false);
        }
        *self = self.try_simplified()?.unwrap_or_default();
        Ok(true)
    }
}

impl<I: IntNumber> Simplify for IntShapes<I> {
    fn try_simplify_contour(&mut self) -> Result<bool, Error> {
        if self.try_is_simple()? {
            return Ok(false);
        }
        *self = self.try_simplified()?;
        Ok(true)
    }
}

/// Removes zero turns from one contour after another, and keeps the memory that this takes.
pub struct ContourSimplifier {
    simplifier: calls::ContourSimplifier,
}

impl ContourSimplifier {
    both_forms! {
        /// Returns the contour without zero turns, as [`SimpleContour::simplified`] does.
        simplify_contour, must_use;
        /// Returns the errors of [`SimpleContour::try_simplified`].
        pub fn try_simplify_contour[I: IntNumber](
            &mut self,
            contour: &[IntPoint<I>],
        ) -> Result<Option<IntContour<I>>, Error> {
            cleaned_by(&mut self.simplifier, contour)
        }
    }
}

impl Default for ContourSimplifier {
    fn default() -> Self {
        let simplifier = calls::ContourSimplifier::new(calls::Global);
        ContourSimplifier { simplifier }
    }
}

impl fmt::Debug for ContourSimplifier {
    fn fmt(&self, formatter: &mut fmt::Formatter<'_>) -> fmt::Result {
        formatter
            .debug_struct("ContourSimplifier")
            .finish_non_exhaustive()
    }
}

/// Returns what `ask` returns of each item. An error counts the points of the items before it, too.
pub(super) fn of_each<T, U>(
    items: &[T],
    points_count: impl Fn(&T) -> usize,
    ask: impl Fn(&T) -> Result<U, Error>,
) -> impl Iterator<Item = Result<U, Error>> {
    items.iter().scan(0, move |before, item| {
        let result = ask(item).map_err(|error| error.behind(*before));
        *before += points_count(item);
        Some(result)
    })
}

/// Returns whether each item passes a test; the first error or `false` ends it.
pub(super) fn each<T>(
    items: &[T],
    points_count: impl Fn(&T) -> usize,
    test: impl Fn(&T) -> Result<bool, Error>,
) -> Result<bool, Error> {
    for passes in of_each(items, points_count, test) {
        if !passes? {
            return Ok(false);
        }
    }
    Ok(true)
}
