//! The removal of spikes and of repeated points. At the tip of a spike a contour turns back. Points
//! at which it goes straight on stay.

use super::count::PointsCount;
use super::shape::{IntContour, IntShape, IntShapes};
use super::simple::each;
use super::{IntNumber, IntPoint};
use crate::Error;
use crate::both_forms::both_forms;
use crate::calls::{ContourDeSpiker, Spikeless, clean_one, cleaned, passes};
use crate::flat::OwnedShapes;
use alloc::vec::Vec;

/// The test and the removal of spikes.
pub trait DeSpikeContour<I: IntNumber> {
    both_forms! {
        /// Returns whether the contour has at least three points and nowhere turns back on itself.
        /// Consecutive duplicates count once, also across the closing edge.
        has_no_spikes, must_use;
        /// Returns [`Error::UnsafePoint`] if a point isn't safe.
        fn try_has_no_spikes(&self) -> Result<bool, Error>;

        /// Returns the contour without the points at which it turns back or repeats a point, `None`
        /// if it [collapses](super::simple).
        despiked_contour, must_use;
        /// Returns [`Error::UnsafePoint`] if a point isn't safe, [`Error::NoMemory`] if an allocation
        /// fails.
        fn try_despiked_contour(&self) -> Result<Option<IntContour<I>>, Error>;

        /// Writes the contour without spikes, as
        /// [`despiked_contour`](DeSpikeContour::despiked_contour) returns it, to the front of
        /// `out`. Returns the number of these points, 0 if the contour collapses.
        despike_into;
        /// Returns [`Error::NoRoom`] if `out` is shorter than the contour, [`Error::UnsafePoint`] if
        /// a point isn't safe, [`Error::NoMemory`] if an allocation fails. A contour with nothing to
        /// remove or with fewer than three points takes no memory.
        fn try_despike_into(&self, out: &mut [IntPoint<I>]) -> Result<usize, Error>;
    }
}

impl<I: IntNumber> DeSpikeContour<I> for [IntPoint<I>] {
    fn try_has_no_spikes(&self) -> Result<bool, Error> {
        passes(self, Spikeless {})
    }

    fn try_despiked_contour(&self) -> Result<Option<IntContour<I>>, Error> {
        cleaned::<ContourDeSpiker, I>(self)
    }

    fn try_despike_into(&self, out: &mut [IntPoint<I>]) -> Result<usize, Error> {
        clean_one::<ContourDeSpiker, I>(self, out)
    }
}

/// The test and the removal of spikes, of a shape. The test ends at the first contour that fails it,
/// and reads none after it.
pub trait DeSpikeShape<I: IntNumber> {
    both_forms! {
        /// Returns whether each contour passes [`DeSpikeContour::has_no_spikes`].
        has_no_spikes, must_use;
        /// Returns [`Error::UnsafePoint`] if a point that the test reads isn't safe.
        fn try_has_no_spikes(&self) -> Result<bool, Error>;

        /// Returns the shape with each contour despiked that has spikes, and without the holes that
        /// [collapse](super::simple); `None` if its outer contour does. A contour without spikes
        /// stays as it is, and so does an empty shape.
        despiked_shape, must_use;
        /// Returns [`Error::UnsafePoint`] if a point isn't safe, [`Error::NoMemory`] if an allocation
        /// fails.
        fn try_despiked_shape(&self) -> Result<Option<IntShape<I>>, Error>;
    }
}

impl<I: IntNumber> DeSpikeShape<I> for [IntContour<I>] {
    fn try_has_no_spikes(&self) -> Result<bool, Error> {
        each(self, Vec::len, |contour| contour.try_has_no_spikes())
    }

    fn try_despiked_shape(&self) -> Result<Option<IntShape<I>>, Error> {
        let left = OwnedShapes::try_from_shapes(&[self])?
            .as_shapes()
            .try_spikes_removed()?;
        Ok(left.try_to_shapes()?.pop())
    }
}

/// The test and the removal of spikes, of a list of shapes. The test ends at the first contour that
/// fails it, and reads none after it.
pub trait DeSpikeShapes<I: IntNumber> {
    both_forms! {
        /// Returns whether each contour of each shape passes [`DeSpikeContour::has_no_spikes`].
        has_no_spikes, must_use;
        /// Returns [`Error::UnsafePoint`] if a point that the test reads isn't safe.
        fn try_has_no_spikes(&self) -> Result<bool, Error>;

        /// Returns the shapes that are left, in order, each as [`DeSpikeShape::despiked_shape`]
        /// returns it.
        despiked_shapes, must_use;
        /// Returns [`Error::UnsafePoint`] if a point isn't safe, [`Error::NoMemory`] if an allocation
        /// fails.
        fn try_despiked_shapes(&self) -> Result<IntShapes<I>, Error>;
    }
}

impl<I: IntNumber> DeSpikeShapes<I> for [IntShape<I>] {
    fn try_has_no_spikes(&self) -> Result<bool, Error> {
        each(
            self,
            |shape| shape.points_count(),
            |shape| shape.try_has_no_spikes(),
        )
    }

    fn try_despiked_shapes(&self) -> Result<IntShapes<I>, Error> {
        OwnedShapes::try_from_shapes(self)?
            .as_shapes()
            .try_spikes_removed()?
            .try_to_shapes()
    }
}

/// The removal of spikes in place, of a contour, a shape or a list of shapes.
pub trait DeSpike {
    both_forms! {
        /// Removes spikes. A contour that [collapses](super::simple), and a shape whose outer contour
        /// does, is empty afterwards; holes that collapse, and such shapes of a list, are taken out.
        /// Returns `false` if each contour passes [`DeSpikeContour::has_no_spikes`]: then nothing
        /// changes.
        remove_spikes;
        /// Returns [`Error::UnsafePoint`] if a point isn't safe, [`Error::NoMemory`] if an allocation
        /// fails. Then nothing changes.
        fn try_remove_spikes(&mut self) -> Result<bool, Error>;
    }
}

impl<I: IntNumber> DeSpike for IntContour<I> {
    fn try_remove_spikes(&mut self) -> Result<bool, Error> {
        if self.try_has_no_spikes()? {
            return Ok(false);
        }
        *self = self.try_despiked_contour()?.unwrap_or_default();
        Ok(true)
    }
}

impl<I: IntNumber> DeSpike for IntShape<I> {
    fn try_remove_spikes(&mut self) -> Result<bool, Error> {
        if self.try_has_no_spikes()? {
            return Ok(false);
        }
        *self = self.try_despiked_shape()?.unwrap_or_default();
        Ok(true)
    }
}

impl<I: IntNumber> DeSpike for IntShapes<I> {
    fn try_remove_spikes(&mut self) -> Result<bool, Error> {
        if self.try_has_no_spikes()? {
            return Ok(false);
        }
        *self = self.try_despiked_shapes()?;
        Ok(true)
    }
}
