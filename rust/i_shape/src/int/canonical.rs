//! Canonical forms of shapes and of lists of shapes. The forms of one contour are in
//! [`SimpleContour`](super::simple::SimpleContour).
//!
//! Two shapes that have a form, or lists of shapes, have the same one exactly where these moves
//! lead from one to the other: a contour is rotated to another start, loses a zero turn or gains
//! one; the holes, and the shapes of a list, are reordered; a hole that collapses, or a shape of a
//! list whose outer contour collapses, is dropped or added. For the unoriented form a contour may
//! be reversed too.
//!
//! ```
//! use i_shape::int::canonical::CanonicalShape;
//! use i_shape::int_shape;
//!
//! let parcel = int_shape![[[0_i32, 0], [9, 0], [9, 9], [0, 9]], [[1, 1], [1, 3], [3, 1]]];
//! // another start, a vertex on an edge, and the hole read backwards
//! let again = int_shape![[[9_i32, 9], [0, 9], [0, 0], [5, 0], [9, 0]], [[3, 1], [1, 3], [1, 1]]];
//! assert_ne!(parcel.canonical(), again.canonical());
//! assert_eq!(parcel.canonical_unoriented(), again.canonical_unoriented());
//! ```

use super::IntNumber;
use super::shape::{IntContour, IntShape, IntShapes};
use crate::Error;
use crate::both_forms::both_forms;
use crate::flat::OwnedShapes;

/// The canonical forms of a shape.
pub trait CanonicalShape<I: IntNumber> {
    both_forms! {
        /// Returns the canonical form: the forms of the outer contour and then of the holes that
        /// don't [collapse](super::simple), these sorted; `None` if the outer contour collapses. An
        /// empty shape is its own form.
        canonical, must_use;
        /// Returns [`Error::UnsafePoint`] if a point isn't safe, [`Error::NoMemory`] if an allocation
        /// fails.
        fn try_canonical(&self) -> Result<Option<IntShape<I>>, Error>;

        /// Returns the same by the lesser of the forms of each contour and of the contour reversed.
        canonical_unoriented, must_use;
        /// Returns [`Error::UnsafePoint`] if a point isn't safe, [`Error::NoMemory`] if an allocation
        /// fails.
        fn try_canonical_unoriented(&self) -> Result<Option<IntShape<I>>, Error>;
    }
}

impl<I: IntNumber> CanonicalShape<I> for [IntContour<I>] {
    fn try_canonical(&self) -> Result<Option<IntShape<I>>, Error> {
        let shape = OwnedShapes::try_from_shapes(&[self])?;
        let form = shape.as_shapes().try_canonical()?;
        Ok(form.try_to_shapes()?.pop())
    }

    fn try_canonical_unoriented(&self) -> Result<Option<IntShape<I>>, Error> {
        let shape = OwnedShapes::try_from_shapes(&[self])?;
        let form = shape.as_shapes().try_canonical_unoriented()?;
        Ok(form.try_to_shapes()?.pop())
    }
}

/// The canonical forms of a list of shapes.
pub trait CanonicalShapes<I: IntNumber> {
    both_forms! {
        /// Returns the forms of the shapes that have one, sorted.
        canonical, must_use;
        /// Returns [`Error::UnsafePoint`] if a point isn't safe, [`Error::NoMemory`] if an allocation
        /// fails.
        fn try_canonical(&self) -> Result<IntShapes<I>, Error>;

        /// Returns the same by the lesser of the forms of each contour and of the contour reversed.
        canonical_unoriented, must_use;
        /// Returns [`Error::UnsafePoint`] if a point isn't safe, [`Error::NoMemory`] if an allocation
        /// fails.
        fn try_canonical_unoriented(&self) -> Result<IntShapes<I>, Error>;
    }
}

impl<I: IntNumber> CanonicalShapes<I> for [IntShape<I>] {
    fn try_canonical(&self) -> Result<IntShapes<I>, Error> {
        OwnedShapes::try_from_shapes(self)?
            .as_shapes()
            .try_canonical()?
            .try_to_shapes()
    }

    fn try_canonical_unoriented(&self) -> Result<IntShapes<I>, Error> {
        OwnedShapes::try_from_shapes(self)?
            .as_shapes()
            .try_canonical_unoriented()?
            .try_to_shapes()
    }
}
