//! What is serialized, and how.

use crate::Serde;
use alloc::vec::Vec;
use i_shape::flat::{Contours, OwnedContours, OwnedShapes, Shapes};
use i_shape::int::{IntNumber, IntPoint};
use serde::ser::SerializeStruct as _;
use serde::{Serialize, Serializer};

/// A value that [`Serde`] serializes: a point, contours and shapes in lists or batches, and options
/// of these.
pub trait Written {
    /// Serializes it.
    ///
    /// # Errors
    ///
    /// Returns those of the serializer.
    fn write<S: Serializer>(&self, serializer: S) -> Result<S::Ok, S::Error>;
}

impl<T: Written + ?Sized> Written for &T {
    fn write<S: Serializer>(&self, serializer: S) -> Result<S::Ok, S::Error> {
        (**self).write(serializer)
    }
}

impl<I: Serialize> Written for IntPoint<I> {
    fn write<S: Serializer>(&self, serializer: S) -> Result<S::Ok, S::Error> {
        let mut fields = serializer.serialize_struct("IntPoint", 2)?;
        fields.serialize_field("x", &self.x)?;
        fields.serialize_field("y", &self.y)?;
        fields.end()
    }
}

impl<T: Written> Written for Option<T> {
    fn write<S: Serializer>(&self, serializer: S) -> Result<S::Ok, S::Error> {
        self.as_ref().map(Serde).serialize(serializer)
    }
}

impl<T: Written> Written for [T] {
    fn write<S: Serializer>(&self, serializer: S) -> Result<S::Ok, S::Error> {
        serializer.collect_seq(self.iter().map(Serde))
    }
}

impl<T: Written> Written for Vec<T> {
    fn write<S: Serializer>(&self, serializer: S) -> Result<S::Ok, S::Error> {
        self.as_slice().write(serializer)
    }
}

impl<I: IntNumber + Serialize> Written for Contours<'_, I> {
    fn write<S: Serializer>(&self, serializer: S) -> Result<S::Ok, S::Error> {
        serializer.collect_seq(self.iter().map(Serde))
    }
}

impl<I: IntNumber + Serialize> Written for Shapes<'_, I> {
    fn write<S: Serializer>(&self, serializer: S) -> Result<S::Ok, S::Error> {
        serializer.collect_seq(self.iter().map(Serde))
    }
}

impl<I: IntNumber + Serialize> Written for OwnedContours<I> {
    fn write<S: Serializer>(&self, serializer: S) -> Result<S::Ok, S::Error> {
        self.as_contours().write(serializer)
    }
}

impl<I: IntNumber + Serialize> Written for OwnedShapes<I> {
    fn write<S: Serializer>(&self, serializer: S) -> Result<S::Ok, S::Error> {
        self.as_shapes().write(serializer)
    }
}
