//! serde for the points, contours and shapes of `i_shape`.
//!
//! A point is a struct with the fields `x` and `y`, as where serde derives it. A contour is a list of
//! points, a shape a list of contours, a list of shapes a list of these.
//!
//! A field of a type of yours names this crate:
//!
//! ```
//! use i_shape::int::shape::IntShape;
//! use serde::{Deserialize, Serialize};
//!
//! #[derive(Serialize, Deserialize)]
//! struct Parcel {
//!     number: u32,
//!     #[serde(with = "i_shape_serde")]
//!     boundary: IntShape<i32>,
//! }
//!
//! let text = r#"{"number":7,"boundary":[[{"x":0,"y":0},{"x":4,"y":0},{"x":4,"y":4}]]}"#;
//! let parcel: Parcel = serde_json::from_str(text)?;
//! assert_eq!(parcel.boundary[0][2].y, 4);
//! assert_eq!(serde_json::to_string(&parcel)?, text);
//! # Ok::<(), serde_json::Error>(())
//! ```
//!
//! Elsewhere [`Serde`] wraps a value:
//!
//! ```
//! use i_shape::int_path;
//! use i_shape_serde::Serde;
//!
//! let contour = int_path![[0_i32, 0], [4, 0], [4, 4]];
//! let text = serde_json::to_string(&Serde(contour.as_slice()))?;
//! let Serde(again): Serde<Vec<_>> = serde_json::from_str(&text)?;
//! assert_eq!(contour, again);
//! # Ok::<(), serde_json::Error>(())
//! ```
//!
//! Reading tests no safe range: the calls that clean, compare, test or locate do.

#![no_std]

extern crate alloc;

mod read;
mod written;

pub use read::Read;
use serde::{Deserialize, Deserializer, Serialize, Serializer};
pub use written::Written;

/// Serializes a value; `#[serde(with = "i_shape_serde")]` calls it.
///
/// # Errors
///
/// Returns those of the serializer.
pub fn serialize<T: Written + ?Sized, S: Serializer>(
    value: &T,
    serializer: S,
) -> Result<S::Ok, S::Error> {
    value.write(serializer)
}

/// Deserializes a value; `#[serde(with = "i_shape_serde")]` calls it.
///
/// # Errors
///
/// Returns those of the deserializer, which fails if what it reads isn't such a value.
pub fn deserialize<'de, T: Read<'de>, D: Deserializer<'de>>(
    deserializer: D,
) -> Result<T, D::Error> {
    T::read(deserializer)
}

/// A value with serde's traits.
#[derive(Clone, Copy, Debug, Default, PartialEq, Eq, Hash)]
pub struct Serde<T>(pub T);

impl<T: Written> Serialize for Serde<T> {
    fn serialize<S: Serializer>(&self, serializer: S) -> Result<S::Ok, S::Error> {
        self.0.write(serializer)
    }
}

impl<'de, T: Read<'de>> Deserialize<'de> for Serde<T> {
    fn deserialize<D: Deserializer<'de>>(deserializer: D) -> Result<Self, D::Error> {
        T::read(deserializer).map(Serde)
    }
}
