//! What is deserialized, and how.

use crate::Serde;
use alloc::vec::Vec;
use core::fmt;
use core::marker::PhantomData;
use i_shape::flat::{OwnedContours, OwnedShapes};
use i_shape::int::shape::{IntContour, IntShape};
use i_shape::int::{IntNumber, IntPoint};
use serde::de::{Error as _, MapAccess, SeqAccess, Visitor};
use serde::{Deserialize, Deserializer};

/// A value that [`Serde`] deserializes: a point, contours and shapes in lists or batches, and
/// options of these.
pub trait Read<'de>: Sized {
    /// Deserializes it.
    ///
    /// # Errors
    ///
    /// Returns those of the deserializer, which fails if what it reads isn't such a value.
    fn read<D: Deserializer<'de>>(deserializer: D) -> Result<Self, D::Error>;
}

/// The names of a point's coordinates.
const FIELDS: &[&str] = &["x", "y"];

/// A field of a point.
enum Field {
    X,
    Y,
    /// As where serde derives it, another field is skipped.
    Other,
}

struct FieldVisitor;

impl Visitor<'_> for FieldVisitor {
    type Value = Field;

    fn expecting(&self, formatter: &mut fmt::Formatter<'_>) -> fmt::Result {
        formatter.write_str("x or y")
    }

    fn visit_u64<E: serde::de::Error>(self, index: u64) -> Result<Field, E> {
        Ok(match index {
            0 => Field::X,
            1 => Field::Y,
            _ => Field::Other,
        })
    }

    fn visit_str<E: serde::de::Error>(self, name: &str) -> Result<Field, E> {
        self.visit_bytes(name.as_bytes())
    }

    fn visit_bytes<E: serde::de::Error>(self, name: &[u8]) -> Result<Field, E> {
        Ok(match name {
            b"x" => Field::X,
            b"y" => Field::Y,
            _ => Field::Other,
        })
    }
}

impl<'de> Deserialize<'de> for Field {
    fn deserialize<D: Deserializer<'de>>(deserializer: D) -> Result<Self, D::Error> {
        deserializer.deserialize_identifier(FieldVisitor)
    }
}

struct PointVisitor<I>(PhantomData<I>);

impl<'de, I: Deserialize<'de>> Visitor<'de> for PointVisitor<I> {
    type Value = IntPoint<I>;

    fn expecting(&self, formatter: &mut fmt::Formatter<'_>) -> fmt::Result {
        formatter.write_str("a point with x and y")
    }

    fn visit_seq<A: SeqAccess<'de>>(self, mut items: A) -> Result<Self::Value, A::Error> {
        let mut next = |index| {
            items
                .next_element()?
                .ok_or_else(|| A::Error::invalid_length(index, &"a point with x and y"))
        };
        Ok(IntPoint::new(next(0)?, next(1)?))
    }

    fn visit_map<A: MapAccess<'de>>(self, mut fields: A) -> Result<Self::Value, A::Error> {
        let (mut x, mut y) = (None, None);
        while let Some(field) = fields.next_key()? {
            let (name, place) = match field {
                Field::X => ("x", &mut x),
                Field::Y => ("y", &mut y),
                Field::Other => {
                    fields.next_value::<serde::de::IgnoredAny>()?;
                    continue;
                }
            };
            if place.is_some() {
                return Err(A::Error::duplicate_field(name));
            }
            *place = Some(fields.next_value()?);
        }
        Ok(IntPoint::new(
            x.ok_or_else(|| A::Error::missing_field("x"))?,
            y.ok_or_else(|| A::Error::missing_field("y"))?,
        ))
    }
}

impl<'de, I: Deserialize<'de>> Read<'de> for IntPoint<I> {
    fn read<D: Deserializer<'de>>(deserializer: D) -> Result<Self, D::Error> {
        deserializer.deserialize_struct("IntPoint", FIELDS, PointVisitor(PhantomData))
    }
}

impl<'de, T: Read<'de>> Read<'de> for Option<T> {
    fn read<D: Deserializer<'de>>(deserializer: D) -> Result<Self, D::Error> {
        Ok(Option::<Serde<T>>::deserialize(deserializer)?.map(|Serde(value)| value))
    }
}

struct ListVisitor<T>(PhantomData<T>);

impl<'de, T: Read<'de>> Visitor<'de> for ListVisitor<T> {
    type Value = Vec<T>;

    fn expecting(&self, formatter: &mut fmt::Formatter<'_>) -> fmt::Result {
        formatter.write_str("a list")
    }

    fn visit_seq<A: SeqAccess<'de>>(self, mut items: A) -> Result<Self::Value, A::Error> {
        // no room is made for a length that the data only claims
        let mut list = Vec::new();
        while let Some(Serde(item)) = items.next_element()? {
            list.push(item);
        }
        Ok(list)
    }
}

impl<'de, T: Read<'de>> Read<'de> for Vec<T> {
    fn read<D: Deserializer<'de>>(deserializer: D) -> Result<Self, D::Error> {
        deserializer.deserialize_seq(ListVisitor(PhantomData))
    }
}

impl<'de, I: IntNumber + Deserialize<'de>> Read<'de> for OwnedContours<I> {
    fn read<D: Deserializer<'de>>(deserializer: D) -> Result<Self, D::Error> {
        let contours = Vec::<IntContour<I>>::read(deserializer)?;
        OwnedContours::try_from_contours(&contours).map_err(D::Error::custom)
    }
}

impl<'de, I: IntNumber + Deserialize<'de>> Read<'de> for OwnedShapes<I> {
    fn read<D: Deserializer<'de>>(deserializer: D) -> Result<Self, D::Error> {
        let shapes = Vec::<IntShape<I>>::read(deserializer)?;
        OwnedShapes::try_from_shapes(&shapes).map_err(D::Error::custom)
    }
}
