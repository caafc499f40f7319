//! Why a call has an error.

use core::fmt;

/// Why a call has an error. On an error, slices lent to the call are unchanged unless it says otherwise.
#[derive(Clone, Copy, Debug, PartialEq, Eq, Hash)]
#[non_exhaustive]
pub enum Error {
    /// A point that the call reads has a coordinate outside the safe range, which lies strictly
    /// between -2^(W-2) and 2^(W-2) at W bits. Holds the index of the first such point: in the
    /// contour, in the points of flat contours, or in all contours of a shape or a list end to end.
    UnsafePoint(usize),
    /// A point that the call is asked about lies outside that range. Holds the index of the first
    /// such point among these.
    UnsafeAbout(usize),
    /// Offsets of contours don't divide the points, or ranges don't join. Holds the first one at
    /// fault, and `None` if there is no offset. Offsets are tested before the points are.
    BadOffsets(Option<BadOffset>),
    /// Offsets of shapes don't divide the contours. Holds the first one at fault, and `None` if there
    /// is no offset.
    BadShapeOffsets(Option<BadOffset>),
    /// A slice that the call writes is too short. Slices are tested before the points are.
    NoRoom {
        /// The number of items of the slice.
        room: usize,
        /// The number of items that it needs.
        needed: usize,
    },
    /// An allocation failed, or a vector would be too long.
    NoMemory,
    /// A contour has no point, and so no area.
    NoPoint,
}

/// An offset that is below the one before it, or above the number of items.
#[derive(Clone, Copy, Debug, PartialEq, Eq, Hash)]
pub struct BadOffset {
    /// Its index among the offsets.
    pub index: usize,
    /// The offset itself.
    pub offset: usize,
    /// The least that it may be: the one before it, or 0.
    pub least: usize,
    /// The most that it may be: the number of items. Of ranges, where one starts, the end of the one
    /// before, and where it ends, `usize::MAX`.
    pub most: usize,
}

impl BadOffset {
    /// Writes what is wrong. `items` names what the offsets are of, where that needs words.
    fn write(self, formatter: &mut fmt::Formatter<'_>, items: &str) -> fmt::Result {
        let BadOffset {
            index,
            offset,
            least,
            most,
        } = self;
        write!(formatter, "offset {index}{items} is {offset}, and not ")?;
        if least == most {
            write!(formatter, "{least}")
        } else if most == usize::MAX {
            write!(formatter, "at least {least}")
        } else {
            write!(formatter, "from {least} to {most}")
        }
    }
}

/// The safe range, in the words of messages: an error doesn't know the width of its point.
const SAFE_RANGE: &str = "safe range, strictly within ±2^14, ±2^30 or ±2^62 at 16, 32 or 64 bits";

impl fmt::Display for Error {
    fn fmt(&self, formatter: &mut fmt::Formatter<'_>) -> fmt::Result {
        match self {
            Error::UnsafePoint(index) => {
                write!(formatter, "point {index} isn't in the {SAFE_RANGE}")
            }
            Error::UnsafeAbout(index) => {
                write!(
                    formatter,
                    "point {index} of those asked about isn't in the {SAFE_RANGE}"
                )
            }
            Error::BadOffsets(Some(bad)) => bad.write(formatter, ""),
            Error::BadOffsets(None) => formatter.write_str("there is no offset"),
            Error::BadShapeOffsets(Some(bad)) => bad.write(formatter, " of shapes"),
            Error::BadShapeOffsets(None) => formatter.write_str("there is no offset of shapes"),
            Error::NoRoom { room, needed } => {
                write!(
                    formatter,
                    "a slice for the result has room for {room} items, fewer than {needed}"
                )
            }
            Error::NoMemory => formatter.write_str("out of memory"),
            Error::NoPoint => formatter.write_str("a contour has no point, and so no area"),
        }
    }
}

impl Error {
    /// Returns the same error for a list with `count` points before these.
    pub(crate) fn behind(self, count: usize) -> Self {
        match self {
            Error::UnsafePoint(index) => Error::UnsafePoint(count + index),
            other => other,
        }
    }
}

impl core::error::Error for Error {}

/// Returns the answer, or panics with the error's text.
#[track_caller]
pub(crate) fn answered<T>(answer: Result<T, Error>) -> T {
    answer.unwrap_or_else(|error| panic!("{error}"))
}
