// The README's links, for rustdoc: of two definitions of a link the first one counts. Those in the
// README are for readers of the repository.
//! [`int`]: mod@crate::int
//! [`int::simple`]: crate::int::simple
//! [`int::despike`]: crate::int::despike
//! [`int::canonical`]: crate::int::canonical
//! [`int::contacts`]: crate::int::contacts
//! [`int::area`]: crate::int::area
//! [`int::path`]: crate::int::path
//! [`int::count`]: crate::int::count
//! [`int::safe_range`]: crate::int::safe_range
//! [`int::winding`]: crate::int::winding
//! [`flat`]: mod@crate::flat
//! [`flat::offsets`]: crate::flat::offsets
//! [`flat::buffer`]: crate::flat::buffer
//! [`Contours`]: crate::flat::Contours
//! [`Shapes`]: crate::flat::Shapes
//! [`IntShapeResource`]: crate::source::int::resource::IntShapeResource
//! [`contour_point!`]: crate::contour_point!
//! [`Error`]: crate::Error
#![doc = include_str!("../README.md")]
#![no_std]

extern crate alloc;

pub mod base;
mod both_forms;
mod calls;
mod erased;
mod error;
mod fill_rule;
pub mod flat;
pub mod int;
mod location;
mod macros;
mod memory;
pub mod source;

pub use calls::library_version;
pub use error::{BadOffset, Error};
pub use fill_rule::FillRule;
pub use location::Location;
