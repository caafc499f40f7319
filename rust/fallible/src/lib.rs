//! What the erased crates use of Rattle's std and Rust's doesn't have: lists and texts whose growth can fail.
#![no_std]
#![forbid(unsafe_code)]
#![warn(missing_docs)]

extern crate alloc as rust_alloc;

pub mod alloc;
mod list;
mod string;
mod unsigned;

pub use list::Vec;
pub use string::String;
pub use unsigned::Unsigned;

/// Rattle's `vec!`: a list of these items, as `vec![in alloc; x, y]?`, or of `n` clones of one, as
/// `vec![in alloc; x; n]?`.
#[allow(
    unused_macros,
    reason = "only some of the erased crates make lists by it"
)]
macro_rules! vec {
    (in $alloc:expr; $item:expr; $count:expr) => {
        $crate::Vec::from_elem($alloc, $item, $count)
    };
    (in $alloc:expr; $($item:expr),* $(,)?) => {
        $crate::Vec::from_array($alloc, [$($item),*])
    };
}
#[allow(
    unused_imports,
    reason = "only some of the erased crates make lists by it"
)]
pub(crate) use vec;
